//! Frames that nobody should send: identifiers, lengths and fields at random or just beside what is taken.

use crate::limits;
use crate::pair::{Pair, Verdict};
use crate::random::Random;
use crate::sender::{any_pgn, data_frame, good_max, good_pgn, good_total, identifier, Control, Frame, Line};
use crate::sender::{CAN_LENGTHS, CONTROL, DATA, MULTI_PG};
use rules::receiver::{Kind, Limits, Receiver, Session};

pub fn run(pair: &mut Pair, random: &mut Random, calls: u64) -> Verdict<()> {
    while pair.tally.calls < calls {
        let own = if random.once_in(2) { random.below(254) as u8 } else { random.pick(&[0, 1, 33, 252, 253]) };
        let limits = limits::two(random, |random| random.between_u32(1, 60_000));
        pair.open(own, limits, random.u32())?;
        for _ in 0..300 {
            let state = pair.state().unwrap_or_else(|| Receiver::open(own, Limits::both(1), 0).0);
            let frame = any_frame(random, &state);
            pair.frame(frame.id, &frame.bytes)?;
        }
    }
    Ok(())
}

/// A frame of any sort for a receiver in this state.
pub fn any_frame(random: &mut Random, state: &Receiver) -> Frame {
    match random.below(13) {
        0 => noise(random),
        1 | 2 => beside(random, state.own),
        12 => groups(random, state.own),
        3..=5 => announcement(random, state),
        6..=8 => segment(random, state),
        9 | 10 => status_or_abort(random, state),
        _ => other_control(random, state),
    }
}

/// Any identifier, also above 29 bits, and any bytes.
fn noise(random: &mut Random) -> Frame {
    let edge = random.pick(&[0x1FFF_FFFF, 0x2000_0000, 0x2000_0001, u32::MAX, 0]);
    let id = match random.below(8) {
        0 => edge,
        1..=4 => random.u32() >> 3,
        _ => random.u32(),
    };
    let length = if random.once_in(3) { random.below(80) } else { random.pick(&CAN_LENGTHS) };
    Frame { id, bytes: random.bytes(length) }
}

/// Fields of the identifier near those that are taken.
fn beside(random: &mut Random, own: u8) -> Frame {
    let pf = random.pick(&[36, MULTI_PG, MULTI_PG, 38, 76, CONTROL, CONTROL, DATA, DATA, 79, 205, 206, 255]);
    let da = random.pick(&[own, own, own, 255, 255, 254, own.wrapping_add(1), own.wrapping_sub(1)]);
    let sa = random.pick(&[own, 254, 255, 253, 0, 17, own.wrapping_add(1), own.wrapping_sub(1)]);
    let mut id = identifier(random, pf, da, sa);
    if random.once_in(4) {
        id |= (random.below(3) as u32 + 1) << 24;
    }
    if random.once_in(8) {
        id |= 1 << random.between(29, 31);
    }
    let length = if random.once_in(4) { random.below(70) } else { random.pick(&[4, 5, 8, 12, 12, 12, 16, 64]) };
    let mut bytes = random.bytes(length);
    if length > 0 && random.once_in(2) {
        bytes[0] &= 0xF0;
    }
    Frame { id, bytes }
}

/// The first byte of a group, of any service type; most have one of the six good pairs.
const GROUP_FIRST: [u8; 16] =
    [0x40, 0x40, 0x40, 0x24, 0x24, 0x28, 0x28, 0x2C, 0x2C, 0x34, 0x34, 0x38, 0x38, 0x20, 0x30, 0x64];

/// A Multi-PG frame of one group, with a trailer or without, good or cut.
fn groups(random: &mut Random, own: u8) -> Frame {
    let line = line(random, own);
    let length = random.pick(&[3, 4, 5, 8, 12, 64]);
    let mut bytes = random.bytes(length);
    let first = GROUP_FIRST[usize::from(bytes[0] % 16)];
    bytes[..3].copy_from_slice(&[first, 0xFE, 0xCA]);
    if length > 3 {
        bytes[3] = (length - 4) as u8 + u8::from(random.once_in(3));
    }
    Frame { id: identifier(random, MULTI_PG, line.da, line.sa), bytes }
}

/// Few enough lines that they meet.
fn line(random: &mut Random, own: u8) -> Line {
    let sa = random.pick(&[own.wrapping_add(1), own.wrapping_add(2), own.wrapping_sub(3), 253, 0]);
    let da = if random.once_in(2) { own } else { 255 };
    Line { sa, da, session: random.pick(&[0, 1, 7, 15]) }
}

fn open_session(random: &mut Random, state: &Receiver) -> Option<Session> {
    let open: Vec<Session> = state.slots.iter().flatten().copied().collect();
    (!open.is_empty()).then(|| random.pick(&open))
}

fn line_of(session: &Session) -> Line {
    Line { sa: session.key.sa, da: session.key.da, session: session.key.session }
}

fn announcement(random: &mut Random, state: &Receiver) -> Frame {
    let mut line = line(random, state.own);
    let mut pgn = if random.once_in(4) { any_pgn(random) } else { good_pgn(random) };
    if let (Some(session), true) = (open_session(random, state), random.once_in(6)) {
        line = line_of(&session);
        if !random.once_in(3) {
            pgn = session.pgn;
        }
    }
    let is_rts = (line.da != 255) != random.once_in(12);
    let mut total = good_total(random);
    if random.once_in(6) {
        total = random.pick(&[0, 4097, 4098, 4140, 4141, 65_536, 0xFF_FFFF]);
    }
    let mut segments = total.div_ceil(60);
    if random.once_in(6) {
        segments = random.pick(&[0, 1, segments + 1, segments.saturating_sub(1), segments + 0x1_0000, 0xFF_FFFF]);
    }
    let byte8 = if random.once_in(8) { 0 } else { good_max(random) };
    let byte9 = if random.once_in(8) { random.pick(&[1, 2, 3, 4, 128, 255]) } else { 0 };
    Control { control: if is_rts { 0 } else { 4 }, total, segments, byte8, byte9, pgn }.frame(random, line)
}

fn segment(random: &mut Random, state: &Receiver) -> Frame {
    let Some(session) = open_session(random, state) else {
        return announcement(random, state);
    };
    let line = if random.once_in(10) { line(random, state.own) } else { line_of(&session) };
    let number = segment_number(random, &session);
    // The record may be one that no receiver wrote.
    let before = number.wrapping_sub(1).saturating_mul(60);
    let left = session.total_bytes.saturating_sub(before).min(60) as usize;
    let length = match random.below(8) {
        0 => left.saturating_sub(1),
        1 => random.below(61),
        2 => random.pick(&[1, 4, 8, 12, 16, 20, 28, 44]),
        _ => left,
    };
    let data = random.bytes(length);
    let mut frame = data_frame(random, line, number, &data);
    if random.once_in(16) {
        frame.bytes[0] |= 1 << random.below(4);
    }
    if random.once_in(16) {
        frame.bytes.truncate(random.pick(&[3, 4, 5, 8, 48, 63]));
    }
    frame
}

/// Mostly one that can be taken: of an RTS any that is not in, or the last one granted.
fn segment_number(random: &mut Random, session: &Session) -> u32 {
    let mut missing = (1..=session.segments.clamp(1, 72)).filter(|&n| !session.taken.has(n));
    let next = match session.kind {
        Kind::Bam => session.next,
        Kind::Rts if random.once_in(4) => session.granted,
        Kind::Rts if random.once_in(2) => missing.next().unwrap_or(1),
        Kind::Rts => random.pick(&missing.chain([1]).collect::<Vec<u32>>()),
    };
    match random.below(24) {
        0 => random.pick(&[0, 1, next.wrapping_sub(1), next / 2]),
        1 => random.pick(&[next.wrapping_add(1), next | 0x100, next | 0x1_0000, 0xFF_FFFF]),
        2 => random.pick(&[session.segments, session.segments.wrapping_add(1)]),
        _ => next,
    }
}

fn status_or_abort(random: &mut Random, state: &Receiver) -> Frame {
    let Some(session) = open_session(random, state) else {
        return announcement(random, state);
    };
    let mut line = line_of(&session);
    if random.once_in(6) {
        line.da = if line.da == 255 { state.own } else { 255 };
    }
    if random.once_in(8) {
        line.session ^= 1 << random.below(4);
    }
    let (total, segments, pgn) = (session.total_bytes, session.segments, session.pgn);
    let mut control = Control { control: 2, total, segments, byte8: random.byte(), byte9: 0, pgn };
    match random.below(12) {
        0 => control.total ^= 1 << random.below(24),
        1 => control.segments ^= 1 << random.below(24),
        2 => control.byte9 = random.byte(),
        3 | 4 => control.pgn ^= 1 << random.below(24),
        5..=8 => {}
        // An Abort, mostly the originator's.
        _ => {
            control.control = 15;
            control.byte8 = random.byte();
            if !random.once_in(3) {
                control.byte8 &= 0b1111_1100;
            }
            control.byte9 = random.byte();
            if random.once_in(3) {
                control.pgn ^= 1 << random.below(24);
            }
        }
    }
    control.frame(random, line)
}

/// Any of the sixteen controls, with any bytes or of any length.
fn other_control(random: &mut Random, state: &Receiver) -> Frame {
    let line = line(random, state.own);
    let mut frame = Control {
        control: random.below(16) as u8,
        total: random.u32(),
        segments: random.u32(),
        byte8: random.byte(),
        byte9: random.pick(&[0, 0, 0, 1, 255]),
        pgn: any_pgn(random),
    }
    .frame(random, line);
    if random.once_in(3) {
        frame.bytes.resize(random.pick(&[0, 1, 8, 11, 13, 16, 20, 64]), 0xFF);
    }
    frame
}

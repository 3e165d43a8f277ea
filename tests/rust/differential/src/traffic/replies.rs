//! Control frames for a sender in some state: what a responder would say, what it should not, and what is no reply at all.

use crate::random::Random;
use crate::sender::{any_pgn, identifier, Control, Frame, Line, CAN_LENGTHS, CONTROL, DATA, MULTI_PG};
use rules::sending::{Sender, Transfer};

/// One transfer that is open, if any is.
pub fn open_transfer(random: &mut Random, state: &Sender) -> Option<Transfer> {
    let open: Vec<Transfer> = state.transfers.iter().flatten().copied().collect();
    (!open.is_empty()).then(|| random.pick(&open))
}

/// Mostly what the transfer waits for, one in five with something wrong about it.
pub fn any_reply(random: &mut Random, state: &Sender) -> Frame {
    let Some(transfer) = open_transfer(random, state) else {
        return any_control(random, state.own);
    };
    let control = match random.below(20) {
        0..=8 => grant(random, &transfer),
        9 => bad_grant(random, &transfer),
        10..=12 => none_or_request(random),
        13..=15 => acknowledgment(random, &transfer),
        16 => Control { control: 15, byte8: random.byte() & 0b1111_1100 | 1, ..any_fields(random) },
        17 => Control { control: 15, ..any_fields(random) },
        18 => Control { control: random.below(16) as u8, ..any_fields(random) },
        _ => return any_control(random, state.own),
    };
    // A broadcast has no responder; the frame comes from somebody.
    let sa = if transfer.is_broadcast() { state.own.wrapping_add(1) % 254 } else { transfer.destination };
    let line = Line { sa, da: state.own, session: transfer.session };
    let mut frame = Control { pgn: transfer.pgn, ..control }.frame(random, line);
    if random.once_in(5) {
        damage(random, &mut frame, state.own);
    }
    frame
}

/// Reserved fields and the PGN as anything.
fn any_fields(random: &mut Random) -> Control {
    let (total, segments) = (random.u32(), random.u32());
    Control { control: 0, total, segments, byte8: random.byte(), byte9: random.byte(), pgn: any_pgn(random) }
}

/// A CTS for segments of the message: those that come next, all, or any run; its request code is mostly 0.
fn grant(random: &mut Random, transfer: &Transfer) -> Control {
    // The record may be one that no sender wrote.
    let segments = transfer.total_bytes.div_ceil(60).clamp(1, 69);
    let next = match random.below(4) {
        0 => 1,
        1 => random.between_u32(1, segments),
        2 => segments,
        _ => transfer.next.clamp(1, segments),
    };
    let most = segments - next + 1;
    let count = if random.once_in(3) { most } else { random.between_u32(1, most) };
    let request = if random.once_in(6) { random.pick(&[1, 2, 255]) } else { 0 };
    Control { control: 1, segments: next, byte8: count as u8, byte9: request, ..any_fields(random) }
}

/// A CTS with a segment that is not in the message: 0, past the end, or too many.
fn bad_grant(random: &mut Random, transfer: &Transfer) -> Control {
    let segments = transfer.total_bytes.div_ceil(60).clamp(1, 69);
    let far = random.pick(&[0x100, 0x1_0000, 0xFF_FF00]) | segments;
    let (next, count) = random.pick(&[
        (0, 1),
        (0, segments + 1),
        (segments + 1, 1),
        (segments, 2),
        (1, segments + 1),
        (1, 255),
        (0xFF_FFFF, 255),
        (far, 1),
    ]);
    let request = random.pick(&[0, 0, 1, 255]);
    Control { control: 1, segments: next, byte8: count as u8, byte9: request, ..any_fields(random) }
}

/// A CTS for none, or one that asks for the EOMS.
fn none_or_request(random: &mut Random) -> Control {
    let is_request = random.once_in(2);
    let (byte8, byte9) =
        if is_request { (random.pick(&[0, 1, 16, 255]), 1) } else { (0, random.pick(&[0, 1, 2, 255])) };
    Control { control: 1, byte8, byte9, ..any_fields(random) }
}

/// An EOMA, now and then with other totals.
fn acknowledgment(random: &mut Random, transfer: &Transfer) -> Control {
    let (total, segments) = (transfer.total_bytes, transfer.total_bytes.div_ceil(60));
    let mut control = Control { control: 3, total, segments, ..any_fields(random) };
    match random.below(6) {
        0 => control.total ^= 1 << random.below(24),
        1 => control.segments ^= 1 << random.below(24),
        _ => {}
    }
    control
}

fn damage(random: &mut Random, frame: &mut Frame, own: u8) {
    match random.below(12) {
        0 | 1 => frame.id |= 0xFF << 8,
        2 => frame.id ^= 1 << random.below(32),
        3 => frame.id = frame.id & !0xFF | u32::from(random.pick(&[254, 255, own, own.wrapping_add(2)])),
        4 => frame.bytes[0] ^= 0x10 << random.below(4),
        5..=7 => frame.bytes[9 + random.below(3)] ^= 1 << random.below(8),
        8 => frame.bytes.resize(random.pick(&CAN_LENGTHS), 0xFF),
        9 => frame.bytes.resize(random.below(70), 0xFF),
        10 => frame.id = frame.id & !0xFF_0000 | u32::from(random.pick(&[MULTI_PG, DATA, 76, 205])) << 16,
        _ => {
            let at = random.below(12);
            frame.bytes[at] ^= 1 << random.below(8);
        }
    }
}

/// Any of the sixteen controls from anybody, with any bytes.
fn any_control(random: &mut Random, own: u8) -> Frame {
    let sa = random.pick(&[0, 1, 128, 253, 254, 255, own, own.wrapping_add(1)]);
    let da = random.pick(&[own, own, own, 255, 254, own.wrapping_sub(1)]);
    let control = random.pick(&[0, 1, 1, 2, 3, 3, 4, 5, 14, 15, 15]);
    let session = random.below(16) as u8;
    let id = identifier(random, CONTROL, da, sa);
    Frame { id, bytes: Control { control, ..any_fields(random) }.bytes(session) }
}

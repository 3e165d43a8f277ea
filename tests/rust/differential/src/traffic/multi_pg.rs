//! Multi-PG frames, good and damaged, with and without trailers (02 E5). Of most of them it is known here what they have to bring.

use crate::groups::{self, trailer_of, PAIRS};
use crate::pair::{expect, Pair, Verdict};
use crate::random::Random;
use crate::sender::{good_pgn, identifier, CAN_LENGTHS, MULTI_PG};
use crate::trailers;
use rules::calls::Code;
use rules::receiver::Limits;

const OWN: u8 = 33;

pub fn frames(pair: &mut Pair, random: &mut Random, calls: u64) -> Verdict<()> {
    pair.open(OWN, Limits::both(1_250), 0)?;
    every_header(pair, random)?;
    while pair.tally.calls < calls {
        match random.below(4) {
            0 => good(pair, random)?,
            1 | 2 => faulty(pair, random)?,
            _ => damaged(pair, random)?,
        }
    }
    trailers::all_met(&pair.tally.trailers, trailers::due_of_frames())
}

/// What the frame and its groups are refused with, 0 where they are not.
fn number_of(pair: &mut Pair, random: &mut Random, bytes: &[u8]) -> Verdict<u8> {
    let da = random.pick(&[OWN, 255]);
    let id = identifier(random, MULTI_PG, da, 128);
    let given = pair.frame(id, bytes)?;
    let number = (pair.groups(bytes)? >> 8) as u8;
    let is_same = given.number() == number && given.is(Code::Groups) == (number == 0);
    expect(is_same, || format!("frame and groups differ on {bytes:02X?}: {} and {number}", given.number()))?;
    Ok(number)
}

fn brings(pair: &mut Pair, random: &mut Random, bytes: &[u8], due: u8) -> Verdict<()> {
    let number = number_of(pair, random, bytes)?;
    expect(number == due, || format!("{bytes:02X?} brought {number}, not {due}"))
}

/// One place of every service type and trailer format, with length bytes around those of the trailers; zeros behind.
fn every_header(pair: &mut Pair, random: &mut Random) -> Verdict<()> {
    for first in (0..=255).step_by(4) {
        for counted in 0..=13 {
            for length in [4, 7, 8, 12, 16] {
                let mut bytes = vec![first, 0xFE, 0xCA, counted];
                bytes.resize(length, 0);
                let due = due_of_header(first >> 5, first >> 2 & 0b111, counted.into(), length - 4);
                brings(pair, random, &bytes, due)?;
            }
        }
    }
    Ok(())
}

fn due_of_header(service: u8, format: u8, counted: usize, room: usize) -> u8 {
    match (service, trailer_of(service, format)) {
        (0, _) => 0,
        (3.., _) => 6,
        (_, None) => 7,
        (_, Some(trailer)) if counted < trailer || counted > room => 5,
        _ => 0,
    }
}

fn padded(random: &mut Random, mut bytes: Vec<u8>, length: usize) -> Vec<u8> {
    // Three zeros, then anything; or one byte all through whose top three bits are 0.
    let padding = random.pick(&[0x00, 0xAA, 0x1F, 0x20]);
    if padding != 0x1F {
        bytes.resize(length.min(bytes.len() + 3), 0);
    }
    bytes.resize(length, padding);
    bytes
}

/// Every group is read as it was meant.
fn good(pair: &mut Pair, random: &mut Random) -> Verdict<()> {
    let length = random.pick(&CAN_LENGTHS);
    let is_full = length >= 4 && random.once_in(3);
    let meant = if is_full { groups::filling(random, length) } else { groups::within(random, length) };
    let bytes = padded(random, groups::bytes(&meant), length);
    brings(pair, random, &bytes, 0)?;
    groups::are_read(pair, &bytes, &meant)
}

/// Good groups, and behind them a place with one fault or two up to the frame's end.
fn faulty(pair: &mut Pair, random: &mut Random) -> Verdict<()> {
    let length = random.pick(&CAN_LENGTHS[1..]);
    let most = if random.once_in(3) { length } else { length.min(16) };
    let mut size = random.between(1, most);
    if length - size < 4 {
        size = length;
    }
    let (place, due) = bad_place(random, size);
    let mut bytes = groups::bytes(&groups::filling(random, length - size));
    bytes.extend(place);
    brings(pair, random, &bytes, due)
}

/// A place of so many bytes, and what it is refused with.
fn bad_place(random: &mut Random, size: usize) -> (Vec<u8>, u8) {
    let faults = [random.pick(&[5, 6, 7, 8]), random.pick(&[0, 0, 5, 6, 7, 8])];
    let has = |fault: u8| faults.contains(&fault);
    let (mut service, mut format, trailer) = random.pick(&PAIRS);
    let mut pgn = good_pgn(random);
    if has(7) {
        format = if service == 1 { random.pick(&[0, 4, 7]) } else { random.between(1, 7) as u8 };
    }
    if has(6) {
        service = random.between(3, 7) as u8;
    }
    if has(8) {
        pgn = (random.below(4) << 16 | random.below(240) << 8 | random.between(1, 255)) as u32;
    }
    let room = size.saturating_sub(4);
    let counted = match has(5) || trailer > room {
        true => bad_length(random, trailer, room),
        false => random.between(trailer, room),
    };
    let [_, top, middle, low] = pgn.to_be_bytes();
    let mut place = vec![service << 5 | format << 2 | top, middle, low, counted as u8];
    place.extend(random.bytes(room));
    place.truncate(size);
    let due = if size < 4 { 4 } else { [6, 7, 8].into_iter().find(|&fault| has(fault)).unwrap_or(5) };
    (place, due)
}

/// A length byte that passes the frame's end, often by one, or is less than the trailer.
fn bad_length(random: &mut Random, trailer: usize, room: usize) -> usize {
    let past = [room + 1, random.between(room + 1, 255)];
    if trailer == 0 {
        return random.pick(&past);
    }
    let less = [random.below(trailer), room.min(trailer - 1)];
    random.pick(&[past, less].concat())
}

/// Any damage to a good frame.
fn damaged(pair: &mut Pair, random: &mut Random) -> Verdict<()> {
    let length = random.pick(&CAN_LENGTHS);
    let bytes = groups::bytes(&groups::within(random, length));
    let mut bytes = padded(random, bytes, length);
    damage(random, &mut bytes);
    number_of(pair, random, &bytes).map(drop)
}

fn damage(random: &mut Random, bytes: &mut Vec<u8>) {
    match random.below(8) {
        0 => bytes.truncate(random.below(bytes.len() + 1)),
        1 => bytes.truncate(random.pick(&CAN_LENGTHS)),
        2 => bytes.resize(random.between(0, 80), 0),
        3 => *bytes = random.bytes(bytes.len()),
        // A last group that the frame cuts, in its head, its data or its trailer.
        4 if bytes.len() >= 4 => {
            let at = bytes.len() - random.between(1, bytes.len().min(14));
            bytes[at] = random.pick(&[0x40, 0x24, 0x28, 0x2C, 0x34, 0x38]);
        }
        _ => {
            for _ in 0..random.between(1, 3) {
                if !bytes.is_empty() {
                    let at = random.below(bytes.len().min(12));
                    bytes[at] ^= 1 << random.below(8);
                }
            }
        }
    }
}

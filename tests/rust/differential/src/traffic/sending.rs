//! The sender's calls in any order: opened, announcing, asked for frames, replied to, read the clock.

use crate::pair::{expect, Pair, Sizes, Verdict, RIGHT};
use crate::random::Random;
use crate::sender::{any_pgn, good_pgn, good_total};
use crate::traffic::replies::{any_reply, open_transfer};
use crate::traffic::sender_records;
use rules::sending::Sender;

const LENGTHS: [usize; 10] = [0, 1, 2, 59, 60, 61, 120, 4_095, 4_096, 4_097];
/// Bytes of which every lent message is a part.
pub const POOL_BYTES: usize = 6_000;

/// Transfers from the announcement to the end, with calls between that are refused.
pub fn calls(pair: &mut Pair, random: &mut Random, calls: u64) -> Verdict<()> {
    let pool = random.bytes(POOL_BYTES);
    while pair.tally.calls < calls {
        pair.sender_open(own(random), limit(random), random.u32())?;
        for _ in 0..400 {
            any_call(pair, random, &pool)?;
        }
    }
    Ok(())
}

/// Openings with any values, good and bad, and a call of each kind on what they gave.
pub fn openings(pair: &mut Pair, random: &mut Random, calls: u64) -> Verdict<()> {
    let pool = random.bytes(POOL_BYTES);
    for own in 0..=255 {
        for limit in [0, 1, 2, 59_999, 60_000, 60_001, 65_536, u32::MAX] {
            pair.sender_open(own, limit, random.u32())?;
            any_call(pair, random, &pool)?;
            // A refused opening's record is refused by every call.
            let (number, _) = pair.sender_reading(random.u32())?;
            let is_good = own <= 253 && (1..=60_000).contains(&limit);
            expect((number == 0) == is_good, || format!("opening {own}, {limit}: then a reading gave {number}"))?;
        }
    }
    while pair.tally.calls < calls {
        pair.sizes.sender = if random.once_in(4) { random.below(160) } else { RIGHT.sender };
        pair.sender_open(random.byte(), random.u32() >> random.below(32), random.u32())?;
        pair.sizes = RIGHT;
        any_call(pair, random, &pool)?;
    }
    Ok(())
}

/// Any of the lent buffers too short or too long.
pub fn other_lengths(pair: &mut Pair, random: &mut Random, calls: u64) -> Verdict<()> {
    let pool = random.bytes(POOL_BYTES);
    while pair.tally.calls < calls {
        sender_records::set_in_bounds(pair, random);
        for _ in 0..6 {
            pair.sizes = other_sizes(random);
            any_call(pair, random, &pool)?;
            pair.sizes = RIGHT;
            any_call(pair, random, &pool)?;
        }
    }
    Ok(())
}

fn other_sizes(random: &mut Random) -> Sizes {
    let mut sizes = RIGHT;
    let which = random.below(5);
    if which == 0 || which == 4 {
        sizes.sender = random.pick(&[0, 1, 9, 35, 87, 112, 114, 139, 160]);
    }
    if which == 1 || which == 4 {
        sizes.frame = random.pick(&[0, 1, 12, 48, 63, 65, 128]);
    }
    if which == 2 || which == 4 {
        sizes.answer = random.pick(&[0, 1, 19, 35, 37, 72]);
    }
    if which == 3 || which == 4 {
        sizes.transfer_answers = random.pick(&[0, 1, 36, 108, 143, 145, 180]);
    }
    sizes
}

pub fn own(random: &mut Random) -> u8 {
    if random.once_in(2) {
        random.below(254) as u8
    } else {
        random.pick(&[0, 1, 33, 252, 253])
    }
}

pub fn limit(random: &mut Random) -> u32 {
    random.pick(&[1, 2, 100, 1_250, 59_999, 60_000])
}

/// A call of the sender's on the record that is there.
pub fn any_call(pair: &mut Pair, random: &mut Random, pool: &[u8]) -> Verdict<()> {
    let state = pair.sender_state();
    let is_idle = state.transfers.iter().all(Option::is_none);
    match random.below(20) {
        0..=2 => announce(pair, random, &state, pool),
        3..=12 if is_idle && !random.once_in(8) => announce(pair, random, &state, pool),
        3..=12 => ask(pair, random, &state, pool),
        13..=17 => {
            let frame = any_reply(random, &state);
            pair.sender_frame(frame.id, &frame.bytes).map(drop)
        }
        _ => pair.sender_reading(next_reading(random, &state)).map(drop),
    }
}

/// A part of the pool.
fn lent<'a>(random: &mut Random, pool: &'a [u8], length: usize) -> &'a [u8] {
    let start = random.below(pool.len() - length + 1);
    &pool[start..start + length]
}

/// To few enough destinations that they meet, one in four with something wrong about it.
pub fn announce(pair: &mut Pair, random: &mut Random, state: &Sender, pool: &[u8]) -> Verdict<()> {
    let own = state.own;
    let mut da = random.pick(&[own.wrapping_add(1) % 254, 0, 253, 255, 255]);
    let mut session = random.pick(&[0, 1, 7, 15]);
    let mut pgn = good_pgn(random);
    let mut length = good_total(random) as usize;
    match random.below(16) {
        0 => da = random.pick(&[254, own]),
        1 => session = random.pick(&[16, 17, 128, 255]),
        2 if random.once_in(2) => pgn = any_pgn(random),
        2 => pgn = random.pick(&[1 << 18, 1 << 24 | pgn, 1 << 31 | pgn, u32::MAX]),
        3 => length = random.pick(&LENGTHS),
        4 => (da, pgn, length) = (254, random.u32(), 4_097),
        _ => {}
    }
    pair.announce(da, session, pgn, lent(random, pool, length)).map(drop)
}

/// Mostly for a transfer that is open, with a message of its length.
pub fn ask(pair: &mut Pair, random: &mut Random, state: &Sender, pool: &[u8]) -> Verdict<()> {
    let (mut da, mut session, mut length) = match open_transfer(random, state) {
        Some(transfer) => (transfer.destination, transfer.session, transfer.total_bytes as usize),
        None => (random.pick(&[0, 253, 255]), 1, 61),
    };
    match random.below(24) {
        0 => da = random.pick(&[0, 253, 254, 255, state.own]),
        1 => session = random.pick(&[session.wrapping_add(1), session ^ 16, 255]),
        2 => length = random.pick(&LENGTHS),
        3 => length = random.pick(&[length.saturating_sub(1), length.saturating_add(1)]),
        _ => {}
    }
    // The record may be one that no sender wrote.
    let length = length.min(POOL_BYTES);
    pair.next_frame(da, session, lent(random, pool, length)).map(drop)
}

/// Mostly near the last reading, else near a mark or a mark and the limit.
pub fn next_reading(random: &mut Random, state: &Sender) -> u32 {
    let mark = open_transfer(random, state).map_or(state.last_reading, |transfer| transfer.mark);
    let at_limit = mark.wrapping_add(state.limit);
    match random.below(16) {
        0 => at_limit,
        1 | 2 => at_limit.wrapping_sub(1),
        3 => random.pick(&[mark, mark.wrapping_sub(1), at_limit.wrapping_add(1)]),
        4 if random.once_in(4) => random.pick(&[0, u32::MAX, 1 << 31, mark ^ 1 << 31]),
        5..=9 => state.last_reading,
        _ => state.last_reading.wrapping_add(random.below(state.limit as usize / 20 + 1) as u32),
    }
}

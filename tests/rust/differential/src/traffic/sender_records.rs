//! Sender's records that no sender of ours wrote.

use crate::pair::{Pair, Verdict};
use crate::random::Random;
use crate::sender::{any_pgn, good_pgn, good_total};
use crate::traffic::sending::{any_call, limit, own, POOL_BYTES};
use rules::sender_calls::{write_sender, SENDER_BYTES};
use rules::sending::{Sender, Transfer, TRANSFERS};
use std::ops::Range;

/// Where transfer `i` stands in a record.
fn transfer_at(i: usize) -> Range<usize> {
    9 + 26 * i..35 + 26 * i
}

/// Any bytes, half of them behind a good opening and with few transfers open.
pub fn any_bytes(pair: &mut Pair, random: &mut Random, calls: u64) -> Verdict<()> {
    let pool = random.bytes(POOL_BYTES);
    while pair.tally.calls < calls {
        let mut record = [0; SENDER_BYTES];
        random.fill(&mut record);
        if random.once_in(2) {
            let opening = Sender::open(own(random), limit(random), random.u32()).0;
            record[..9].copy_from_slice(&write_sender(&opening)[..9]);
            for i in 0..TRANSFERS {
                let open = u8::from(random.once_in(8));
                record[transfer_at(i).start] = if random.once_in(4) { random.byte() } else { open };
            }
        }
        pair.set_sender(&record);
        few_calls(pair, random, &pool)?;
    }
    Ok(())
}

/// In bounds at the edges, half of them with one field moved over an edge.
pub fn edges(pair: &mut Pair, random: &mut Random, calls: u64) -> Verdict<()> {
    let pool = random.bytes(POOL_BYTES);
    while pair.tally.calls < calls {
        let mut state = in_bounds(random);
        if random.once_in(2) {
            break_one_field(random, &mut state);
        }
        set_state(pair, random, &state);
        few_calls(pair, random, &pool)?;
    }
    Ok(())
}

/// In bounds, then with one bit of the record turned, now and then three.
pub fn turned_bits(pair: &mut Pair, random: &mut Random, calls: u64) -> Verdict<()> {
    let pool = random.bytes(POOL_BYTES);
    while pair.tally.calls < calls {
        set_in_bounds(pair, random);
        few_calls(pair, random, &pool)?;
        turn_bits(pair, random);
        few_calls(pair, random, &pool)?;
    }
    Ok(())
}

pub fn turn_bits(pair: &mut Pair, random: &mut Random) {
    let mut record: [u8; SENDER_BYTES] = pair.sender().try_into().expect("of that length");
    for _ in 0..random.pick(&[1, 1, 1, 3]) {
        let at = random.below(SENDER_BYTES);
        record[at] ^= 1 << random.below(8);
    }
    pair.set_sender(&record);
}

fn few_calls(pair: &mut Pair, random: &mut Random, pool: &[u8]) -> Verdict<()> {
    for _ in 0..random.between(1, 8) {
        any_call(pair, random, pool)?;
    }
    Ok(())
}

pub fn set_in_bounds(pair: &mut Pair, random: &mut Random) {
    let state = in_bounds(random);
    set_state(pair, random, &state);
}

/// The state as bytes, with anything behind the first byte of a free transfer, and any no but 0 in the three bytes of an open one.
pub fn set_state(pair: &mut Pair, random: &mut Random, state: &Sender) {
    let mut record = write_sender(state);
    for (i, place) in state.transfers.iter().enumerate() {
        let bytes = &mut record[transfer_at(i)];
        if place.is_none() {
            random.fill(bytes);
            bytes[0] = random.pick(&[0, 0, 0, 2, 128, 255]);
        } else if random.once_in(3) {
            for flag in bytes[11..14].iter_mut().filter(|flag| **flag == 0) {
                *flag = random.pick(&[0, 2, 3, 129, 255]);
            }
        }
    }
    pair.set_sender(&record);
}

pub fn in_bounds(random: &mut Random) -> Sender {
    let mut state = Sender::open(own(random), limit(random), random.u32()).0;
    for i in 0..TRANSFERS {
        let transfer = transfer_in_bounds(random, &state);
        let key = (transfer.destination, transfer.session);
        let is_new = state.transfers.iter().flatten().all(|other| (other.destination, other.session) != key);
        if is_new && !random.once_in(4) {
            state.transfers[i] = Some(transfer);
        }
    }
    state
}

fn transfer_in_bounds(random: &mut Random, state: &Sender) -> Transfer {
    let all = [0, 1, 128, 252, 253, 255, 255];
    let destinations: Vec<u8> = all.into_iter().filter(|&da| da != state.own).collect();
    let destination = random.pick(&destinations);
    let total_bytes = good_total(random);
    let segments = total_bytes.div_ceil(60);
    let any_granted = random.between_u32(0, segments);
    let granted = if destination == 255 { segments } else { random.pick(&[0, 1, segments, segments, any_granted]) };
    let any_next = random.between_u32(1, granted + 1);
    let [last_out, status_out, status_owed] = [0, 1, 2].map(|_| random.once_in(2));
    let silent = random.below(state.limit as usize) as u32;
    Transfer {
        destination,
        session: random.pick(&[0, 1, 14, 15]),
        pgn: good_pgn(random),
        total_bytes,
        next: random.pick(&[1, granted.max(1), granted + 1, any_next]),
        granted,
        last_out,
        status_out,
        status_owed: status_owed && random.once_in(2),
        mark: if random.once_in(6) { random.u32() } else { state.last_reading.wrapping_sub(silent) },
    }
}

fn break_one_field(random: &mut Random, state: &mut Sender) {
    let own = state.own;
    let at = random.below(TRANSFERS);
    let doubled = state.transfers[random.below(TRANSFERS)];
    if random.once_in(8) {
        state.limit = random.pick(&[0, 60_001, 65_536, u32::MAX]);
    } else if random.once_in(8) {
        state.own = random.pick(&[254, 255]);
    }
    let Some(transfer) = &mut state.transfers[at] else {
        state.transfers[at] = doubled;
        return;
    };
    let segments = transfer.total_bytes.div_ceil(60);
    match random.below(10) {
        0 => transfer.destination = random.pick(&[254, own]),
        1 => transfer.session = random.pick(&[16, 17, 128, 255]),
        2 if random.once_in(2) => transfer.pgn = random.u32(),
        2 => transfer.pgn = any_pgn(random),
        3 => transfer.total_bytes = random.pick(&[0, 4_097, 65_536, u32::MAX]),
        4 => transfer.total_bytes = random.pick(&[60 * segments + 1, (60 * segments).saturating_sub(60)]),
        5 | 6 => transfer.next = random.pick(&[0, transfer.granted + 2, transfer.granted + 3, u32::MAX]),
        7 => transfer.granted = random.pick(&[segments + 1, segments - 1, 0, u32::MAX]),
        8 => transfer.destination = if transfer.destination == 255 { 128 } else { 255 },
        _ => state.transfers[at] = doubled,
    }
}

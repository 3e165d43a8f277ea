//! Readings that run round, are set back, and land on either limit, one beside it, or between the two. Each form of `waits` has to come
//! up here.

use crate::limits;
use crate::pair::{expect, Pair, Verdict};
use crate::random::Random;
use crate::sender::{Line, Transfer};
use crate::waits;
use rules::receiver::Receiver;

pub fn run(pair: &mut Pair, random: &mut Random, calls: u64) -> Verdict<()> {
    while pair.tally.calls < calls {
        let own = random.below(254) as u8;
        let limits = limits::two(random, |random| random.pick(&[1, 2, 10, 750, 1_250, 59_999, 60_000]));
        let before_round = u32::MAX - random.pick(&[limits.first, limits.second]);
        let start = random.pick(&[0, 1, u32::MAX, u32::MAX - 5, 1 << 31, before_round, 1_000_000]);
        pair.open(own, limits, start)?;
        let mut transfers: Vec<Transfer> = (0..8)
            .map(|i| {
                let line = Line { sa: (own + 1) % 254, da: if i % 2 == 0 { own } else { 255 }, session: i / 2 };
                Transfer::new(random, line)
            })
            .collect();
        for _ in 0..120 {
            for _ in 0..random.below(16) {
                let transfer = &mut transfers[random.below(8)];
                if random.once_in(12) {
                    *transfer = transfer.anew(random);
                }
                let frame = transfer.next(random);
                let number = pair.frame(frame.id, &frame.bytes)?.number();
                if transfer.is_over() || number != 0 {
                    *transfer = Transfer::new(random, transfer.line);
                }
            }
            if let Some(state) = pair.state() {
                pair.reading(next_reading(random, &state))?;
            }
        }
    }
    let missing = waits::missing(&pair.tally.waits);
    expect(missing.is_empty(), || format!("never came up: {}", missing.join("; ")))
}

/// Mostly near a mark, the last reading, or a mark and either limit, or between the two limits from a mark.
pub fn next_reading(random: &mut Random, state: &Receiver) -> u32 {
    let marks: Vec<u32> = state.slots.iter().flatten().map(|session| session.mark).collect();
    let mark = if marks.is_empty() { state.last_reading } else { random.pick(&marks) };
    let small = random.below(8) as u32;
    let at_limit = mark.wrapping_add(random.pick(&[state.limits.first, state.limits.second]));
    match random.below(13) {
        0 => at_limit,
        1 => at_limit.wrapping_sub(1),
        2 => at_limit.wrapping_add(1),
        3 => mark.wrapping_add(limits::between(random, state.limits)),
        4 => mark.wrapping_sub(1),
        5 => mark,
        6 => state.last_reading.wrapping_sub(small),
        7 if random.once_in(4) => random.u32(),
        8 if random.once_in(4) => random.pick(&[0, 1, u32::MAX, 1 << 31]),
        9 => state.last_reading,
        _ => state.last_reading.wrapping_add(small),
    }
}

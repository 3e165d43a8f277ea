//! The calls that need no receiver: lengths, openings, and the message of any answer.

use crate::limits;
use crate::pair::{expect, Pair, Verdict, RIGHT};
use crate::random::Random;
use rules::receiver::Limits;

const NEAR_LIMITS: [u32; 8] = [0, 1, 2, 59_999, 60_000, 60_001, 65_536, u32::MAX];

/// Good or not.
pub fn any_limit(random: &mut Random) -> u32 {
    if random.once_in(2) {
        random.pick(&NEAR_LIMITS)
    } else {
        random.u32() >> random.below(32)
    }
}

pub fn lengths_and_openings(pair: &mut Pair, random: &mut Random, calls: u64) -> Verdict<()> {
    for need in 0..=300 {
        pair.least_length(need)?;
    }
    for bits in 0..usize::BITS {
        for near in [(1 << bits) - 1, 1 << bits, (1 << bits) + 1, usize::MAX >> bits] {
            pair.least_length(near)?;
        }
    }
    for limit in NEAR_LIMITS {
        for own in 0..=255 {
            for (first, second) in [(limit, 1_250), (1_250, limit), (limit, limit)] {
                opening(pair, random, own, Limits { first, second })?;
            }
        }
        for second in NEAR_LIMITS {
            opening(pair, random, 33, Limits { first: limit, second })?;
        }
    }
    while pair.tally.calls < calls {
        pair.least_length(random.word() as usize >> random.below(64))?;
        pair.sizes.record = if random.once_in(4) { random.below(420) } else { RIGHT.record };
        pair.open(random.byte(), limits::two(random, any_limit), random.u32())?;
        pair.sizes = RIGHT;
    }
    Ok(())
}

/// An opening, and what the next calls make of its record: one that was refused is refused by every call.
fn opening(pair: &mut Pair, random: &mut Random, own: u8, limits: Limits) -> Verdict<()> {
    let opened = pair.open(own, limits, random.u32())?;
    let is_good = own <= 253 && [limits.first, limits.second].iter().all(|limit| (1..=60_000).contains(limit));
    let number = if is_good { 0 } else { 23 };
    let (then, _) = pair.reading(random.u32())?;
    let told = || format!("opening {own}, {limits:?} gave {opened}, then a reading {then}");
    expect(opened == number && then == number, told)?;
    let id = 7 << 26 | 37 << 16 | 255 << 8 | u32::from(own ^ 1);
    pair.frame(id, &[]).map(drop)
}

pub fn messages(pair: &mut Pair, random: &mut Random, calls: u64) -> Verdict<()> {
    while pair.tally.calls < calls {
        let size = if random.once_in(6) { random.pick(&[0, 1, 2, 7, 35, 37, 72]) } else { 36 };
        let mut answer = random.bytes(size);
        if size == 36 && !random.once_in(8) {
            answer[0] = 0;
            answer[1] = if random.once_in(6) { random.below(12) as u8 } else { 5 };
            answer[6] = if random.once_in(8) { random.byte() } else { random.below(10) as u8 };
            let total = match random.below(6) {
                0 => random.pick(&[0, 1, 60, 4_095, 4_096, 4_097, 8_192, 32_768]),
                1 => random.u32(),
                _ => random.below(4_097) as u32,
            };
            answer[11..15].copy_from_slice(&total.to_le_bytes());
        }
        pair.sizes.out = random.pick(&[0, 1, 60, 4_095, 4_096, 4_096, 4_096, 4_097, 5_000]);
        pair.sizes.store = random.pick(&[32_768, 32_768, 32_768, 32_767, 4_096, 0, 36_864]);
        pair.message(&answer)?;
        pair.sizes = RIGHT;
    }
    Ok(())
}

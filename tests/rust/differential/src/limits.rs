//! The two limits of a receiver (02 E4) and how far clocks go on: drawn.

use crate::random::Random;
use rules::receiver::Limits;

/// Two limits of one sort, each drawn by itself; one pair in three is of equal ones.
pub fn two(random: &mut Random, mut limit: impl FnMut(&mut Random) -> u32) -> Limits {
    let (first, second) = (limit(random), limit(random));
    if random.once_in(3) {
        Limits::both(first)
    } else {
        Limits { first, second }
    }
}

pub fn shorter(limits: Limits) -> u32 {
    limits.first.min(limits.second)
}

pub fn longer(limits: Limits) -> u32 {
    limits.first.max(limits.second)
}

/// From the shorter to the longer.
pub fn between(random: &mut Random, limits: Limits) -> u32 {
    random.between_u32(shorter(limits), longer(limits))
}

/// A silence: up to either limit, one less, between the two, or anything up to twice the longer.
pub fn silence(random: &mut Random, limits: Limits) -> u32 {
    let limit = random.pick(&[limits.first, limits.second]);
    match random.below(8) {
        0 => limit,
        1 => limit - 1,
        2 => between(random, limits),
        _ => random.below(2 * longer(limits) as usize) as u32,
    }
}

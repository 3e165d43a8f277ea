//! The two ends of the network and their clocks.

use crate::limits;
use crate::pair::{expect, Pair, Verdict};
use crate::random::Random;
use rules::receiver::Limits;

/// Who it is, and what its clock shows.
pub struct End<'a> {
    pub pair: &'a mut Pair,
    pub own: u8,
    /// As a receiver.
    pub limits: Limits,
    /// As a sender.
    pub limit: u32,
    pub clock: u32,
    pub is_node: bool,
}

impl<'a> End<'a> {
    /// Opened as a receiver and as a sender, of which a network uses one.
    pub fn new(pair: &'a mut Pair, random: &mut Random, own: u8) -> Verdict<End<'a>> {
        let (limits, limit) = (limits::two(random, limit), limit(random));
        let (clock, is_node) = (start(random), random.once_in(2));
        for number in [pair.open(own, limits, clock)?, pair.sender_open(own, limit, clock)?] {
            expect(number == 0, || format!("{own} was not opened: {number}"))?;
        }
        Ok(End { pair, own, limits, limit, clock, is_node })
    }
}

/// 1 to 60,000; the edges come often.
fn limit(random: &mut Random) -> u32 {
    if random.once_in(3) {
        random.pick(&[1, 2, 1_250, 60_000])
    } else {
        random.between_u32(1, 60_000)
    }
}

/// How far the sender's clock may go on from `last` before the first of these marks is a silence; none where there is no mark.
pub fn slack(last: u32, limit: u32, marks: impl Iterator<Item = u32>) -> Option<u32> {
    marks.map(|mark| limit - 1 - last.wrapping_sub(mark)).min()
}

/// Where a clock begins; often just before it runs round.
pub fn start(random: &mut Random) -> u32 {
    if random.once_in(2) {
        u32::MAX - random.below(50_000) as u32
    } else {
        random.u32()
    }
}

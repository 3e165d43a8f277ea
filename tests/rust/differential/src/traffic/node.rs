//! Frames at a node: for either end, and with either record, or a buffer, that is not as it must be.

use crate::limits;
use crate::pair::{Pair, Verdict, RIGHT};
use crate::random::Random;
use crate::sender::Frame;
use crate::traffic::clock;
use crate::traffic::hostile::any_frame;
use crate::traffic::records;
use crate::traffic::replies::any_reply;
use crate::traffic::sender_records;
use crate::traffic::sending::{announce, ask, limit, next_reading, own, POOL_BYTES};
use rules::receiver::{Limits, Receiver, SLOTS};

/// Both ends at one address, each with transfers of its own.
pub fn frames(pair: &mut Pair, random: &mut Random, calls: u64) -> Verdict<()> {
    let pool = random.bytes(POOL_BYTES);
    while pair.tally.calls < calls {
        let own = own(random);
        pair.open(own, limits::two(random, limit), random.u32())?;
        pair.sender_open(own, limit(random), random.u32())?;
        for _ in 0..400 {
            any_call(pair, random, &pool)?;
        }
    }
    Ok(())
}

/// A frame that means something to either end.
fn frame_for_either(pair: &Pair, random: &mut Random) -> Frame {
    if random.once_in(3) {
        any_reply(random, &pair.sender_state())
    } else {
        let own = pair.record()[0];
        any_frame(random, &pair.state().unwrap_or_else(|| Receiver::open(own, Limits::both(1), 0).0))
    }
}

fn any_call(pair: &mut Pair, random: &mut Random, pool: &[u8]) -> Verdict<()> {
    let state = pair.sender_state();
    match random.below(24) {
        0..=2 => announce(pair, random, &state, pool),
        3..=7 => ask(pair, random, &state, pool),
        8 => pair.sender_reading(next_reading(random, &state)).map(drop),
        9 => match pair.state() {
            Some(receiver) => pair.reading(clock::next_reading(random, &receiver)).map(drop),
            None => Ok(()),
        },
        _ => {
            let frame = frame_for_either(pair, random);
            pair.node_frame(frame.id, &frame.bytes).map(drop)
        }
    }
}

/// One of the records or the buffers is wrong, or several are, or the two ends have two addresses.
pub fn damaged(pair: &mut Pair, random: &mut Random, calls: u64) -> Verdict<()> {
    let pool = random.bytes(POOL_BYTES);
    while pair.tally.calls < calls {
        let own = own(random);
        pair.open(own, limits::two(random, limit), random.u32())?;
        let senders_own = if random.once_in(4) { self::own(random) } else { own };
        pair.sender_open(senders_own, limit(random), random.u32())?;
        for _ in 0..random.between(1, 40) {
            any_call(pair, random, &pool)?;
        }
        for _ in 0..3 {
            damage(pair, random);
            for _ in 0..4 {
                let frame = frame_for_either(pair, random);
                pair.node_frame_raw(frame.id, &frame.bytes)?;
            }
            pair.sizes = RIGHT;
        }
    }
    Ok(())
}

fn damage(pair: &mut Pair, random: &mut Random) {
    let which = random.below(8);
    if which == 0 || which == 6 {
        turn_bit(pair, random);
    }
    if which == 1 || which == 6 {
        sender_records::turn_bits(pair, random);
    }
    if which == 2 || which == 7 {
        pair.sizes.record = random.pick(&[0, 1, 13, 113, 261, 372, 374, 420]);
    }
    if which == 3 || which == 7 {
        pair.sizes.sender = random.pick(&[0, 1, 9, 112, 114, 160]);
    }
    if which == 4 || which == 7 {
        pair.sizes.store = random.pick(&[0, 4_096, 32_767, 32_769, 36_864]);
    }
    if which == 5 || (which == 7 && random.once_in(3)) {
        pair.sizes.answer = random.pick(&[0, 1, 35, 37, 72]);
    }
}

/// Of the receiver's record: anywhere, in the second limit, in the wait of a slot, or in what it keeps of its segments.
fn turn_bit(pair: &mut Pair, random: &mut Random) {
    let mut record: [u8; RIGHT.record] = pair.record().try_into().expect("of that length");
    let slot = random.below(SLOTS);
    let at = match random.below(5) {
        0 => random.between(5, 8),
        1 => records::wait_at(slot),
        2 => records::segments_at(random, slot),
        _ => random.below(RIGHT.record),
    };
    record[at] ^= 1 << random.below(8);
    pair.set_record(&record);
}

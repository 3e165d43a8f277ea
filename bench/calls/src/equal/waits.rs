//! The two waits of a session: readings about as late as either limit allows, and records whose limits or waits are out of bounds.

use super::{ask, kind, put, read, slot_at, wait_code, Pair, FIRST_AT, SECOND_AT, WAIT_AT};
use crate::frames::{damage, Dice, Frame, Sender, LIMITS, OWN};
use crate::ours::{Ours, STORE_BYTES};
use plain::receiver::{Limits, Receiver, Session, Wait};
use plain::SLOTS;
use std::fmt;

/// The second limit equal, shorter and longer, and both ends of what is allowed.
pub const DRAWN: [Limits; 6] = [
    LIMITS,
    Limits { first: 1250, second: 700 },
    Limits { first: 700, second: 1250 },
    Limits { first: 1250, second: 1249 },
    Limits { first: 60_000, second: 1 },
    Limits { first: 1, second: 60_000 },
];

/// Most often a reading at which the silence of some session is one of the limits or one less, else one a little after the last.
pub fn any_reading<const CHECKED: bool>(dice: &mut Dice, receiver: &Receiver<CHECKED>, limits: Limits, last: u32) -> u32 {
    let later = last.wrapping_add(dice.roll(20) as u32);
    let Some(s) = &receiver.slots()[dice.roll(SLOTS)] else {
        return later;
    };
    let limit = [limits.first, limits.second][dice.roll(2)];
    let about = s.mark.wrapping_add(limit - dice.roll(2) as u32);
    // a clock that is set back ends nearly every session, so that is rare
    let is_back = last.wrapping_sub(about).wrapping_sub(1) < 1 << 31;
    if is_back && dice.roll(40) > 0 {
        later
    } else {
        about
    }
}

/// Of sessions of one kind in one wait, at readings.
#[derive(Default)]
struct Hits {
    /// Silent for its own limit and no more.
    ended: usize,
    /// Silent for one millisecond less.
    stayed: usize,
    /// Silent for one of the limits and not for the other.
    told_apart: usize,
}

#[derive(Default)]
pub struct Seen {
    rts_first: Hits,
    rts_second: Hits,
    bam: Hits,
}

impl fmt::Display for Hits {
    fn fmt(&self, f: &mut fmt::Formatter) -> fmt::Result {
        write!(f, "{} ended, {} stayed, {} told apart", self.ended, self.stayed, self.told_apart)
    }
}

impl fmt::Display for Seen {
    fn fmt(&self, f: &mut fmt::Formatter) -> fmt::Result {
        write!(f, "RTS first wait {}; second {}; BAM {}", self.rts_first, self.rts_second, self.bam)
    }
}

impl Seen {
    fn count(&mut self, s: &Session, now: u32, limits: Limits) {
        let (hits, limit) = match (s.is_bam, s.wait) {
            (true, _) => (&mut self.bam, limits.second),
            (_, Wait::First) => (&mut self.rts_first, limits.first),
            (_, Wait::Second) => (&mut self.rts_second, limits.second),
        };
        let silence = now.wrapping_sub(s.mark);
        hits.ended += usize::from(silence == limit);
        hits.stayed += usize::from(silence == limit - 1);
        hits.told_apart += usize::from((silence >= limits.first) != (silence >= limits.second));
    }

    /// Whether each limit was hit, and kept apart from the other, in every wait.
    fn is_enough(&self, limits: Limits) -> bool {
        let are_equal = limits.first == limits.second;
        [&self.rts_first, &self.rts_second, &self.bam]
            .iter()
            .all(|hits| hits.ended > 100 && hits.stayed > 100 && (are_equal || hits.told_apart > 100))
    }
}

/// Transfers with small grants: most often the frame that is due, some of them damaged, repeated or taken before; and readings.
/// What the readings met, and how often each number was the answer.
pub fn compare<const CHECKED: bool>(calls: usize, seed: u64, limits: Limits) -> (Seen, [usize; 256]) {
    let name = format!("limits {} and {}", limits.first, limits.second);
    let mut dice = Dice(seed);
    // the clock runs round soon
    let mut pair = Pair::<CHECKED>::open(&name, limits, u32::MAX - 5000);
    let mut senders: Vec<Sender> = (0..8).map(Sender::nth).collect();
    let mut seen = Seen::default();
    while pair.calls < calls {
        if dice.roll(16) == 0 {
            let now = any_reading(&mut dice, &pair.plain, limits, pair.last);
            pair.plain.slots().iter().flatten().for_each(|s| seen.count(s, now, limits));
            pair.reading(now);
            continue;
        }
        let sender = &mut senders[dice.roll(8)];
        let session = pair.plain.slots().iter().flatten().find(|s| sender.has(s));
        let next = session.map(Session::first_missing);
        let mut frame = match next {
            None => {
                *sender = sender.with_small_grants(&mut dice);
                sender.announcement()
            }
            Some(next) => match dice.roll(24) {
                0 => sender.announcement(),
                1 if next > 1 => sender.segment((next - 1).min(sender.segments())),
                _ if next > sender.segments() => sender.status(),
                _ => sender.segment(next),
            },
        };
        damage(&mut frame, &mut dice);
        pair.frame(&frame);
    }
    pair.agree_on_store();
    assert!(seen.is_enough(limits), "{name}: {seen}");
    (seen, pair.seen)
}

/// Whether both sides refuse a record, by a frame, by a question and by a reading at which nothing ends.
pub fn are_refused(ours: &mut Ours, plain: &mut Receiver<true>, frame: &Frame, what: &str) -> bool {
    let number = ours.frame(frame.id, frame.bytes());
    let answer = super::answer_bytes(&plain.frame(frame.id, frame.bytes(), &mut vec![0; STORE_BYTES]));
    assert_eq!(ours.answer, answer, "answer, {what}");
    let told = ask(ours, plain, Sender::nth(0).key(), format_args!("{what}"));
    assert_eq!(told == 256 * 23, number == 23, "missing, {what}");
    let (at_reading, ended) = read(ours, plain, 7, what);
    assert_eq!((at_reading, ended), (if number == 23 { 23 } else { 0 }, 0), "reading, {what}");
    number == 23
}

/// The bounds that the limits and the waits of a record have to keep.
pub fn compare_bounds() {
    const EDGES: [u32; 6] = [0, 1, 1250, 60_000, 60_001, u32::MAX];
    let group = crate::frames::stream()[0];
    let mut refused = 0;
    for (first, second) in EDGES.into_iter().flat_map(|first| EDGES.map(|second| (first, second))) {
        let what = format!("limits {first} and {second}");
        let limits = Limits { first, second };
        let mut ours = Ours::open(OWN, LIMITS, 7);
        put(&mut ours.record, FIRST_AT, first);
        put(&mut ours.record, SECOND_AT, second);
        let is_refused = are_refused(&mut ours, &mut Receiver::open(OWN, limits, 7), &group, &what);
        let number = boundary::open(&mut ours.record, OWN, first, second, 7);
        assert_eq!(number == 23, is_refused, "opening, {what}");
        assert_eq!(
            are_refused(&mut ours, &mut Receiver::open(OWN, limits, 7), &group, &what),
            is_refused,
            "{what}"
        );
        refused += usize::from(is_refused);
    }
    assert_eq!(refused, 36 - 9);
    for is_bam in [false, true] {
        for wait in [Wait::First, Wait::Second] {
            let what = format!("kind {}, wait {}", kind(is_bam), wait_code(wait));
            let mut ours = Ours::open(OWN, LIMITS, 7);
            let mut plain = Receiver::<true>::open(OWN, LIMITS, 7);
            let frame = Sender::nth(u8::from(is_bam)).announcement();
            ours.frame(frame.id, frame.bytes());
            plain.frame(frame.id, frame.bytes(), &mut vec![0; STORE_BYTES]);
            ours.record[slot_at(0) + WAIT_AT] = wait_code(wait);
            plain.slots_mut()[0].as_mut().expect("a session").wait = wait;
            let is_refused = are_refused(&mut ours, &mut plain, &group, &what);
            assert_eq!(is_refused, is_bam && wait == Wait::First, "{what}");
        }
    }
}

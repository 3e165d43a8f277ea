//! What is missing (02, E6): segments lost, repeated and in any order, requests for them, and records whose counts are out of bounds.

use super::waits::{any_reading, are_refused};
use super::{ask, put, put_taken, slot_at, Pair, GRANTED_AT, MISSING_AT, NEXT_AT, REQUESTS_AT, SLOT_RECORD_BYTES, TAKEN_AT};
use crate::frames::{begun, damage, stream, Dice, Frame, Sender, LIMITS, OWN};
use crate::ours::{Ours, RECORD_BYTES, STORE_BYTES};
use plain::receiver::{Limits, Receiver, Session, Taken, REQUESTS};
use std::fmt;

/// Codes of answers.
const TAKEN: u8 = 3;
const GRANT: u8 = 4;
const HANDED_OVER: u8 = 5;
const ENDED: u8 = 7;

/// What the frames of RTS sessions have brought.
#[derive(Default)]
pub struct Seen {
    /// A CTS for the segments after the last one granted.
    next_grants: usize,
    /// The last one granted, taken after a request, and no CTS.
    held_grants: usize,
    /// A segment past the last one granted.
    ahead: usize,
    /// Requests, by how many were made before.
    requests: [usize; REQUESTS as usize],
    /// Those for 16 segments.
    full_requests: usize,
    /// Messages, by how many requests were made.
    messages: [usize; 1 + REQUESTS as usize],
    spent: usize,
    /// An EOMS not as announced.
    others: usize,
    restarts: usize,
}

impl fmt::Display for Seen {
    fn fmt(&self, f: &mut fmt::Formatter) -> fmt::Result {
        let Seen {
            next_grants,
            held_grants,
            ahead,
            requests,
            full_requests,
            messages,
            spent,
            others,
            restarts,
        } = self;
        write!(f, "next CTS {next_grants}, held {held_grants}; ahead {ahead}; ")?;
        write!(f, "requests {requests:?}, full {full_requests}, spent {spent}; ")?;
        write!(f, "messages {messages:?}; other EOMS {others}; restarts {restarts}")
    }
}

impl Seen {
    /// `before` is the session before the frame.
    fn count(&mut self, before: &Session, frame: &Frame, answer: &[u8]) {
        let is_segment = frame.id >> 16 & 0xff == 78;
        let made = usize::from(before.requests);
        let segment = u32::from_le_bytes([answer[15], answer[16], answer[17], answer[18]]);
        match answer[1] {
            TAKEN => {
                self.ahead += usize::from(segment > before.granted);
                self.held_grants += usize::from(segment == before.granted && segment < before.segments && made > 0);
            }
            GRANT if is_segment => self.next_grants += 1,
            GRANT if frame.bytes()[0] & 15 == 0 => self.restarts += usize::from(made > 0),
            GRANT => {
                self.requests[made] += 1;
                self.full_requests += usize::from(answer[6] == 16);
            }
            HANDED_OVER => self.messages[made] += 1,
            ENDED if answer[0] == 21 && answer[6] == 1 => self.spent += 1,
            ENDED if answer[0] == 21 => self.others += 1,
            _ => {}
        }
    }

    fn is_enough(&self) -> bool {
        let single = [
            self.next_grants,
            self.held_grants,
            self.ahead,
            self.full_requests,
            self.spent,
            self.others,
            self.restarts,
        ];
        single.iter().chain(&self.requests).chain(&self.messages).all(|&times| times > 50)
    }
}

/// A sender that loses one frame of so many and goes by the CTS that come.
struct Lossy {
    sender: Sender,
    one_of: usize,
    /// What it still has to send of the last CTS.
    next: u32,
    last: u32,
}

impl Lossy {
    fn announcement(&mut self, dice: &mut Dice) -> Frame {
        self.sender = match dice.roll(2) {
            0 => self.sender.with_small_grants(dice),
            _ => self.sender.with_any_message(dice),
        };
        self.one_of = [2, 3, 4, 20, 1000][dice.roll(5)];
        self.sender.announcement()
    }

    /// The next one that is not lost: a segment, or the EOMS behind them.
    fn due(&mut self, dice: &mut Dice) -> Frame {
        while self.next <= self.last {
            let n = self.next;
            self.next += 1;
            if dice.roll(self.one_of) > 0 {
                return self.sender.segment(n);
            }
        }
        self.sender.status()
    }

    fn any(&mut self, dice: &mut Dice) -> Frame {
        match dice.roll(100) {
            0 => self.sender.announcement(),
            1 => self.sender.status(),
            2 if dice.roll(4) == 0 => self.sender.abort(),
            3 if dice.roll(4) == 0 => self.sender.with_any_message(dice).status(),
            4..=9 => self.sender.segment(dice.roll(self.sender.segments() as usize) as u32 + 1),
            10 => self.sender.segment([0, self.sender.segments() + 1][usize::from(dice.roll(8) == 0)]),
            _ => self.due(dice),
        }
    }
}

/// Transfers by RTS, and one by BAM, with frames lost, damaged and out of place, and readings. What they brought, and how often each number
/// was the answer.
pub fn compare<const CHECKED: bool>(calls: usize, seed: u64, limits: Limits) -> (Seen, [usize; 256]) {
    let mut dice = Dice(seed);
    let mut pair = Pair::<CHECKED>::open("any order", limits, u32::MAX - 5000);
    let mut senders: Vec<Lossy> = [0, 2, 4, 6, 8, 10, 12, 1]
        .into_iter()
        .map(|n| Lossy {
            sender: Sender::nth(n),
            one_of: 1,
            next: 1,
            last: 0,
        })
        .collect();
    let mut seen = Seen::default();
    while pair.calls < calls {
        if dice.roll(150) == 0 {
            let now = any_reading(&mut dice, &pair.plain, limits, pair.last);
            pair.reading(now);
            continue;
        }
        let lossy = &mut senders[dice.roll(8)];
        let session = pair.plain.slots().iter().flatten().find(|s| lossy.sender.has(s)).copied();
        let mut frame = match session {
            None => lossy.announcement(&mut dice),
            Some(_) => lossy.any(&mut dice),
        };
        if dice.roll(3) == 0 {
            damage(&mut frame, &mut dice);
        }
        let answer = pair.frame(&frame);
        // a frame may be damaged into another's
        if let Some(s) = session.filter(|s| !s.is_bam && answer[2..5] == [s.key.sa(), s.key.da(), s.key.number()]) {
            seen.count(&s, &frame, &answer);
        }
        if let Some(s) = pair.plain.slots().iter().flatten().find(|s| lossy.sender.has(s)) {
            if s.is_bam {
                (lossy.next, lossy.last) = (s.next, s.segments);
            } else if answer[1] == GRANT {
                lossy.next = u32::from_le_bytes([answer[15], answer[16], answer[17], answer[18]]);
                lossy.last = s.granted;
            }
        }
    }
    pair.agree_on_store();
    assert!(seen.is_enough(), "{seen}");
    (seen, pair.seen)
}

/// A transfer that is measured: all its frames are taken, so many of the CTS are requests, and at the end its message is handed over.
pub fn compare_transfer<const CHECKED: bool>(name: &str, frames: &[Frame], requests: u8) {
    let mut pair = Pair::<CHECKED>::open(name, LIMITS, 7);
    for _ in 0..3 {
        let mut made = 0;
        let mut last = 0;
        for frame in frames {
            made = pair.plain.slots()[0].map_or(0, |s| s.requests);
            last = pair.frame(frame)[1];
        }
        assert_eq!((made, last), (requests, HANDED_OVER), "{name}");
        assert!(pair.plain.slots().iter().all(Option::is_none), "{name}");
    }
    assert_eq!(pair.seen[0], pair.calls, "{name}");
    pair.agree_on_store();
}

/// The questions that are measured, and those for sessions that are not open.
pub fn compare_questions<const CHECKED: bool>(open: &[Sender]) {
    let mut pair = Pair::<CHECKED>::open("questions", LIMITS, 7);
    for frame in begun(open) {
        pair.frame(&frame);
    }
    for (i, s) in open.iter().enumerate() {
        let (sa, da, number) = s.key();
        assert_eq!(
            ask(&pair.ours, &pair.plain, s.key(), format_args!("sender {i}")),
            s.segments() as usize - 8 * i
        );
        for key in [
            (sa ^ 64, da, number),
            (sa, da ^ 64, number),
            (sa, da, number ^ 8),
            (sa, da, number + 16),
        ] {
            assert_eq!(ask(&pair.ours, &pair.plain, key, format_args!("none of sender {i}")), 256 * 16);
        }
        for bytes in [0, RECORD_BYTES - 1] {
            assert_eq!(
                boundary::missing(&pair.ours.record[..bytes], sa, da, number),
                256 * 23,
                "{bytes} bytes of a record"
            );
        }
    }
}

/// What an open session of RTS has in a record.
#[derive(Clone, Copy, Debug)]
struct Counts {
    granted: u32,
    taken: u128,
    missing: u32,
    requests: u8,
}

/// Whether both sides refuse a session with these, by a frame of groups.
fn is_refused(s: &Sender, counts: Counts, group: &Frame) -> bool {
    let what = format!("{counts:?} of {}", s.segments());
    let (mut ours, mut plain) = announced(s);
    let piece = &mut ours.record[slot_at(0)..][..SLOT_RECORD_BYTES];
    // it is a BAM's, and free
    put(piece, NEXT_AT, counts.missing ^ 0x55);
    put(piece, GRANTED_AT, counts.granted);
    put_taken(piece, Taken::new(counts.taken));
    put(piece, MISSING_AT, counts.missing);
    piece[REQUESTS_AT] = counts.requests;
    let session = plain.slots_mut()[0].as_mut().expect("a session");
    session.granted = counts.granted;
    session.taken = Taken::new(counts.taken);
    session.missing = counts.missing;
    session.requests = counts.requests;
    are_refused(&mut ours, &mut plain, group, &what)
}

fn announced(s: &Sender) -> (Ours, Receiver<true>) {
    let mut ours = Ours::open(OWN, LIMITS, 7);
    let mut plain = Receiver::<true>::open(OWN, LIMITS, 7);
    let frame = s.announcement();
    ours.frame(frame.id, frame.bytes());
    plain.frame(frame.id, frame.bytes(), &mut vec![0; STORE_BYTES]);
    (ours, plain)
}

/// The bounds that the counts of an RTS session have to keep, and the next segment of a BAM.
pub fn compare_bounds() {
    let mut dice = Dice(6);
    let group = stream()[0];
    for segments in [1, 2, 15, 16, 17, 63, 64, 65, 68, 69] {
        let s = Sender::nth(0).with_segments(segments);
        let is_refused = |counts| is_refused(&s, counts, &group);
        let good = |taken: u128| Counts {
            granted: 1,
            taken,
            missing: segments - taken.count_ones(),
            requests: 0,
        };
        for granted in [0, 1, segments, segments + 1, u32::MAX] {
            let is_out = granted == 0 || granted > segments;
            assert_eq!(is_refused(Counts { granted, ..good(1) }), is_out);
        }
        for requests in [0, 1, 4, 5, 6, 127, 255] {
            assert_eq!(is_refused(Counts { requests, ..good(1) }), requests > 5);
        }
        let all = (1 << segments) - 1;
        let any = |dice: &mut Dice| (0..segments).fold(0, |set, n| set | (dice.roll(2) as u128) << n);
        for taken in [0, all, any(&mut dice), any(&mut dice)] {
            let counts = good(taken);
            assert!(!is_refused(counts));
            for bit in 0..segments {
                let taken = taken ^ 1 << bit;
                assert!(is_refused(Counts { taken, ..counts }));
            }
            for missing in [counts.missing + 1, counts.missing.wrapping_sub(1), counts.missing + 256, u32::MAX] {
                assert!(is_refused(Counts { missing, ..counts }));
            }
            // past the last segment nothing is in, whatever is counted
            for bit in segments..8 * (MISSING_AT - TAKEN_AT) as u32 {
                let taken = taken | 1 << bit;
                for missing in [counts.missing, counts.missing.wrapping_sub(1)] {
                    assert!(is_refused(Counts { taken, missing, ..counts }));
                }
            }
        }
        let bam = Sender::nth(1).with_segments(segments);
        for next in [0, 1, segments, segments + 1, segments + 2, u32::MAX] {
            let (mut ours, mut plain) = announced(&bam);
            let piece = &mut ours.record[slot_at(0)..][..SLOT_RECORD_BYTES];
            put(piece, NEXT_AT, next);
            // these are an RTS's, and free
            put(piece, GRANTED_AT, u32::MAX);
            piece[TAKEN_AT..].fill(0xff);
            plain.slots_mut()[0].as_mut().expect("a session").next = next;
            let what = format!("BAM, next {next} of {segments}");
            let is_out = next == 0 || next > segments + 1;
            assert_eq!(are_refused(&mut ours, &mut plain, &group, &what), is_out, "{what}");
        }
    }
}

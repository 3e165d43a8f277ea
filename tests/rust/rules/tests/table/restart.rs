//! 02 E1: an announcement for a key that is open. A repeated RTS begins the session anew; all else leaves it as it was.

use crate::{KEY, PGN};
use rules::receiver::{Answer, Ending, Key, Kind, Limits, Receiver, SLOT_BYTES, STORE_BYTES};
use rules::{sent, Refusal};
use std::ops::RangeInclusive;

const BAM_KEY: Key = Key { da: 255, ..KEY };
/// What stands in the store before any segment.
const FORMER: u8 = 0xEE;

/// An announcement in good form, until a test changes it.
#[derive(Clone, Copy, Debug)]
struct Announced {
    key: Key,
    control: u8,
    total: u32,
    segments: u32,
    max: u8,
    assurance: u8,
    pgn: u32,
}

fn rts(key: Key, total: u32, max: u8) -> Announced {
    Announced { key, control: 0, total, segments: total.div_ceil(60), max, assurance: 0, pgn: PGN }
}

fn bam(total: u32) -> Announced {
    Announced { control: 4, ..rts(BAM_KEY, total, 255) }
}

impl Announced {
    fn bytes(&self) -> Vec<u8> {
        let (t, s, p) = (self.total.to_le_bytes(), self.segments.to_le_bytes(), self.pgn.to_le_bytes());
        let first = self.key.session << 4 | self.control;
        vec![first, t[0], t[1], t[2], s[0], s[1], s[2], self.max, self.assurance, p[0], p[1], p[2]]
    }

    fn grant(&self, count: u8) -> Answer {
        Answer::Grant { key: self.key, pgn: self.pgn, next: 1, count }
    }

    fn refused(&self, refusal: Refusal) -> Answer {
        Answer::RefusedRts { key: self.key, pgn: self.pgn, refusal }
    }

    fn ended(&self, refusal: Refusal) -> Ending {
        let kind = if self.control == 0 { Kind::Rts } else { Kind::Bam };
        Ending { key: self.key, kind, pgn: self.pgn, refusal, is_spent: false }
    }
}

/// Equal where the receiver and every byte of the store are.
#[derive(Clone, Debug, PartialEq, Eq)]
struct Bench {
    receiver: Receiver,
    store: Vec<u8>,
}

impl Bench {
    /// Own address 33, limit 1,250 in either wait, reading 0.
    fn new() -> Bench {
        Bench { receiver: Receiver::open(33, Limits::both(1_250), 0).0, store: vec![FORMER; STORE_BYTES] }
    }

    /// With this announcement accepted and its first segments in, filled with 11 hex.
    fn with(a: &Announced, taken: u32) -> Bench {
        let mut bench = Bench::new();
        assert_eq!(bench.announce(a).number(), 0);
        bench.take(a, 1..=taken, 0x11);
        bench
    }

    fn frame(&mut self, pf: u32, key: Key, bytes: &[u8]) -> Answer {
        let id = 7 << 26 | pf << 16 | u32::from(key.da) << 8 | u32::from(key.sa);
        self.receiver.frame(id, bytes, &mut self.store)
    }

    fn announce(&mut self, a: &Announced) -> Answer {
        self.frame(77, a.key, &a.bytes())
    }

    fn status(&mut self, a: &Announced) -> Answer {
        self.announce(&Announced { control: 2, ..*a })
    }

    fn abort(&mut self, a: &Announced) -> Answer {
        self.announce(&Announced { control: 15, max: 0, ..*a })
    }

    fn segment(&mut self, key: Key, number: u32, fill: u8) -> Answer {
        let mut bytes = vec![fill; 64];
        bytes[0] = key.session << 4;
        bytes[1..4].copy_from_slice(&number.to_le_bytes()[..3]);
        self.frame(78, key, &bytes)
    }

    /// The answers to these segments, none of which is refused.
    fn take(&mut self, a: &Announced, segments: RangeInclusive<u32>, fill: u8) -> Vec<Answer> {
        let answers: Vec<Answer> = segments.map(|number| self.segment(a.key, number, fill)).collect();
        assert!(answers.iter().all(|answer| answer.number() == 0), "{answers:?}");
        answers
    }

    fn endings(&mut self, reading: u32) -> Vec<Ending> {
        self.receiver.reading(reading, &self.store).unwrap().into_iter().flatten().collect()
    }

    /// The announcement is answered so, and nothing is changed by it.
    fn stays(&mut self, a: &Announced, answer: Answer) {
        let before = self.clone();
        assert_eq!(self.announce(a), answer, "{a:?}");
        assert!(*self == before, "changed by {a:?}");
    }
}

/// The counts of the grants among some answers.
fn grants(answers: &[Answer]) -> Vec<u8> {
    let count = |answer: &Answer| if let Answer::Grant { count, .. } = answer { Some(*count) } else { None };
    answers.iter().filter_map(count).collect()
}

#[test]
fn begins_anew_in_mid_transfer() {
    for (first, taken) in
        [(rts(KEY, 4_096, 255), 20), (rts(KEY, 600, 3), 7), (rts(KEY, 61, 1), 0), (rts(KEY, 61, 1), 1)]
    {
        for (again, count) in
            [(rts(KEY, 61, 255), 2), (rts(KEY, 4_096, 255), 16), (rts(KEY, 600, 2), 2), (rts(KEY, 1, 9), 1)]
        {
            let mut bench = Bench::with(&first, taken);
            let store = bench.store.clone();
            assert_eq!(bench.announce(&again), again.grant(count), "{first:?} {again:?}");
            // As if there had been no other RTS than the last.
            assert_eq!(bench.receiver, Bench::with(&again, 0).receiver, "{first:?} {again:?}");
            assert!(bench.store == store, "{first:?} {again:?}");
        }
    }
}

#[test]
fn cts_as_for_the_first() {
    let mut bench = Bench::with(&rts(KEY, 600, 255), 5);
    let cts = sent::of_answer(&bench.announce(&rts(KEY, 240, 3))).unwrap();
    assert_eq!(cts.id, 0x1C4D_8021);
    assert_eq!(cts.bytes, [0x31, 0xFF, 0xFF, 0xFF, 1, 0, 0, 3, 0, 0xCA, 0xFE, 0]);
}

#[test]
fn grants_go_by_the_new_max() {
    let (short, long) = (rts(KEY, 300, 3), rts(KEY, 4_096, 255));
    let mut bench = Bench::with(&short, 4);
    assert_eq!(bench.announce(&long), long.grant(16));
    assert_eq!(grants(&bench.take(&long, 1..=50, 0x22)), [16, 16, 16]);
    assert_eq!(bench.announce(&short), short.grant(3));
    assert_eq!(grants(&bench.take(&short, 1..=5, 0x33)), [2]);
}

/// An RTS and a BAM of each of four sessions.
fn eight_open() -> (Bench, Vec<Announced>) {
    let mut bench = Bench::new();
    let of_session = |session: u8| {
        let rts = Announced { key: Key { session, ..KEY }, ..rts(KEY, 600, 255) };
        [rts, Announced { key: Key { session, ..BAM_KEY }, ..bam(600) }]
    };
    let open: Vec<Announced> = (0..4).flat_map(of_session).collect();
    for (a, taken) in open.iter().zip(1..) {
        assert_eq!(bench.announce(a).number(), 0);
        bench.take(a, 1..=taken, 0x11);
    }
    (bench, open)
}

#[test]
fn with_eight_open() {
    let (mut bench, open) = eight_open();
    let ninth = rts(Key { session: 15, ..KEY }, 61, 255);
    bench.stays(&ninth, ninth.refused(Refusal::EightSessionsOpen));
    for (slot, a) in open.iter().enumerate().filter(|(_, a)| a.control == 0) {
        let again = Announced { total: 130, segments: 3, ..*a };
        let before = bench.clone();
        assert_eq!(bench.announce(&again), again.grant(3));
        let session = bench.receiver.slots[slot].unwrap();
        assert_eq!((session.key, session.total_bytes, session.missing, session.granted), (a.key, 130, 3, 3));
        // Nothing else has moved.
        bench.receiver.slots[slot] = before.receiver.slots[slot];
        assert!(bench == before);
        assert_eq!(bench.announce(&again), again.grant(3));
    }
    bench.stays(&ninth, ninth.refused(Refusal::EightSessionsOpen));
    let other_pgn = Announced { pgn: PGN + 1, ..open[4] };
    bench.stays(&other_pgn, other_pgn.refused(Refusal::KeyAlreadyOpen));
    bench.stays(&open[5], Answer::Refused(Refusal::KeyAlreadyOpen));
}

#[test]
fn in_bad_form() {
    let first = rts(KEY, 180, 255);
    let mut bench = Bench::with(&first, 2);
    let bad = [
        (Announced { total: 0, segments: 0, ..first }, Refusal::AnnouncementNumbers),
        (Announced { segments: 4, ..first }, Refusal::AnnouncementNumbers),
        (Announced { max: 0, ..first }, Refusal::AnnouncementNumbers),
        (rts(KEY, 4_097, 255), Refusal::MessageTooLarge),
        (Announced { assurance: 1, ..first }, Refusal::AssuranceAnnounced),
        (Announced { pgn: PGN | 1 << 18, ..first }, Refusal::WrongPgn),
        (Announced { pgn: 0xEF01, ..first }, Refusal::WrongPgn),
        // The form is judged before the key.
        (Announced { segments: 2, pgn: PGN + 1, ..first }, Refusal::AnnouncementNumbers),
        (Announced { assurance: 2, pgn: PGN + 1, ..first }, Refusal::AssuranceAnnounced),
    ];
    for (again, refusal) in bad {
        bench.stays(&again, again.refused(refusal));
        let abort = sent::of_answer(&again.refused(refusal)).unwrap().bytes;
        let reason = if refusal == Refusal::MessageTooLarge { 9 } else { 250 };
        let pgn = again.pgn.to_le_bytes();
        assert_eq!((abort[0], abort[8], &abort[9..]), (0x3F, reason, &pgn[..3]));
    }
    let to_all = Announced { key: BAM_KEY, ..first };
    bench.stays(&to_all, Answer::Refused(Refusal::AnnouncementNumbers));
    // The transfer goes on where it was.
    bench.take(&first, 3..=3, 0x11);
    assert!(matches!(bench.status(&first), Answer::HandedOver { slot: 0, total_bytes: 180, .. }));
}

#[test]
fn another_pgn_is_14() {
    let first = rts(KEY, 180, 255);
    let mut bench = Bench::with(&first, 2);
    for pgn in [0x00_FECB, 0x00_FFCA, 0x01_FECA, 0x02_FECA, 0x00_EA00, 0] {
        let other = Announced { pgn, ..first };
        bench.stays(&other, other.refused(Refusal::KeyAlreadyOpen));
    }
    let answer = bench.announce(&Announced { pgn: 0x01_FECA, ..first });
    let abort = [0x3F, 0xFF, 0xFF, 0xFF, 0xFF, 0xFF, 0xFF, 0xFD, 250, 0xCA, 0xFE, 1];
    assert_eq!(sent::of_answer(&answer).unwrap().bytes, abort);
    bench.take(&first, 3..=3, 0x11);
    assert!(matches!(bench.status(&first), Answer::HandedOver { slot: 0, total_bytes: 180, .. }));
}

#[test]
fn a_bam_is_14() {
    let first = bam(180);
    for taken in 0..=3 {
        let mut bench = Bench::with(&first, taken);
        for again in [first, bam(61), bam(4_096), Announced { pgn: PGN + 1, ..first }] {
            bench.stays(&again, Answer::Refused(Refusal::KeyAlreadyOpen));
        }
        bench.take(&first, taken + 1..=3, 0x11);
        assert!(matches!(bench.status(&first), Answer::HandedOver { kind: Kind::Bam, total_bytes: 180, .. }));
    }
}

/// An RTS and a BAM of one sender, session and PGN are two keys.
#[test]
fn a_bam_beside_it() {
    let (all, one) = (bam(180), rts(KEY, 240, 255));
    let mut bench = Bench::with(&all, 2);
    let broadcast = bench.receiver.slots[0];
    for _ in 0..2 {
        assert_eq!(bench.announce(&one), one.grant(4));
        assert_eq!((bench.receiver.slots[0], bench.receiver.slots[2]), (broadcast, None));
        assert_eq!(bench.receiver.missing(KEY), Ok(4));
        bench.take(&one, 1..=2, 0x22);
    }
}

/// What was in before the restart is asked for again (02 E6).
#[test]
fn after_all_segments_the_end_asks_for_all() {
    for (again, count) in [(rts(KEY, 120, 255), 2), (rts(KEY, 61, 255), 2), (rts(KEY, 4_096, 1), 1)] {
        let first = rts(KEY, 120, 255);
        let mut bench = Bench::with(&first, 2);
        assert_eq!(bench.announce(&again), again.grant(count));
        assert_eq!(bench.status(&again), again.grant(count), "{again:?}");
        assert_eq!(bench.receiver.missing(KEY), Ok(again.segments), "{again:?}");
    }
}

#[test]
fn the_end_goes_by_the_new_totals() {
    let (first, again) = (rts(KEY, 120, 255), rts(KEY, 119, 255));
    let mut bench = Bench::with(&first, 2);
    assert_eq!(bench.announce(&again), again.grant(2));
    bench.take(&again, 1..=2, 0x22);
    assert_eq!(bench.status(&first), Answer::Ended(first.ended(Refusal::EndNotAsAnnounced)));
}

#[test]
fn the_mark_is_renewed() {
    let first = rts(KEY, 600, 255);
    let mut bench = Bench::with(&first, 2);
    assert_eq!(bench.endings(1_249), []);
    assert_eq!(bench.announce(&rts(KEY, 300, 255)).number(), 0);
    for reading in [1_250, 2_498] {
        assert_eq!(bench.endings(reading), []);
    }
    assert_eq!(bench.endings(2_499), [first.ended(Refusal::Silence)]);
}

#[test]
fn a_refused_repeat_does_not_renew_the_mark() {
    let first = rts(KEY, 600, 255);
    for again in [Announced { max: 0, ..first }, Announced { pgn: PGN + 1, ..first }] {
        let mut bench = Bench::with(&first, 2);
        assert_eq!(bench.endings(1_249), []);
        assert_ne!(bench.announce(&again).number(), 0);
        assert_eq!(bench.endings(1_250), [first.ended(Refusal::Silence)]);
    }
}

#[test]
fn slot_and_store_are_kept() {
    let of_session = |session: u8| rts(Key { session, ..KEY }, 600, 255);
    let mut bench = Bench::new();
    for session in 0..4 {
        assert_eq!(bench.announce(&of_session(session)).number(), 0);
        bench.take(&of_session(session), 1..=4, 0x11 + session);
    }
    for ended in [0, 1] {
        assert_eq!(bench.abort(&of_session(ended)), Answer::Aborted(of_session(ended).key));
    }
    let before = bench.clone();
    for again in [rts(of_session(2).key, 61, 255), rts(of_session(2).key, 4_096, 255)] {
        assert_eq!(bench.announce(&again).number(), 0);
        assert_eq!(bench.receiver.slots[2].unwrap().total_bytes, again.total);
        bench.receiver.slots[2] = before.receiver.slots[2];
        assert!(bench == before, "{again:?}");
    }
}

#[test]
fn only_what_came_after_is_handed_over() {
    let mut bench = Bench::new();
    assert_eq!(bench.announce(&bam(61)), Answer::Opened(BAM_KEY));
    let (first, again) = (rts(KEY, 180, 255), rts(KEY, 61, 255));
    assert_eq!(bench.announce(&first).number(), 0);
    bench.take(&first, 1..=3, 0x11);
    assert_eq!(bench.announce(&again).number(), 0);
    bench.take(&again, 1..=2, 0x22);
    let answer = bench.status(&again);
    let (key, kind, pgn) = (KEY, Kind::Rts, PGN);
    assert_eq!(answer, Answer::HandedOver { key, kind, slot: 1, pgn, total_bytes: 61, segments: 2 });
    assert_eq!(sent::of_answer(&answer).unwrap().bytes, [0x33, 61, 0, 0, 2, 0, 0, 0xFF, 0xFF, 0xCA, 0xFE, 0]);
    let slot = &bench.store[SLOT_BYTES..2 * SLOT_BYTES];
    assert!(slot[..61] == [0x22; 61] && slot[61..180] == [0x11; 119] && slot[180..] == [FORMER; SLOT_BYTES - 180]);
}

/// Each is taken once more, those that were in and those that were not.
#[test]
fn segments_count_from_1_again() {
    let (first, again) = (rts(KEY, 600, 255), rts(KEY, 900, 255));
    let mut bench = Bench::with(&first, 3);
    assert_eq!(bench.announce(&again), again.grant(15));
    for (number, missing) in [(1, 14), (3, 13), (4, 12)] {
        assert_eq!(bench.segment(KEY, number, 0x22), Answer::Taken { key: KEY, segment: number });
        assert_eq!(bench.segment(KEY, number, 0x33), Answer::Refused(Refusal::SegmentAlreadyTaken));
        assert_eq!(bench.receiver.missing(KEY), Ok(missing));
    }
    assert_eq!(bench.store[..240], [[0x22; 60], [0x11; 60], [0x22; 60], [0x22; 60]].concat());
    // Past the new end, though not past the former.
    let last = rts(KEY, 120, 255);
    assert_eq!(bench.announce(&last), last.grant(2));
    assert_eq!(bench.segment(KEY, 3, 0x22), Answer::Ended(last.ended(Refusal::SegmentOutOfSequence)));
}

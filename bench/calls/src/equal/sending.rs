//! The sender and the node: plain's answers and record of the sender as include/dwaebinam.h and docs/WIRE.md lay them out.

use super::waits::any_reading;
use super::{kind, put, put_key, put_sent, read, record_over};
use crate::frames::{damage, noise, Dice, Frame, Sending, LIMIT, LIMITS, OWN, TOTAL};
use crate::ours::{OurNode, ANSWER_BYTES, SENDER_BYTES, STORE_BYTES, TRANSFER_ANSWERS_BYTES};
use plain::node::{Answer as NodeAnswer, Node};
use plain::receiver::Limits;
use plain::sender::{Answer, Sender, Totals, Transfer};
use plain::FRAME_BYTES;

fn put_totals(out: &mut [u8; ANSWER_BYTES], totals: &Totals) {
    put_key(out, 2, totals.key);
    out[5] = kind(totals.key.da() == 255);
    out[6] = Totals::LENGTH;
    put(out, 7, totals.pgn);
    put(out, 11, totals.total);
    put(out, 15, totals.segments);
    out[19] = 1;
    put(out, 20, totals.id);
}

fn answer_bytes(answer: &Answer) -> [u8; ANSWER_BYTES] {
    let mut out = [0; ANSWER_BYTES];
    match answer {
        Answer::Announced(totals) => {
            out[1] = 10;
            put_totals(&mut out, totals);
        }
        Answer::SegmentSent { segment, length, id } => {
            out[1] = 11;
            out[6] = *length;
            put(&mut out, 15, *segment);
            out[19] = 1;
            put(&mut out, 20, *id);
        }
        Answer::StatusSent(totals) => {
            out[1] = 12;
            put_totals(&mut out, totals);
        }
        Answer::NothingDue => out[1] = 13,
        Answer::CtsTaken => out[1] = 14,
        Answer::Acknowledged(key) => {
            out[1] = 15;
            put_key(&mut out, 2, *key);
        }
        Answer::Aborted(key) => {
            out[1] = 16;
            put_key(&mut out, 2, *key);
        }
        Answer::Ended { refusal, key, pgn, sent } => {
            out[0] = *refusal;
            out[1] = 17;
            put_key(&mut out, 2, *key);
            out[5] = kind(key.da() == 255);
            put(&mut out, 7, *pgn);
            sent.iter().for_each(|sent| put_sent(&mut out, sent));
        }
        Answer::Refused(refusal) => {
            out[0] = *refusal;
            out[1] = 18;
        }
    }
    out
}

/// The plain sender's record over `ours`: of a transfer that is not open only the first byte.
fn sender_over<const CHECKED: bool>(sender: &Sender<CHECKED>, ours: &[u8; SENDER_BYTES], last: u32) -> [u8; SENDER_BYTES] {
    let mut out = *ours;
    put(&mut out, 5, last);
    for (i, transfer) in sender.transfers().iter().enumerate() {
        let piece = &mut out[9 + 26 * i..][..26];
        let Some(t) = transfer else {
            piece[0] = 0;
            continue;
        };
        piece[..3].copy_from_slice(&[1, t.da, t.number]);
        put(piece, 3, t.total);
        put(piece, 7, t.pgn);
        piece[11..14].copy_from_slice(&[t.last_out, t.status_out, t.status_owed].map(u8::from));
        put(piece, 14, t.next);
        put(piece, 18, t.granted);
        put(piece, 22, t.mark);
    }
    out
}

/// Both sides of a node; each call is made on both and compared.
struct Pair<const CHECKED: bool> {
    ours: OurNode,
    plain: Node<CHECKED>,
    store: Vec<u8>,
    frame: [u8; FRAME_BYTES],
    limits: Limits,
    /// The sender's last reading.
    last: u32,
    receivers_last: u32,
    calls: usize,
    seen: [usize; 256],
}

impl<const CHECKED: bool> Pair<CHECKED> {
    fn open(limits: Limits) -> Self {
        Pair {
            ours: OurNode::open(OWN, limits, LIMIT, 7),
            plain: Node::open(OWN, limits, LIMIT, 7),
            store: vec![0; STORE_BYTES],
            frame: [0; FRAME_BYTES],
            limits,
            last: 7,
            receivers_last: 7,
            calls: 0,
            seen: [0; 256],
        }
    }

    fn agree(&mut self, what: &str, number: u8, expected: [u8; ANSWER_BYTES], answer: [u8; ANSWER_BYTES]) {
        let (ours, plain, calls) = (&self.ours, &self.plain, self.calls);
        assert_eq!(number, expected[0], "number, call {calls}, {what}");
        assert_eq!(answer, expected, "answer, call {calls}, {what}");
        let sender = sender_over(&plain.sender, &ours.sender.record, self.last);
        assert_eq!(ours.sender.record, sender, "sender, call {calls}, {what}");
        let record = record_over(&plain.receiver, &ours.receiver.record, self.limits, self.receivers_last);
        assert_eq!(ours.receiver.record, record, "record, call {calls}, {what}");
        assert_eq!(ours.sender.frame, self.frame, "frame, call {calls}, {what}");
        if calls % 64 == 63 {
            assert!(ours.receiver.store == self.store, "store, call {calls}, {what}");
        }
        self.calls += 1;
        self.seen[usize::from(number)] += 1;
    }

    fn announce(&mut self, s: &Sending, message: &[u8]) {
        let number = self.ours.sender.announce(s.da, s.number, s.pgn, message);
        let answer = self.plain.sender.announce(s.da, s.number, s.pgn, message, &mut self.frame);
        self.agree("announce", number, answer_bytes(&answer), self.ours.sender.answer);
    }

    fn next(&mut self, da: u8, session: u8, message: &[u8]) {
        let number = self.ours.sender.next_frame(da, session, message);
        let answer = self.plain.sender.next_frame(da, session, message, &mut self.frame);
        self.agree("next frame", number, answer_bytes(&answer), self.ours.sender.answer);
    }

    /// A frame to the sender alone.
    fn take(&mut self, frame: &Frame) {
        let number = self.ours.sender.take(frame.id, frame.bytes());
        let answer = self.plain.sender.frame(frame.id, frame.bytes());
        self.agree("frame", number, answer_bytes(&answer), self.ours.sender.answer);
    }

    fn take_at_node(&mut self, frame: &Frame) {
        let number = self.ours.frame(frame.id, frame.bytes());
        let expected = match self.plain.frame(frame.id, frame.bytes(), &mut self.store) {
            NodeAnswer::Receiver(answer) => super::answer_bytes(&answer),
            NodeAnswer::Sender(answer) => answer_bytes(&answer),
        };
        self.agree("node's frame", number, expected, self.ours.receiver.answer);
    }

    fn reading(&mut self, now: u32) {
        let mut answers = [0x55; TRANSFER_ANSWERS_BYTES];
        let mut expected = [0; TRANSFER_ANSWERS_BYTES];
        let number = boundary::sender_reading(&mut self.ours.sender.record, now, &mut answers);
        let result = self.plain.sender.reading(now, |place, answer| {
            expected[ANSWER_BYTES * place..][..ANSWER_BYTES].copy_from_slice(&answer_bytes(&answer));
            self.seen[22] += 1;
        });
        self.last = now;
        let mut whole = [0; ANSWER_BYTES];
        whole[0] = result.err().unwrap_or(0);
        self.agree("reading", number, whole, whole);
        assert_eq!(answers, expected, "answers, call {}", self.calls);
    }

    /// A reading to the receiver.
    fn receiver_reading(&mut self, now: u32) {
        let what = format!("call {}, receiver's reading", self.calls);
        let (number, ended) = read(&mut self.ours.receiver, &mut self.plain.receiver, now, &what);
        self.receivers_last = now;
        let mut whole = [0; ANSWER_BYTES];
        whole[0] = number;
        self.agree("receiver's reading", number, whole, whole);
        self.seen[22] += ended;
    }
}

/// The calls that are measured.
pub fn compare_send<const CHECKED: bool>(s: &Sending) {
    let message = s.message();
    let mut pair = Pair::<CHECKED>::open(LIMITS);
    for _ in 0..3 {
        pair.announce(s, &message);
        for (cts, count) in s.grants() {
            pair.take(&cts);
            (0..count).for_each(|_| pair.next(s.da, s.number, &message));
        }
        pair.next(s.da, s.number, &message);
        pair.take(&s.eoma());
    }
    assert_eq!(pair.seen[0], pair.calls);
    assert!(pair.plain.sender.transfers().iter().all(Option::is_none));
}

/// One of these, most often a good one.
fn drawn<T: Copy>(dice: &mut Dice, good: &[T], bad: &[T]) -> T {
    let list = if dice.roll(12) == 0 { bad } else { good };
    list[dice.roll(list.len())]
}

fn any_sending(dice: &mut Dice) -> Sending {
    Sending {
        da: drawn(dice, &[0x90, 0x91, 0x92, 255], &[254, OWN, 0, 253]),
        number: drawn(dice, &[0, 1, 15], &[16, 255]),
        pgn: drawn(dice, &[0xef00, 0xfe01, 0x3_f0ff], &[0xef01, 0x4_0000, u32::MAX]),
        total: drawn(dice, &[1, 16, 59, 60, 61, 300, 960, 961, TOTAL], &[0, TOTAL + 1]),
    }
}

/// What a receiver might send for a transfer that is open, or might not.
fn any_reply(dice: &mut Dice, t: &Transfer) -> Frame {
    let mut s = Sending {
        da: t.da,
        number: t.number,
        pgn: t.pgn,
        total: t.total,
    };
    let left = (s.segments() + 1).saturating_sub(t.next);
    match dice.roll(24) {
        0 => s.abort(),
        1 => s.cts(t.next, 0, 0),
        2 => s.cts(dice.roll(8) as u32, dice.roll(4) as u8, dice.roll(3) as u8),
        3 => s.cts(t.next, 16, 1),
        4 => {
            s.pgn ^= 0x100;
            s.eoma()
        }
        5 => {
            s.total ^= 1;
            s.eoma()
        }
        6..=9 => s.eoma(),
        _ if left == 0 => s.eoma(),
        _ => s.cts(t.next, left.min(16) as u8, 0),
    }
}

/// Calls of all kinds in any order, some of them wrong. How often each number was the answer.
pub fn compare_calls<const CHECKED: bool>(calls: usize, seed: u64, limits: Limits) -> [usize; 256] {
    let mut dice = Dice(seed);
    let noise = noise(calls, seed);
    let bytes: Vec<u8> = (0..=TOTAL).map(|_| dice.roll(256) as u8).collect();
    let mut pair = Pair::<CHECKED>::open(limits);
    while pair.calls < calls {
        let s = any_sending(&mut dice);
        let t = pair.plain.sender.transfers()[dice.roll(4)];
        match (dice.roll(25), t) {
            (0 | 1, _) => pair.announce(&s, &bytes[..s.total as usize]),
            (2, _) => pair.reading(pair.last.wrapping_add([1, 100, 700, 1250][dice.roll(4)])),
            (3, _) => pair.next(s.da, s.number, &bytes[..s.total as usize]),
            (4..=8, _) => pair.take_at_node(&noise[pair.calls]),
            (9, _) => pair.take(&noise[pair.calls]),
            (10..=14, Some(t)) => {
                let mut reply = any_reply(&mut dice, &t);
                damage(&mut reply, &mut dice);
                if dice.roll(2) == 0 {
                    pair.take(&reply);
                } else {
                    pair.take_at_node(&reply);
                }
            }
            (24, _) => {
                let now = any_reading(&mut dice, &pair.plain.receiver, limits, pair.receivers_last);
                pair.receiver_reading(now);
            }
            // a grant is asked for whole, more often than not
            (_, Some(t)) => {
                for _ in 0..1 + dice.roll(20) {
                    pair.next(t.da, t.number, &bytes[..t.total as usize]);
                }
            }
            (_, None) => pair.announce(&s, &bytes[..s.total as usize]),
        }
    }
    pair.seen
}

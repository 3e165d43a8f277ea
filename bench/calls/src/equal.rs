//! Both sides give equal answers: an answer and a record of the plain receiver as include/dwaebinam.h lays them out.

pub mod groups;
pub mod missing;
pub mod sending;
pub mod waits;

use crate::frames::{Frame, Sender, LIMITS, OWN};
use crate::ours::{Ours, ANSWERS_BYTES, ANSWER_BYTES, RECORD_BYTES, STORE_BYTES};
use plain::receiver::{Answer, Limits, Receiver, Taken, Wait};
use plain::transport::{Key, Sent};
use plain::Refusal;
use std::fmt;

/// Places in the record, by docs/WIRE.md, and in one of its slots.
const FIRST_AT: usize = 1;
const SECOND_AT: usize = 5;
const LAST_AT: usize = 9;
const SLOT_RECORD_BYTES: usize = 45;
const NEXT_AT: usize = 18;
const GRANTED_AT: usize = 22;
const WAIT_AT: usize = 30;
const TAKEN_AT: usize = 31;
const MISSING_AT: usize = 40;
const REQUESTS_AT: usize = 44;

fn slot_at(slot: usize) -> usize {
    13 + SLOT_RECORD_BYTES * slot
}

fn put(out: &mut [u8], at: usize, value: u32) {
    out[at..at + 4].copy_from_slice(&value.to_le_bytes());
}

fn put_key(out: &mut [u8], at: usize, key: Key) {
    out[at..at + 3].copy_from_slice(&[key.sa(), key.da(), key.number()]);
}

fn kind(is_bam: bool) -> u8 {
    1 + u8::from(is_bam)
}

fn wait_code(wait: Wait) -> u8 {
    match wait {
        Wait::First => 1,
        Wait::Second => 2,
    }
}

/// Which segments are in: bit 0 of the first byte for segment 1.
fn put_taken(out: &mut [u8], taken: Taken) {
    let bytes = taken.bits().to_le_bytes();
    out[TAKEN_AT..MISSING_AT].copy_from_slice(&bytes[..MISSING_AT - TAKEN_AT]);
}

/// A call's result as C has it.
fn returned(result: Result<usize, Refusal>) -> usize {
    result.unwrap_or_else(|refusal| 256 * usize::from(refusal))
}

fn put_sent(out: &mut [u8; ANSWER_BYTES], sent: &Sent) {
    out[19] = 1;
    put(out, 20, sent.id);
    out[24..].copy_from_slice(&sent.bytes);
}

fn answer_bytes(answer: &Answer) -> [u8; ANSWER_BYTES] {
    let mut out = [0; ANSWER_BYTES];
    match answer {
        Answer::Groups(_) => out[1] = 1,
        Answer::Opened(key) => {
            out[1] = 2;
            put_key(&mut out, 2, *key);
        }
        Answer::Taken { key, segment } => {
            out[1] = 3;
            put_key(&mut out, 2, *key);
            put(&mut out, 15, *segment);
        }
        Answer::Grant {
            key,
            pgn,
            next,
            count,
            sent,
        } => {
            out[1] = 4;
            put_key(&mut out, 2, *key);
            out[5] = 1;
            out[6] = *count;
            put(&mut out, 7, *pgn);
            put(&mut out, 15, *next);
            put_sent(&mut out, sent);
        }
        Answer::HandedOver {
            key,
            is_bam,
            slot,
            pgn,
            segments,
            message,
            sent,
        } => {
            out[1] = 5;
            put_key(&mut out, 2, *key);
            out[5] = kind(*is_bam);
            out[6] = *slot;
            put(&mut out, 7, *pgn);
            put(&mut out, 11, message.len() as u32);
            put(&mut out, 15, *segments);
            sent.iter().for_each(|sent| put_sent(&mut out, sent));
        }
        Answer::Aborted(key) => {
            out[1] = 6;
            put_key(&mut out, 2, *key);
        }
        Answer::Ended {
            refusal,
            key,
            is_bam,
            is_spent,
            pgn,
            sent,
        } => {
            out[0] = *refusal;
            out[1] = 7;
            put_key(&mut out, 2, *key);
            out[5] = kind(*is_bam);
            out[6] = u8::from(*is_spent);
            put(&mut out, 7, *pgn);
            sent.iter().for_each(|sent| put_sent(&mut out, sent));
        }
        Answer::RefusedRts { refusal, key, pgn, sent } => {
            out[0] = *refusal;
            out[1] = 8;
            put_key(&mut out, 2, *key);
            out[5] = 1;
            put(&mut out, 7, *pgn);
            put_sent(&mut out, sent);
        }
        Answer::Refused(refusal) => {
            out[0] = *refusal;
            out[1] = 9;
        }
    }
    out
}

/// The plain receiver's record over `ours`: of a free slot only the first byte, and nothing that is the other kind's, since the rest has
/// no meaning.
fn record_over<const CHECKED: bool>(
    receiver: &Receiver<CHECKED>,
    ours: &[u8; RECORD_BYTES],
    limits: Limits,
    last: u32,
) -> [u8; RECORD_BYTES] {
    let mut out = *ours;
    out[0] = OWN;
    put(&mut out, FIRST_AT, limits.first);
    put(&mut out, SECOND_AT, limits.second);
    put(&mut out, LAST_AT, last);
    for (i, slot) in receiver.slots().iter().enumerate() {
        let piece = &mut out[slot_at(i)..][..SLOT_RECORD_BYTES];
        let Some(s) = slot else {
            piece[0] = 0;
            continue;
        };
        piece[0] = 1;
        piece[1] = kind(s.is_bam);
        put_key(piece, 2, s.key);
        put(piece, 5, s.total);
        put(piece, 9, s.segments);
        piece[13] = s.max;
        put(piece, 14, s.pgn);
        if s.is_bam {
            put(piece, NEXT_AT, s.next);
        } else {
            put(piece, GRANTED_AT, s.granted);
            put_taken(piece, s.taken);
            put(piece, MISSING_AT, s.missing);
            piece[REQUESTS_AT] = s.requests;
        }
        put(piece, 26, s.mark);
        piece[WAIT_AT] = wait_code(s.wait);
    }
    out
}

/// Asks both sides how many segments of a session are not in. What C is told.
fn ask<const CHECKED: bool>(ours: &Ours, receiver: &Receiver<CHECKED>, (sa, da, number): (u8, u8, u8), what: fmt::Arguments) -> usize {
    let told = ours.missing(sa, da, number);
    let result = receiver.missing(sa, da, number).map(|count| count as usize);
    assert_eq!(told, returned(result), "missing, {what}");
    told
}

/// Gives both sides a reading and compares their answers: the number, and how many sessions have ended.
fn read<const CHECKED: bool>(ours: &mut Ours, receiver: &mut Receiver<CHECKED>, now: u32, what: &str) -> (u8, usize) {
    let mut answers = [0x55; ANSWERS_BYTES];
    let mut expected = [0; ANSWERS_BYTES];
    let mut ended = 0;
    let number = boundary::reading(&mut ours.record, now, &ours.store, &mut answers);
    let result = receiver.reading(now, |slot, answer| {
        expected[ANSWER_BYTES * slot..][..ANSWER_BYTES].copy_from_slice(&answer_bytes(&answer));
        ended += 1;
    });
    assert_eq!(number, result.err().unwrap_or(0), "number, {what}");
    assert_eq!(answers, expected, "answers, {what}");
    (number, ended)
}

/// Both sides of a receiver; each call is made on both and compared: number, answer, record, how many segments some session misses, and now
/// and then the store.
struct Pair<const CHECKED: bool> {
    name: String,
    ours: Ours,
    plain: Receiver<CHECKED>,
    store: Vec<u8>,
    limits: Limits,
    last: u32,
    calls: usize,
    /// How often each number was the answer.
    seen: [usize; 256],
}

impl<const CHECKED: bool> Pair<CHECKED> {
    fn open(name: &str, limits: Limits, reading: u32) -> Self {
        Pair {
            name: name.to_string(),
            ours: Ours::open(OWN, limits, reading),
            plain: Receiver::open(OWN, limits, reading),
            store: vec![0; STORE_BYTES],
            limits,
            last: reading,
            calls: 0,
            seen: [0; 256],
        }
    }

    fn agree(&mut self, number: u8) {
        let (calls, name) = (self.calls, &self.name);
        let expected = record_over(&self.plain, &self.ours.record, self.limits, self.last);
        assert_eq!(self.ours.record, expected, "record, call {calls} of {name}");
        // of the senders in turn, whether their sessions are open or not
        let key = Sender::nth((calls % 16) as u8).key();
        ask(&self.ours, &self.plain, key, format_args!("call {calls} of {name}"));
        if calls % 64 == 63 {
            self.agree_on_store();
        }
        self.calls += 1;
        self.seen[usize::from(number)] += 1;
    }

    fn agree_on_store(&self) {
        assert!(self.ours.store == self.store, "store, call {} of {}", self.calls, self.name);
    }

    /// The answer of both.
    fn frame(&mut self, frame: &Frame) -> [u8; ANSWER_BYTES] {
        let (calls, name) = (self.calls, &self.name);
        let number = self.ours.frame(frame.id, frame.bytes());
        let answer = self.plain.frame(frame.id, frame.bytes(), &mut self.store);
        if let Answer::HandedOver { slot, message, .. } = &answer {
            assert!(&self.ours.store[4096 * usize::from(*slot)..][..message.len()] == *message);
        }
        let expected = answer_bytes(&answer);
        assert_eq!(number, expected[0], "number, call {calls} of {name}");
        assert_eq!(self.ours.answer, expected, "answer, call {calls} of {name}");
        self.agree(number);
        expected
    }

    fn reading(&mut self, now: u32) {
        let what = format!("call {} of {}", self.calls, self.name);
        let (number, ended) = read(&mut self.ours, &mut self.plain, now, &what);
        self.last = now;
        self.agree(number);
        self.seen[22] += ended;
    }
}

/// Runs both sides over the frames. How often each number was the answer.
pub fn compare<const CHECKED: bool>(name: &str, frames: &[Frame]) -> [usize; 256] {
    let mut pair = Pair::<CHECKED>::open(name, LIMITS, 7);
    for frame in frames {
        pair.frame(frame);
    }
    pair.agree_on_store();
    pair.seen
}

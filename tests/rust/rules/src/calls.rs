//! The receiver's calls of include/dwaebinam.h on byte slices, over the rules: the layouts of record and answer, and what a call leaves
//! alone.

use crate::frame::{self, DATA_LENGTHS};
use crate::groups::{self, Group, Request};
use crate::receiver::{Answer, Ending, Key, Kind, Limits, Receiver, Session, Taken, Wait, SLOTS, SLOT_BYTES};
use crate::sent::{self, Sent};
use crate::Refusal;

pub const RECORD_BYTES: usize = 373;
pub const ANSWER_BYTES: usize = 36;
pub const ANSWERS_BYTES: usize = SLOTS * ANSWER_BYTES;
/// Sixteen groups at most, of so many numbers each.
pub const GROUPS_WORDS: usize = 96;
pub const GROUP_WORDS: usize = 6;
const HEAD_BYTES: usize = 13;
const SLOT_RECORD_BYTES: usize = 45;
/// Where a slot has which segments are in, in nine bytes.
const TAKEN: std::ops::Range<usize> = 31..40;

pub fn least_length(need: usize) -> usize {
    frame::least_length(need).unwrap_or(255)
}

pub fn open(record: &mut [u8], own: u8, first: u32, second: u32, reading: u32) -> u8 {
    if record.len() != RECORD_BYTES {
        return Refusal::OutOfBounds.number();
    }
    let (receiver, verdict) = Receiver::open(own, Limits { first, second }, reading);
    record.fill(0);
    write_head(record, &receiver);
    verdict.map_or_else(Refusal::number, |()| 0)
}

pub fn frame(record: &mut [u8], id: u32, bytes: &[u8], store: &mut [u8], answer: &mut [u8]) -> u8 {
    if answer.len() != ANSWER_BYTES {
        return Refusal::OutOfBounds.number();
    }
    let given = match read_record(record) {
        None => Answer::Refused(Refusal::OutOfBounds),
        Some(before) => {
            let mut after = before.clone();
            let given = after.frame(id, bytes, store);
            write_changes(record, &before, &after);
            given
        }
    };
    answer.copy_from_slice(&answer_bytes(&given));
    given.number()
}

pub fn reading(record: &mut [u8], reading: u32, store: &[u8], answers: &mut [u8]) -> u8 {
    if answers.len() != ANSWERS_BYTES {
        return Refusal::OutOfBounds.number();
    }
    answers.fill(0);
    let Some(before) = read_record(record) else {
        return Refusal::OutOfBounds.number();
    };
    let mut after = before.clone();
    match after.reading(reading, store) {
        Err(refusal) => refusal.number(),
        Ok(endings) => {
            write_changes(record, &before, &after);
            for (place, ending) in answers.chunks_exact_mut(ANSWER_BYTES).zip(endings) {
                if let Some(ending) = ending {
                    place.copy_from_slice(&answer_bytes(&Answer::Ended(ending)));
                }
            }
            0
        }
    }
}

/// How many segments of the key's session are not in; no session has a session number over 15.
pub fn missing(record: &[u8], sa: u8, da: u8, session: u8) -> usize {
    let receiver = read_record(record).ok_or(Refusal::OutOfBounds);
    match receiver.and_then(|receiver| receiver.missing(Key { sa, da, session })) {
        Ok(missing) => missing as usize,
        Err(refusal) => refused(refusal),
    }
}

/// A place that does not lie in the store lent has no bytes. Only the code says what an answer is.
pub fn message(answer: &[u8], store: &[u8], out: &mut [u8]) -> usize {
    if answer.len() != ANSWER_BYTES || answer[1] != Code::HandedOver as u8 {
        return 0;
    }
    let slot = usize::from(answer[6]);
    let length = word(&answer[11..]) as usize;
    if slot >= SLOTS || length > SLOT_BYTES {
        return 0;
    }
    let start = slot * SLOT_BYTES;
    match (store.get(start..start + length), out.get_mut(..length)) {
        (Some(message), Some(place)) => {
            place.copy_from_slice(message);
            length
        }
        _ => 0,
    }
}

pub fn groups(bytes: &[u8], groups: &mut [u32]) -> usize {
    if groups.len() != GROUPS_WORDS {
        return refused(Refusal::OutOfBounds);
    }
    if !DATA_LENGTHS.contains(&bytes.len()) {
        return refused(Refusal::NotACanLength);
    }
    match groups::read(bytes) {
        Err(refusal) => refused(refusal),
        Ok(found) => {
            for (place, group) in groups.chunks_exact_mut(GROUP_WORDS).zip(&found) {
                place.copy_from_slice(&group_words(group));
            }
            found.len()
        }
    }
}

fn group_words(group: &Group) -> [u32; GROUP_WORDS] {
    let Group { pgn, service, format, start, length, trailer } = *group;
    [pgn, service.into(), format.into(), start as u32, length as u32, trailer as u32]
}

/// The group that these six numbers stand for.
pub fn read_group(words: &[u32]) -> Group {
    let [service, format] = [1, 2].map(|at| words[at] as u8);
    let [start, length, trailer] = [3, 4, 5].map(|at| words[at] as usize);
    Group { pgn: words[0], service, format, start, length, trailer }
}

/// The header's own order of the lists.
#[allow(clippy::too_many_arguments)]
pub fn pack(
    services: &[u8],
    formats: &[u8],
    pgns: &[u32],
    lengths: &[u8],
    trailer_lengths: &[u8],
    data: &[u8],
    trailers: &[u8],
    out: &mut [u8],
) -> usize {
    let request = Request { services, formats, pgns, lengths, trailer_lengths, data, trailers };
    match request.pack(out.len()) {
        Err(refusal) => refused(refusal),
        Ok(frame) => {
            out[..frame.len()].copy_from_slice(&frame);
            frame.len()
        }
    }
}

fn refused(refusal: Refusal) -> usize {
    256 * usize::from(refusal.number())
}

pub(crate) fn word(bytes: &[u8]) -> u32 {
    u32::from_le_bytes([bytes[0], bytes[1], bytes[2], bytes[3]])
}

pub(crate) fn put_word(bytes: &mut [u8], number: u32) {
    bytes[..4].copy_from_slice(&number.to_le_bytes());
}

/// The state that a record's bytes stand for; none if they are no record.
pub fn read_record(record: &[u8]) -> Option<Receiver> {
    if record.len() != RECORD_BYTES {
        return None;
    }
    let limits = Limits { first: word(&record[1..]), second: word(&record[5..]) };
    let mut receiver = Receiver { own: record[0], limits, last_reading: word(&record[9..]), slots: [None; SLOTS] };
    for (slot, bytes) in receiver.slots.iter_mut().zip(slot_records(record)) {
        *slot = match bytes[0] {
            0 => None,
            1 => Some(read_session(bytes)?),
            _ => return None,
        };
    }
    Some(receiver)
}

fn slot_records(record: &[u8]) -> impl Iterator<Item = &[u8]> {
    record[HEAD_BYTES..].chunks_exact(SLOT_RECORD_BYTES)
}

fn read_session(bytes: &[u8]) -> Option<Session> {
    let kind = match bytes[1] {
        1 => Kind::Rts,
        2 => Kind::Bam,
        _ => return None,
    };
    let wait = match bytes[30] {
        1 => Wait::First,
        2 => Wait::Second,
        _ => return None,
    };
    Some(Session {
        kind,
        key: Key { sa: bytes[2], da: bytes[3], session: bytes[4] },
        total_bytes: word(&bytes[5..]),
        segments: word(&bytes[9..]),
        max_segments: bytes[13],
        pgn: word(&bytes[14..]),
        next: word(&bytes[18..]),
        granted: word(&bytes[22..]),
        mark: word(&bytes[26..]),
        wait,
        taken: read_taken(&bytes[TAKEN]),
        missing: word(&bytes[40..]),
        requests: bytes[44],
    })
}

/// Segments 1 to 8 in the first byte, each from the low bit on.
fn read_taken(bytes: &[u8]) -> Taken {
    let mut number = [0; 16];
    number[..bytes.len()].copy_from_slice(bytes);
    Taken(u128::from_le_bytes(number))
}

/// A record's bytes from nothing: a free slot is zeros.
pub fn write_record(receiver: &Receiver) -> [u8; RECORD_BYTES] {
    let mut record = [0; RECORD_BYTES];
    let none_open = Receiver { slots: [None; SLOTS], ..*receiver };
    write_changes(&mut record, &none_open, receiver);
    record
}

/// The bytes of a slot in which nothing happened stay, those of a free slot too.
pub(crate) fn write_changes(record: &mut [u8], before: &Receiver, after: &Receiver) {
    write_head(record, after);
    for (i, bytes) in record[HEAD_BYTES..].chunks_exact_mut(SLOT_RECORD_BYTES).enumerate() {
        match &after.slots[i] {
            same if *same == before.slots[i] => {}
            None => bytes.fill(0),
            Some(session) => write_session(bytes, session),
        }
    }
}

fn write_head(record: &mut [u8], receiver: &Receiver) {
    record[0] = receiver.own;
    put_word(&mut record[1..], receiver.limits.first);
    put_word(&mut record[5..], receiver.limits.second);
    put_word(&mut record[9..], receiver.last_reading);
}

fn kind_code(kind: Kind) -> u8 {
    match kind {
        Kind::Rts => 1,
        Kind::Bam => 2,
    }
}

fn wait_code(wait: Wait) -> u8 {
    match wait {
        Wait::First => 1,
        Wait::Second => 2,
    }
}

fn write_session(bytes: &mut [u8], session: &Session) {
    bytes[0] = 1;
    bytes[1] = kind_code(session.kind);
    bytes[2..5].copy_from_slice(&[session.key.sa, session.key.da, session.key.session]);
    put_word(&mut bytes[5..], session.total_bytes);
    put_word(&mut bytes[9..], session.segments);
    bytes[13] = session.max_segments;
    put_word(&mut bytes[14..], session.pgn);
    put_word(&mut bytes[18..], session.next);
    put_word(&mut bytes[22..], session.granted);
    put_word(&mut bytes[26..], session.mark);
    bytes[30] = wait_code(session.wait);
    bytes[TAKEN].copy_from_slice(&session.taken.0.to_le_bytes()[..TAKEN.len()]);
    put_word(&mut bytes[40..], session.missing);
    bytes[44] = session.requests;
}

/// Up to 9 the receiver's, from 10 on the sender's.
#[derive(Clone, Copy, Debug, PartialEq, Eq)]
#[repr(u8)]
pub enum Code {
    Groups = 1,
    Opened = 2,
    Taken = 3,
    Grant = 4,
    HandedOver = 5,
    Aborted = 6,
    Ended = 7,
    RefusedRts = 8,
    Refused = 9,
    Announced = 10,
    SegmentSent = 11,
    StatusSent = 12,
    NothingDue = 13,
    CtsTaken = 14,
    Acknowledged = 15,
    TransferAborted = 16,
    TransferEnded = 17,
    SenderRefused = 18,
}

/// The 36 bytes of an answer. The header says which byte a field stands in, not which answers have it: OPENED and ABORTED have the key
/// alone, TAKEN key and segment, GROUPS and REFUSED none; the others key, kind and PGN, and what the header names for them.
pub fn answer_bytes(answer: &Answer) -> [u8; ANSWER_BYTES] {
    let mut bytes = [0; ANSWER_BYTES];
    bytes[0] = answer.number();
    put_fields(&mut bytes, answer);
    if let Some(Sent { id, bytes: sent }) = sent::of_answer(answer) {
        bytes[19] = 1;
        put_word(&mut bytes[20..], id);
        bytes[24..].copy_from_slice(&sent);
    }
    bytes
}

fn put_fields(bytes: &mut [u8], answer: &Answer) {
    match *answer {
        Answer::Groups => bytes[1] = Code::Groups as u8,
        Answer::Opened(key) => put_key(bytes, Code::Opened, key),
        Answer::Taken { key, segment } => {
            put_key(bytes, Code::Taken, key);
            put_word(&mut bytes[15..], segment);
        }
        Answer::Grant { key, pgn, next, count } => {
            put_key(bytes, Code::Grant, key);
            put_kind_and_pgn(bytes, Kind::Rts, pgn);
            bytes[6] = count;
            put_word(&mut bytes[15..], next);
        }
        Answer::HandedOver { key, kind, slot, pgn, total_bytes, segments } => {
            put_key(bytes, Code::HandedOver, key);
            put_kind_and_pgn(bytes, kind, pgn);
            bytes[6] = slot as u8;
            put_word(&mut bytes[11..], total_bytes);
            put_word(&mut bytes[15..], segments);
        }
        Answer::Aborted(key) => put_key(bytes, Code::Aborted, key),
        Answer::Ended(Ending { key, kind, pgn, is_spent, .. }) => {
            put_key(bytes, Code::Ended, key);
            put_kind_and_pgn(bytes, kind, pgn);
            bytes[6] = u8::from(is_spent);
        }
        Answer::RefusedRts { key, pgn, .. } => {
            put_key(bytes, Code::RefusedRts, key);
            put_kind_and_pgn(bytes, Kind::Rts, pgn);
        }
        Answer::Refused(_) => bytes[1] = Code::Refused as u8,
    }
}

pub(crate) fn put_key(bytes: &mut [u8], code: Code, key: Key) {
    bytes[1] = code as u8;
    bytes[2..5].copy_from_slice(&[key.sa, key.da, key.session]);
}

pub(crate) fn put_kind_and_pgn(bytes: &mut [u8], kind: Kind, pgn: u32) {
    bytes[5] = kind_code(kind);
    put_word(&mut bytes[7..], pgn);
}

//! The control frames that a receiver sends: CTS, EOMA and Abort (Figures 32, 34 and 35), each of 12 bytes.

use crate::receiver::{Answer, Ending, Key, Kind};
use crate::Refusal;

#[derive(Clone, Copy, Debug, PartialEq, Eq)]
pub struct Sent {
    pub id: u32,
    pub bytes: [u8; 12],
}

/// The frame that goes out with an answer.
pub fn of_answer(answer: &Answer) -> Option<Sent> {
    match *answer {
        Answer::Grant { key, pgn, next, count } => Some(cts(key, pgn, next, count)),
        Answer::HandedOver { key, kind: Kind::Rts, pgn, total_bytes, segments, .. } => {
            Some(eoma(key, pgn, total_bytes, segments))
        }
        Answer::Ended(ending) => of_ending(&ending),
        Answer::RefusedRts { key, pgn, refusal } => Some(abort(key, pgn, wire_reason(refusal))),
        _ => None,
    }
}

pub fn of_ending(ending: &Ending) -> Option<Sent> {
    match ending.kind {
        Kind::Rts => Some(abort(ending.key, ending.pgn, reason_of(ending))),
        Kind::Bam => None,
    }
}

/// Table 11 has a line for requests that are spent, not for the other causes of 21.
fn reason_of(ending: &Ending) -> u8 {
    if ending.is_spent {
        5
    } else {
        wire_reason(ending.refusal)
    }
}

/// Table 11. Where it has no line of the refusal's meaning, 250.
pub fn wire_reason(refusal: Refusal) -> u8 {
    match refusal {
        Refusal::EightSessionsOpen => 1,
        Refusal::Silence => 3,
        Refusal::SegmentOutOfSequence | Refusal::SegmentNotInMessage => 7,
        Refusal::MessageTooLarge => 9,
        _ => 250,
    }
}

fn cts(key: Key, pgn: u32, next: u32, count: u8) -> Sent {
    let [n0, n1, n2] = low24(next);
    frame(key, 1, [0xFF, 0xFF, 0xFF, n0, n1, n2, count, 0], pgn)
}

fn eoma(key: Key, pgn: u32, total_bytes: u32, segments: u32) -> Sent {
    let [t0, t1, t2] = low24(total_bytes);
    let [s0, s1, s2] = low24(segments);
    frame(key, 3, [t0, t1, t2, s0, s1, s2, 0xFF, 0xFF], pgn)
}

/// Role 01, the responder's, stands below six reserved ones.
fn abort(key: Key, pgn: u32, reason: u8) -> Sent {
    let role = 0b1111_1101;
    frame(key, 15, [0xFF, 0xFF, 0xFF, 0xFF, 0xFF, 0xFF, role, reason], pgn)
}

/// Priority 7, pages 0, PF 77, from the destination of the session's frames to their sender.
fn frame(key: Key, control: u8, middle: [u8; 8], pgn: u32) -> Sent {
    let id = 7 << 26 | 77 << 16 | u32::from(key.sa) << 8 | u32::from(key.da);
    let mut bytes = [0; 12];
    bytes[0] = key.session << 4 | control;
    bytes[1..9].copy_from_slice(&middle);
    bytes[9..12].copy_from_slice(&low24(pgn));
    Sent { id, bytes }
}

pub(crate) fn low24(number: u32) -> [u8; 3] {
    [number as u8, (number >> 8) as u8, (number >> 16) as u8]
}

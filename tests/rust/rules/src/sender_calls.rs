//! The sender's calls of include/dwaebinam.h and the node's, on byte slices, over the rules.

use crate::calls::{self, put_key, put_kind_and_pgn, put_word, word, Code, ANSWER_BYTES};
use crate::node::{self, Node};
use crate::receiver::{Key, Kind};
use crate::sending::{Answer, Ending, Event, Frame, Sender, Transfer, TRANSFERS};
use crate::Refusal;

pub const SENDER_BYTES: usize = 113;
pub const FRAME_BYTES: usize = 64;
pub const TRANSFER_ANSWERS_BYTES: usize = TRANSFERS * ANSWER_BYTES;
const HEAD_BYTES: usize = 9;
const TRANSFER_BYTES: usize = 26;

pub fn sender_open(sender: &mut [u8], own: u8, limit: u32, reading: u32) -> u8 {
    if sender.len() != SENDER_BYTES {
        return Refusal::OutOfBounds.number();
    }
    let (opened, verdict) = Sender::open(own, limit, reading);
    sender.copy_from_slice(&write_sender(&opened));
    verdict.map_or_else(Refusal::number, |()| 0)
}

pub fn announce(
    sender: &mut [u8],
    da: u8,
    session: u8,
    pgn: u32,
    message: &[u8],
    frame: &mut [u8],
    answer: &mut [u8],
) -> u8 {
    giving(sender, frame, answer, |state| state.announce(da, session, pgn, message))
}

pub fn next_frame(sender: &mut [u8], da: u8, session: u8, message: &[u8], frame: &mut [u8], answer: &mut [u8]) -> u8 {
    giving(sender, frame, answer, |state| state.next_frame(da, session, message))
}

/// A call whose frame goes into the buffer lent for it.
fn giving(sender: &mut [u8], frame: &mut [u8], answer: &mut [u8], call: impl FnOnce(&mut Sender) -> Answer) -> u8 {
    if answer.len() != ANSWER_BYTES {
        return Refusal::OutOfBounds.number();
    }
    let given =
        if frame.len() == FRAME_BYTES { on_record(sender, call) } else { Answer::refused(Refusal::OutOfBounds) };
    if let Some(Frame { bytes, .. }) = &given.frame {
        frame[..bytes.len()].copy_from_slice(bytes);
    }
    answer.copy_from_slice(&with_length(&given, own_of(sender)));
    given.number()
}

pub fn sender_frame(sender: &mut [u8], id: u32, bytes: &[u8], answer: &mut [u8]) -> u8 {
    if answer.len() != ANSWER_BYTES {
        return Refusal::OutOfBounds.number();
    }
    let given = on_record(sender, |state| state.control_frame(id, bytes));
    answer.copy_from_slice(&with_data(&given, own_of(sender)));
    given.number()
}

pub fn sender_reading(sender: &mut [u8], reading: u32, answers: &mut [u8]) -> u8 {
    if answers.len() != TRANSFER_ANSWERS_BYTES {
        return Refusal::OutOfBounds.number();
    }
    answers.fill(0);
    let Some(before) = read_sender(sender) else {
        return Refusal::OutOfBounds.number();
    };
    let mut after = before.clone();
    match after.reading(reading) {
        Err(refusal) => refusal.number(),
        Ok(endings) => {
            write_changes(sender, &before, &after);
            for (place, ending) in answers.chunks_exact_mut(ANSWER_BYTES).zip(endings) {
                if let Some(Ending { transfer, frame }) = ending {
                    let ended = Answer { event: Event::Ended(Refusal::Silence), transfer: Some(transfer), frame };
                    place.copy_from_slice(&with_data(&ended, before.own));
                }
            }
            0
        }
    }
}

/// Bytes that are no record are taken for one out of bounds.
pub fn node_frame(
    record: &mut [u8],
    id: u32,
    bytes: &[u8],
    store: &mut [u8],
    sender: &mut [u8],
    answer: &mut [u8],
) -> u8 {
    if answer.len() != ANSWER_BYTES {
        return Refusal::OutOfBounds.number();
    }
    let Some(receiver) = calls::read_record(record) else {
        return calls::frame(record, id, bytes, store, answer);
    };
    let sending_end = read_sender(sender).unwrap_or_else(|| Sender::open(255, 0, 0).0);
    let before = Node { receiver, sender: sending_end };
    let mut after = before.clone();
    let given = after.frame(id, bytes, store);
    answer.copy_from_slice(&match &given {
        node::Answer::Receiver(answer) => {
            calls::write_changes(record, &before.receiver, &after.receiver);
            calls::answer_bytes(answer)
        }
        node::Answer::Sender(answer) => {
            write_answered(sender, &before.sender, &after.sender, answer);
            with_data(answer, before.sender.own)
        }
    });
    given.number()
}

/// Makes the call on the state that the bytes stand for.
fn on_record(sender: &mut [u8], call: impl FnOnce(&mut Sender) -> Answer) -> Answer {
    let Some(before) = read_sender(sender) else {
        return Answer::refused(Refusal::OutOfBounds);
    };
    let mut after = before.clone();
    let given = call(&mut after);
    write_answered(sender, &before, &after, &given);
    given
}

fn own_of(sender: &[u8]) -> u8 {
    sender.first().copied().unwrap_or(0)
}

/// The state that a sender's record stands for; none if it is not of the right length. Any byte is a transfer's first: 1 is open.
pub fn read_sender(bytes: &[u8]) -> Option<Sender> {
    if bytes.len() != SENDER_BYTES {
        return None;
    }
    let (own, limit, last_reading) = (bytes[0], word(&bytes[1..]), word(&bytes[5..]));
    let mut sender = Sender { own, limit, last_reading, transfers: [None; TRANSFERS] };
    for (place, bytes) in sender.transfers.iter_mut().zip(bytes[HEAD_BYTES..].chunks_exact(TRANSFER_BYTES)) {
        *place = (bytes[0] == 1).then(|| read_transfer(bytes));
    }
    Some(sender)
}

/// Only 1 is yes.
fn read_transfer(bytes: &[u8]) -> Transfer {
    Transfer {
        destination: bytes[1],
        session: bytes[2],
        total_bytes: word(&bytes[3..]),
        pgn: word(&bytes[7..]),
        last_out: bytes[11] == 1,
        status_out: bytes[12] == 1,
        status_owed: bytes[13] == 1,
        next: word(&bytes[14..]),
        granted: word(&bytes[18..]),
        mark: word(&bytes[22..]),
    }
}

/// A record's bytes from nothing: a free transfer is zeros.
pub fn write_sender(sender: &Sender) -> [u8; SENDER_BYTES] {
    let mut bytes = [0; SENDER_BYTES];
    let none_open = Sender { transfers: [None; TRANSFERS], ..*sender };
    write_changes(&mut bytes, &none_open, sender);
    bytes
}

/// A transfer that the call has moved on is written whole, also where that gives the same state.
fn write_answered(bytes: &mut [u8], before: &Sender, after: &Sender, answer: &Answer) {
    if matches!(answer.event, Event::Refused(_) | Event::NothingDue) {
        return;
    }
    write_changes(bytes, before, after);
    let is_open = |transfer: &Transfer| after.find(transfer.destination, transfer.session);
    if let Some((i, transfer)) = answer.transfer.as_ref().and_then(is_open) {
        write_transfer(&mut bytes[HEAD_BYTES + TRANSFER_BYTES * i..][..TRANSFER_BYTES], &transfer);
    }
}

/// The bytes of a transfer in which nothing happened stay, those of a free one too; of one that ends all but the first stay.
fn write_changes(bytes: &mut [u8], before: &Sender, after: &Sender) {
    bytes[0] = after.own;
    put_word(&mut bytes[1..], after.limit);
    put_word(&mut bytes[5..], after.last_reading);
    for (i, bytes) in bytes[HEAD_BYTES..].chunks_exact_mut(TRANSFER_BYTES).enumerate() {
        match &after.transfers[i] {
            same if *same == before.transfers[i] => {}
            None => bytes[0] = 0,
            Some(transfer) => write_transfer(bytes, transfer),
        }
    }
}

fn write_transfer(bytes: &mut [u8], transfer: &Transfer) {
    bytes[0] = 1;
    bytes[1..3].copy_from_slice(&[transfer.destination, transfer.session]);
    put_word(&mut bytes[3..], transfer.total_bytes);
    put_word(&mut bytes[7..], transfer.pgn);
    bytes[11] = transfer.last_out.into();
    bytes[12] = transfer.status_out.into();
    bytes[13] = transfer.status_owed.into();
    put_word(&mut bytes[14..], transfer.next);
    put_word(&mut bytes[18..], transfer.granted);
    put_word(&mut bytes[22..], transfer.mark);
}

/// An answer's bytes where the frame stands in a buffer of its own: only its length is told.
pub fn with_length(answer: &Answer, own: u8) -> [u8; ANSWER_BYTES] {
    let mut bytes = fields(answer, own);
    if let Some(frame) = &answer.frame {
        bytes[6] = frame.bytes.len() as u8;
    }
    bytes
}

/// An answer's bytes with the control frame that goes out.
pub fn with_data(answer: &Answer, own: u8) -> [u8; ANSWER_BYTES] {
    let mut bytes = fields(answer, own);
    if let Some(frame) = &answer.frame {
        bytes[24..].copy_from_slice(&frame.bytes);
    }
    bytes
}

fn code(answer: &Answer) -> Code {
    match answer.event {
        Event::Announced => Code::Announced,
        Event::Segment(_) => Code::SegmentSent,
        Event::Status => Code::StatusSent,
        Event::NothingDue => Code::NothingDue,
        Event::Granted { .. } | Event::Held | Event::StatusAsked => Code::CtsTaken,
        // A broadcast's own EOMS ends it, a responder's EOMA an RTS.
        Event::EndedWell if answer.frame.is_some() => Code::StatusSent,
        Event::EndedWell => Code::Acknowledged,
        Event::Aborted => Code::TransferAborted,
        Event::Ended(_) => Code::TransferEnded,
        Event::Refused(_) => Code::SenderRefused,
    }
}

/// All but the frame's bytes and their number.
fn fields(answer: &Answer, own: u8) -> [u8; ANSWER_BYTES] {
    let mut bytes = [0; ANSWER_BYTES];
    bytes[0] = answer.number();
    bytes[1] = code(answer) as u8;
    if let Some(transfer) = &answer.transfer {
        put_transfer(&mut bytes, code(answer), transfer, own);
    }
    if let Event::Segment(n) = answer.event {
        put_word(&mut bytes[15..], n);
    }
    if let Some(frame) = &answer.frame {
        bytes[19] = 1;
        put_word(&mut bytes[20..], frame.id);
    }
    bytes
}

fn put_transfer(bytes: &mut [u8], code: Code, transfer: &Transfer, own: u8) {
    let key = Key { sa: own, da: transfer.destination, session: transfer.session };
    let kind = if transfer.is_broadcast() { Kind::Bam } else { Kind::Rts };
    match code {
        Code::Announced | Code::StatusSent => {
            put_key(bytes, code, key);
            put_kind_and_pgn(bytes, kind, transfer.pgn);
            put_word(&mut bytes[11..], transfer.total_bytes);
            put_word(&mut bytes[15..], transfer.segments());
        }
        Code::Acknowledged | Code::TransferAborted => put_key(bytes, code, key),
        Code::TransferEnded => {
            put_key(bytes, code, key);
            put_kind_and_pgn(bytes, kind, transfer.pgn);
        }
        _ => {}
    }
}

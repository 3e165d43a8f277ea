//! What both ends of a transfer share: its key, numbers in bytes, and control frames.

use crate::{low_byte_is_wrong, Refusal};

pub const SEGMENT_BYTES: u32 = 60;
pub const GLOBAL: u8 = 255;
pub(crate) const CONTROL: u8 = 77;
pub(crate) const DATA: u8 = 78;

pub(crate) type ControlBytes = [u8; 12];

/// SA, DA and session number in one word, so that two keys are compared at once.
#[derive(Clone, Copy, PartialEq, Eq)]
pub struct Key(u32);

impl Key {
    pub(crate) const fn new(sa: u8, da: u8, number: u8) -> Self {
        Key(u32::from_le_bytes([sa, da, number, 0]))
    }

    pub fn sa(self) -> u8 {
        self.0 as u8
    }

    pub fn da(self) -> u8 {
        (self.0 >> 8) as u8
    }

    pub fn number(self) -> u8 {
        (self.0 >> 16) as u8
    }
}

/// A control frame that we send.
pub struct Sent {
    pub id: u32,
    pub bytes: ControlBytes,
}

pub(crate) fn number24(bytes: &ControlBytes, at: usize) -> u32 {
    u32::from_le_bytes([bytes[at], bytes[at + 1], bytes[at + 2], 0])
}

pub(crate) fn put24(to: &mut ControlBytes, at: usize, value: u32) {
    to[at..at + 3].copy_from_slice(&value.to_le_bytes()[..3]);
}

pub(crate) fn is_pgn(pgn: u32) -> bool {
    pgn >> 18 == 0 && !low_byte_is_wrong(pgn)
}

/// An idle limit of either end.
pub(crate) fn is_limit(limit: u32) -> bool {
    limit.wrapping_sub(1) < 60_000
}

/// Of a message that is not too long.
pub(crate) fn segments_of(total: u32) -> u32 {
    (total + SEGMENT_BYTES - 1) / SEGMENT_BYTES
}

pub(crate) fn identifier(pf: u8, da: u8, sa: u8) -> u32 {
    7 << 26 | u32::from(pf) << 16 | u32::from(da) << 8 | u32::from(sa)
}

/// A control frame with ones between its control and its PGN.
pub(crate) fn control_frame(number: u8, control: u8, pgn: u32, da: u8, sa: u8) -> Sent {
    let mut bytes = [0xff; 12];
    bytes[0] = number << 4 | control;
    put24(&mut bytes, 9, pgn);
    Sent {
        id: identifier(CONTROL, da, sa),
        bytes,
    }
}

pub(crate) fn wire_reason(refusal: Refusal) -> u8 {
    match refusal {
        12 => 9,
        15 => 1,
        19 | 27 => 7,
        22 => 3,
        _ => 250,
    }
}

/// Whether a control frame is one of a responder's: CTS, EOMA, or an Abort in its role.
pub(crate) fn is_responders(bytes: &ControlBytes) -> bool {
    match bytes[0] & 15 {
        1 | 3 => true,
        15 => bytes[7] & 3 == 1,
        _ => false,
    }
}

/// The same of any frame, by its PF, its length and its control.
pub(crate) fn is_reply(id: u32, bytes: &[u8]) -> bool {
    (id >> 16) as u8 == CONTROL && bytes.try_into().is_ok_and(is_responders)
}

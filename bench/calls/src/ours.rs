//! Our side: the buffers that a program in C would hold, and the calls on them (tests/rust/boundary).

use crate::frames::Request;
use plain::receiver::Limits;
use plain::{FRAME_BYTES, MOST_GROUPS, SLOTS, SLOT_BYTES};

pub const RECORD_BYTES: usize = 373;
pub const STORE_BYTES: usize = SLOTS * SLOT_BYTES;
pub const ANSWER_BYTES: usize = 36;
pub const ANSWERS_BYTES: usize = SLOTS * ANSWER_BYTES;
pub const GROUP_WORDS: usize = 6;
pub const GROUPS_WORDS: usize = MOST_GROUPS * GROUP_WORDS;
pub const SENDER_BYTES: usize = 113;
pub const TRANSFER_ANSWERS_BYTES: usize = 4 * ANSWER_BYTES;

pub struct Ours {
    pub record: [u8; RECORD_BYTES],
    pub store: Vec<u8>,
    pub answer: [u8; ANSWER_BYTES],
}

impl Ours {
    pub fn open(own: u8, limits: Limits, reading: u32) -> Self {
        let mut ours = Ours {
            record: [0; RECORD_BYTES],
            store: vec![0; STORE_BYTES],
            answer: [0; ANSWER_BYTES],
        };
        assert_eq!(boundary::open(&mut ours.record, own, limits.first, limits.second, reading), 0);
        ours
    }

    #[inline(always)]
    pub fn frame(&mut self, id: u32, bytes: &[u8]) -> u8 {
        boundary::frame(&mut self.record, id, bytes, &mut self.store, &mut self.answer)
    }

    #[inline(always)]
    pub fn missing(&self, sa: u8, da: u8, number: u8) -> usize {
        boundary::missing(&self.record, sa, da, number)
    }
}

pub struct OurSender {
    pub record: [u8; SENDER_BYTES],
    pub frame: [u8; FRAME_BYTES],
    pub answer: [u8; ANSWER_BYTES],
}

impl OurSender {
    pub fn open(own: u8, limit: u32, reading: u32) -> Self {
        let mut sender = OurSender {
            record: [0; SENDER_BYTES],
            frame: [0; FRAME_BYTES],
            answer: [0; ANSWER_BYTES],
        };
        assert_eq!(boundary::sender_open(&mut sender.record, own, limit, reading), 0);
        sender
    }

    #[inline(always)]
    pub fn announce(&mut self, da: u8, number: u8, pgn: u32, message: &[u8]) -> u8 {
        boundary::announce(&mut self.record, da, number, pgn, message, &mut self.frame, &mut self.answer)
    }

    #[inline(always)]
    pub fn next_frame(&mut self, da: u8, number: u8, message: &[u8]) -> u8 {
        boundary::next_frame(&mut self.record, da, number, message, &mut self.frame, &mut self.answer)
    }

    #[inline(always)]
    pub fn take(&mut self, id: u32, bytes: &[u8]) -> u8 {
        boundary::sender_frame(&mut self.record, id, bytes, &mut self.answer)
    }
}

/// A receiver and a sender at one address, and the call for both.
pub struct OurNode {
    pub receiver: Ours,
    pub sender: OurSender,
}

impl OurNode {
    /// `limits` are the receiver's, `limit` is the sender's.
    pub fn open(own: u8, limits: Limits, limit: u32, reading: u32) -> Self {
        OurNode {
            receiver: Ours::open(own, limits, reading),
            sender: OurSender::open(own, limit, reading),
        }
    }

    #[inline(always)]
    pub fn frame(&mut self, id: u32, bytes: &[u8]) -> u8 {
        let Ours { record, store, answer } = &mut self.receiver;
        boundary::node_frame(record, id, bytes, store, &mut self.sender.record, answer)
    }
}

#[inline(always)]
pub fn pack(r: &Request, out: &mut [u8]) -> usize {
    boundary::pack(
        &r.services,
        &r.formats,
        &r.pgns,
        &r.lengths,
        &r.trailer_lengths,
        &r.data,
        &r.trailers,
        out,
    )
}

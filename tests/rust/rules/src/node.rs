//! 02 E2: a receiver and a sender at one address, and the frames that come to it.

use crate::frame::is_reply;
use crate::receiver::{self, Receiver, STORE_BYTES};
use crate::sending::{self, Sender, CONTROL};
use crate::Refusal;

#[derive(Clone, Debug, PartialEq, Eq)]
pub struct Node {
    pub receiver: Receiver,
    pub sender: Sender,
}

/// By the end that has answered.
#[derive(Clone, Debug, PartialEq, Eq)]
pub enum Answer {
    Receiver(receiver::Answer),
    Sender(sending::Answer),
}

impl Answer {
    pub fn number(&self) -> u8 {
        match self {
            Answer::Receiver(answer) => answer.number(),
            Answer::Sender(answer) => answer.number(),
        }
    }
}

impl Node {
    /// Takes one frame: 23 for either end comes before all else, the receiver's first. Then the frame goes to one end, which judges it
    /// whole: a control frame of 12 bytes that is a reply to the sender, every other to the receiver.
    pub fn frame(&mut self, id: u32, bytes: &[u8], store: &mut [u8]) -> Answer {
        if !self.receiver.in_bounds() || store.len() != STORE_BYTES {
            return Answer::Receiver(receiver::Answer::Refused(Refusal::OutOfBounds));
        }
        if !self.sender.in_bounds() {
            return Answer::Sender(sending::Answer::refused(Refusal::OutOfBounds));
        }
        let is_control = id >> 16 & 0xFF == CONTROL;
        if is_control && bytes.len() == 12 && is_reply(bytes) {
            Answer::Sender(self.sender.control_frame(id, bytes))
        } else {
            Answer::Receiver(self.receiver.frame(id, bytes, store))
        }
    }
}

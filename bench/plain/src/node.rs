//! A node that receives and sends at one address.

use crate::receiver::{self, Limits, Receiver};
use crate::sender::{self, Sender};
use crate::transport::is_reply;

pub struct Node<const CHECKED: bool> {
    pub receiver: Receiver<CHECKED>,
    pub sender: Sender<CHECKED>,
}

/// Which end has answered, and what.
pub enum Answer<'a> {
    Receiver(receiver::Answer<'a>),
    Sender(sender::Answer),
}

impl<const CHECKED: bool> Node<CHECKED> {
    /// `limits` are the receiver's, `limit` is the sender's.
    pub fn open(own: u8, limits: Limits, limit: u32, reading: u32) -> Self {
        Node {
            receiver: Receiver::open(own, limits, reading),
            sender: Sender::open(own, limit, reading),
        }
    }

    /// Takes one frame: what a responder sends goes to the sender, all else to the receiver.
    #[inline(never)]
    pub fn frame<'a>(&mut self, id: u32, bytes: &'a [u8], store: &'a mut [u8]) -> Answer<'a> {
        let store = match store.try_into() {
            Ok(store) if !CHECKED || self.receiver.in_bounds() => store,
            _ => return Answer::Receiver(receiver::Answer::Refused(23)),
        };
        if CHECKED && !self.sender.in_bounds() {
            return Answer::Sender(sender::Answer::Refused(23));
        }
        if is_reply(id, bytes) {
            Answer::Sender(self.sender.take(id, bytes))
        } else {
            Answer::Receiver(self.receiver.take(id, bytes, store))
        }
    }
}

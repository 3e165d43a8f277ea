//! What else goes on at a node. A third address sends to the end that sends in the network, and is sent to by the end that receives in it;
//! neither may disturb the network, nor the network them.

use super::answered;
use super::end::End;
use crate::pair::{expect, Verdict};
use crate::random::Random;
use crate::sender::{good_pgn, good_total, Control, Line, Transfer};
use rules::calls::Code;

pub struct Third {
    address: u8,
    /// What it sends.
    incoming: Transfer,
    /// What is sent to it.
    outgoing: Option<Outgoing>,
}

struct Outgoing {
    session: u8,
    pgn: u32,
    message: Vec<u8>,
    /// The segment that comes next.
    next: u32,
}

impl Third {
    pub fn new(random: &mut Random, address: u8, to: u8) -> Third {
        let line = Line { sa: address, da: random.pick(&[to, 255]), session: random.below(16) as u8 };
        Third { address, incoming: Transfer::new(random, line), outgoing: None }
    }

    /// One frame to the sender's end: whether a message has arrived there with it.
    pub fn sends(&mut self, end: &mut End, random: &mut Random) -> Verdict<bool> {
        let frame = self.incoming.next(random);
        let given = end.pair.node_frame(frame.id, &frame.bytes)?;
        expect(given.number() == 0, || format!("{frame:02X?} of a third was answered by {:02X?}", given.0))?;
        let is_over = self.incoming.is_over();
        if is_over {
            let message = &self.incoming.message;
            let is_equal = given.is(Code::HandedOver) && end.pair.out(message.len()) == message;
            expect(is_equal, || "a third's message did not arrive as it was sent".into())?;
            self.incoming = Transfer::new(random, self.incoming.line);
        }
        Ok(is_over)
    }

    /// One call of the receiver's end for a message to the third, and the third's reply: whether that has ended the transfer.
    pub fn gets(&mut self, end: &mut End, random: &mut Random) -> Verdict<bool> {
        let Some(outgoing) = &mut self.outgoing else {
            self.begins(end, random)?;
            return Ok(false);
        };
        let given = answered(end.pair.next_frame(self.address, outgoing.session, &outgoing.message)?)?;
        if given.is(Code::SegmentSent) {
            let frame = end.pair.frame_in_buffer(&given).unwrap_or_default();
            let due = outgoing.message.chunks(60).nth(outgoing.next as usize - 1).unwrap_or_default();
            let has_due = frame.bytes.get(4..).is_some_and(|data| data.starts_with(due));
            let is_right = given.word(15) == outgoing.next && has_due;
            expect(is_right, || format!("a third was sent {frame:02X?}, not segment {}", outgoing.next))?;
            outgoing.next += 1;
            return Ok(false);
        }
        let has_all = given.is(Code::StatusSent);
        expect(has_all || given.is(Code::NothingDue), || format!("sent to a third: {:02X?}", given.0))?;
        self.replies(end, random, has_all)?;
        Ok(has_all)
    }

    fn begins(&mut self, end: &mut End, random: &mut Random) -> Verdict<()> {
        let (session, pgn, length) = (random.below(16) as u8, good_pgn(random), good_total(random));
        let message = random.bytes(length as usize);
        let given = answered(end.pair.announce(self.address, session, pgn, &message)?)?;
        expect(given.is(Code::Announced), || format!("announced to a third: {:02X?}", given.0))?;
        self.outgoing = Some(Outgoing { session, pgn, message, next: 1 });
        Ok(())
    }

    /// By EOMA for all of it, else by CTS for what comes next.
    fn replies(&mut self, end: &mut End, random: &mut Random, has_all: bool) -> Verdict<()> {
        let Some(Outgoing { session, pgn, message, next }) = self.outgoing.take() else {
            return Ok(());
        };
        let (total, segments) = (message.len() as u32, message.chunks(60).count() as u32);
        let line = Line { sa: self.address, da: end.own, session };
        let (reply, code) = if has_all {
            (Control { control: 3, total, segments, byte8: 255, byte9: 255, pgn }, Code::Acknowledged)
        } else {
            let count = random.between_u32(1, (segments + 1 - next).min(16)) as u8;
            let cts = Control { control: 1, total: u32::MAX, segments: next, byte8: count, byte9: 0, pgn };
            self.outgoing = Some(Outgoing { session, pgn, message, next });
            (cts, Code::CtsTaken)
        };
        let frame = reply.frame(random, line);
        let given = end.pair.node_frame(frame.id, &frame.bytes)?;
        expect(given.is(code), || format!("{frame:02X?} of a third was answered by {:02X?}", given.0))
    }
}

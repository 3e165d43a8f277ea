//! The sender's calls and the node's on both sides.

use super::{expect, hex, Difference, Given, Pair, Side, Verdict, LARGEST};
use crate::sender::Frame;
use rules::calls::{Code, ANSWER_BYTES};
use rules::sender_calls::{read_sender, SENDER_BYTES, TRANSFER_ANSWERS_BYTES};
use rules::sending::Sender;

impl Pair {
    pub fn set_sender(&mut self, bytes: &[u8; SENDER_BYTES]) {
        self.rules.sender.lent_mut(SENDER_BYTES).copy_from_slice(bytes);
        self.archive.sender.lent_mut(SENDER_BYTES).copy_from_slice(bytes);
    }

    pub fn sender(&self) -> &[u8] {
        self.archive.sender.lent(SENDER_BYTES)
    }

    /// The state that the sender's record stands for, in bounds or not.
    pub fn sender_state(&self) -> Sender {
        read_sender(self.sender()).expect("of the right length")
    }

    /// The frame that the last call put into its buffer.
    pub fn frame_in_buffer(&self, given: &Given) -> Option<Frame> {
        let bytes = self.archive.frame.lent(given.0[6].into()).to_vec();
        (given.0[19] == 1).then(|| Frame { id: given.word(20), bytes })
    }

    pub fn sender_open(&mut self, own: u8, limit: u32, reading: u32) -> Verdict<u8> {
        let size = self.sizes.sender;
        let name = || format!("sender's open of {size} bytes with {own}, {limit}, {reading}");
        let number =
            self.both(name, |side| (side.calls.sender_open)(side.sender.lent_mut(size), own, limit, reading))?;
        same!(self, name, sender);
        self.tally.numbers[usize::from(number)] += 1;
        Ok(number)
    }

    /// None where the answer's buffer is of another size.
    pub fn announce(&mut self, da: u8, session: u8, pgn: u32, message: &[u8]) -> Verdict<Option<Given>> {
        let sizes = self.sizes;
        let what = format!("announce to {da}, session {session}, PGN {pgn:X}, {} bytes", message.len());
        self.giving(&what, message, |side, lent| {
            let (sender, frame) = (side.sender.lent_mut(sizes.sender), side.frame.lent_mut(sizes.frame));
            (side.calls.announce)(sender, da, session, pgn, lent, frame, side.answer.lent_mut(sizes.answer))
        })
    }

    pub fn next_frame(&mut self, da: u8, session: u8, message: &[u8]) -> Verdict<Option<Given>> {
        let sizes = self.sizes;
        let what = format!("next frame to {da}, session {session}, {} bytes", message.len());
        self.giving(&what, message, |side, lent| {
            let (sender, frame) = (side.sender.lent_mut(sizes.sender), side.frame.lent_mut(sizes.frame));
            (side.calls.next_frame)(sender, da, session, lent, frame, side.answer.lent_mut(sizes.answer))
        })
    }

    /// A call that reads a message and may give out a frame.
    fn giving(
        &mut self,
        what: &str,
        message: &[u8],
        mut call: impl FnMut(&mut Side, &[u8]) -> u8,
    ) -> Verdict<Option<Given>> {
        let (sizes, noise) = (self.sizes, self.next_noise());
        let before = self.sender().to_vec();
        let name = || format!("{what} on sender {}, {sizes:?}", hex(&before));
        let lent = message.to_vec();
        let number = self.both(name, |side| {
            side.answer.lent_mut(LARGEST.answer).fill(noise);
            side.frame.lent_mut(LARGEST.frame).fill(noise);
            call(side, &lent)
        })?;
        same!(self, name, answer, frame, sender);
        expect(lent == message, || format!("{}: wrote into the message", name()))?;
        let given = self.sender_answered(name, &before, number)?;
        let gives_none = given.is_none_or(|given| given.0[19] == 0);
        let is_blank = self.archive.frame.lent(LARGEST.frame).iter().all(|&byte| byte == noise);
        expect(!gives_none || is_blank, || format!("{}: wrote into the frame buffer", name()))?;
        let stays = !gives_none || self.sender() == before;
        expect(stays, || format!("{}: gave no frame and changed the record", name()))?;
        Ok(given)
    }

    pub fn sender_frame(&mut self, id: u32, bytes: &[u8]) -> Verdict<Option<Given>> {
        let (sizes, noise) = (self.sizes, self.next_noise());
        let before = self.sender().to_vec();
        let name = || format!("sender's frame {id:08X} {} on sender {}, {sizes:?}", hex(bytes), hex(&before));
        let lent = bytes.to_vec();
        let number = self.both(name, |side| {
            side.answer.lent_mut(LARGEST.answer).fill(noise);
            let sender = side.sender.lent_mut(sizes.sender);
            (side.calls.sender_frame)(sender, id, &lent, side.answer.lent_mut(sizes.answer))
        })?;
        same!(self, name, answer, sender);
        expect(lent == bytes, || format!("{}: wrote into the frame", name()))?;
        self.sender_answered(name, &before, number)
    }

    /// What holds after every call of the sender's with one answer. Only 27 changes a record by a refusal.
    fn sender_answered(&mut self, name: impl Fn() -> String, before: &[u8], number: u8) -> Verdict<Option<Given>> {
        self.sender_stays_in_bounds(&name, before, number)?;
        let stays = matches!(number, 0 | 27) || self.sender() == before;
        expect(stays, || format!("{}: refused with {number}, but the record has changed", name()))?;
        self.tally.numbers[usize::from(number)] += 1;
        let Ok(given) = self.archive.answer.lent(self.sizes.answer).try_into().map(Given) else {
            return Ok(None);
        };
        self.count(&given);
        expect(given.number() == number, || format!("{}: returned {number}, not the answer's number", name()))?;
        Ok(Some(given))
    }

    fn sender_stays_in_bounds(&self, name: impl Fn() -> String, before: &[u8], number: u8) -> Verdict<()> {
        let holds = number == 23 || (self.sender_state().in_bounds() && self.sender()[..5] == before[..5]);
        expect(holds, || format!("{}: the next sender's record is out of bounds", name()))
    }

    /// The number, and the four answers where they were lent whole.
    pub fn sender_reading(&mut self, reading: u32) -> Verdict<(u8, Vec<Given>)> {
        let (sizes, noise) = (self.sizes, self.next_noise());
        let before = self.sender().to_vec();
        let name = || format!("sender's reading {reading} on sender {}, {sizes:?}", hex(&before));
        let number = self.both(name, |side| {
            side.transfer_answers.lent_mut(LARGEST.transfer_answers).fill(noise);
            let answers = side.transfer_answers.lent_mut(sizes.transfer_answers);
            (side.calls.sender_reading)(side.sender.lent_mut(sizes.sender), reading, answers)
        })?;
        same!(self, name, transfer_answers, sender);
        self.sender_stays_in_bounds(name, &before, number)?;
        let stays = number == 0 || self.sender() == before;
        expect(stays, || format!("{}: refused, but the record has changed", name()))?;
        self.tally.numbers[usize::from(number)] += 1;
        if sizes.transfer_answers != TRANSFER_ANSWERS_BYTES {
            return Ok((number, vec![]));
        }
        let answers = self.archive.transfer_answers.lent(TRANSFER_ANSWERS_BYTES).chunks_exact(ANSWER_BYTES);
        let given: Vec<Given> = answers.map(|bytes| Given(bytes.try_into().expect("36 bytes each"))).collect();
        for ending in given.iter().filter(|ending| ending.code() != 0) {
            self.tally.numbers[usize::from(ending.number())] += 1;
            self.count(ending);
        }
        Ok((number, given))
    }

    /// None where the answer's buffer is of another size.
    pub fn node_frame_raw(&mut self, id: u32, bytes: &[u8]) -> Verdict<Option<Given>> {
        let (sizes, noise) = (self.sizes, self.next_noise());
        let (record, sender) = (self.record().to_vec(), self.sender().to_vec());
        let on = || format!("on record {} and sender {}, {sizes:?}", hex(&record), hex(&sender));
        let name = || format!("node's frame {id:08X} {} {}", hex(bytes), on());
        let lent = bytes.to_vec();
        let number = self.both(name, |side| {
            side.answer.lent_mut(LARGEST.answer).fill(noise);
            let (record, store) = (side.record.lent_mut(sizes.record), side.store.lent_mut(sizes.store));
            let (sender, answer) = (side.sender.lent_mut(sizes.sender), side.answer.lent_mut(sizes.answer));
            (side.calls.node_frame)(record, id, &lent, store, sender, answer)
        })?;
        same!(self, name, answer, record, store, sender);
        expect(lent == bytes, || format!("{}: wrote into the frame", name()))?;
        self.stays_in_bounds(name, &record, number)?;
        let given = self.sender_or_receiver_answered(name, (&record, &sender), number)?;
        if let Some(given) = &given {
            self.count_frame(&record, id, bytes, given);
        }
        Ok(given)
    }

    /// What goes to one end changes no byte of the other.
    fn sender_or_receiver_answered(
        &mut self,
        name: impl Fn() -> String,
        (record, sender): (&[u8], &[u8]),
        number: u8,
    ) -> Verdict<Option<Given>> {
        let Some(given) = self.archive.answer.lent(self.sizes.answer).try_into().ok().map(Given) else {
            self.tally.numbers[usize::from(number)] += 1;
            let stays = self.record() == record && self.sender() == sender;
            expect(stays, || format!("{}: no answer was lent, but a record has changed", name()))?;
            return Ok(None);
        };
        if given.code() >= Code::Announced as u8 {
            expect(self.record() == record, || format!("{}: the receiver's record has changed", name()))?;
            return self.sender_answered(name, sender, number);
        }
        expect(self.sender() == sender, || format!("{}: the sender's record has changed", name()))?;
        self.tally.numbers[usize::from(number)] += 1;
        self.count(&given);
        Ok(Some(given))
    }

    /// A frame at a node with all that belongs to its answer.
    pub fn node_frame(&mut self, id: u32, bytes: &[u8]) -> Verdict<Given> {
        let given = self.node_frame_raw(id, bytes)?.ok_or_else(|| Difference("no answer was lent".into()))?;
        self.what_belongs_to(&given, bytes)?;
        Ok(given)
    }
}

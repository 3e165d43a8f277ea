//! A sender and a receiver at another address, over two queues that keep order. Both are the archive's, and each is a pair: the rules go
//! along with it, compared at every call. Without loss every message arrives, equal and once, and nothing is refused. With losses
//! nothing is handed over that was not announced under its key, and no announcement twice; there a key is used again only when the
//! queues are empty and what it stood for has ended at both ends. Where segments alone are lost, every transfer comes to rest by itself,
//! and arrives unless requests were spent (02 E6). Either end may be a node, which takes its frames by the node's call. What a reading
//! ends is what the network reckons by itself, at the receiver by the limit of each session's wait; so is what a request asks for.

mod announced;
mod counts;
mod end;
mod sessions;
mod third;

use crate::limits;
use crate::pair::{expect, Difference, Given, Pair, Verdict};
use crate::random::Random;
use crate::sender::{good_pgn, Frame, DATA};
use announced::{length, Announced};
pub use counts::Counts;
use counts::Met;
use end::{slack, start, End};
use rules::calls::Code;
use rules::frame::{number24, GLOBAL};
use rules::receiver::Key;
use rules::sending::TRANSFERS;
use sessions::{Line, Sessions};
use std::collections::VecDeque;
use third::Third;

/// The pairs of the sender's and the receiver's end.
pub type Ends = [Pair; 2];

/// Announcements for one seed.
const WITHOUT_LOSS: u64 = 2_700;
const WITH_LOSSES: u64 = 4_000;
const WITH_SEGMENTS_LOST: u64 = 3_000;
/// Turns without an announcement after which the network stands still.
const PATIENCE: u64 = 1_000_000;

/// What the queues lose: one frame in so many.
#[derive(Clone, Copy, PartialEq, Eq)]
enum Loss {
    None,
    /// Any frame, either way, and clocks may run on through a silence.
    Any(usize),
    /// Segments alone, and right behind a lost one all but one in so many. Until the receiver's first request it is none for which the
    /// receiver waits before its next CTS: the last one granted, but for the last of the message.
    Segments(usize, usize),
}

#[derive(Clone, Copy)]
enum Turn {
    Announce,
    Ask,
    ToReceiver,
    ToSender,
    SendersClock,
    ReceiversClock,
    Third,
}

const TURNS: [Turn; 7] = [
    Turn::Announce,
    Turn::Ask,
    Turn::ToReceiver,
    Turn::ToSender,
    Turn::SendersClock,
    Turn::ReceiversClock,
    Turn::Third,
];

struct Network<'a> {
    sender: End<'a>,
    receiver: End<'a>,
    third: Third,
    random: &'a mut Random,
    counts: &'a mut Counts,
    to_receiver: VecDeque<Frame>,
    to_sender: VecDeque<Frame>,
    /// Since the queues were last empty and nothing open.
    announced: Vec<Announced>,
    /// Open at the receiver.
    sessions: Sessions,
    loss: Loss,
    /// Where any frames are lost: of the sender's and the receiver's readings one in so many may be a silence.
    silence: (usize, usize),
}

pub fn without_loss(ends: &mut Ends, random: &mut Random, counts: &mut Counts) -> Verdict<()> {
    let mut announced = 0;
    while announced < WITHOUT_LOSS {
        let wanted = random.between(1, 60);
        Network::new(ends, random, counts)?.run(wanted)?;
        announced += wanted as u64;
    }
    Ok(())
}

pub fn with_losses(ends: &mut Ends, random: &mut Random, counts: &mut Counts) -> Verdict<()> {
    let mut announced = 0;
    while announced < WITH_LOSSES {
        let mut network = Network::new(ends, random, counts)?;
        for _ in 0..5 {
            network.loss = Loss::Any(network.random.pick(&[3, 20, 100, 500]));
            network.silence = (network.random.pick(&[8, 50, 400]), network.random.pick(&[50, 400, 4_000]));
            let wanted = network.random.between(1, 25);
            network.run(wanted)?;
            announced += wanted as u64;
        }
    }
    Ok(())
}

pub fn with_segments_lost(ends: &mut Ends, random: &mut Random, counts: &mut Counts) -> Verdict<()> {
    let mut announced = 0;
    while announced < WITH_SEGMENTS_LOST {
        let mut network = Network::new(ends, random, counts)?;
        for _ in 0..5 {
            network.loss = Loss::Segments(network.random.pick(&[2, 3, 6, 20, 100]), network.random.pick(&[1, 2, 8]));
            let wanted = network.random.between(1, 25);
            network.run(wanted)?;
            announced += wanted as u64;
        }
    }
    Ok(())
}

fn answered(given: Option<Given>) -> Verdict<Given> {
    given.ok_or_else(|| Difference("no answer was lent".into()))
}

impl<'a> Network<'a> {
    fn new(ends: &'a mut Ends, random: &'a mut Random, counts: &'a mut Counts) -> Verdict<Network<'a>> {
        let own = random.below(254);
        // Adding 1 to 253 to an address, modulo 254, never gives it again; the two that are added here differ.
        let on = random.between(1, 253);
        let on_third = (on - 1 + random.between(1, 252)) % 253 + 1;
        let [other, third] = [on, on_third].map(|on| ((own + on) % 254) as u8);
        let [sending, receiving] = ends;
        let sender = End::new(sending, random, own as u8)?;
        let receiver = End::new(receiving, random, other)?;
        let third = Third::new(random, third, sender.own);
        let (to_receiver, to_sender) = (VecDeque::new(), VecDeque::new());
        let (announced, sessions) = (Vec::new(), Sessions::new(receiver.limits));
        let (loss, silence) = (Loss::None, (0, 0));
        Ok(Network {
            sender,
            receiver,
            third,
            random,
            counts,
            to_receiver,
            to_sender,
            announced,
            sessions,
            loss,
            silence,
        })
    }

    /// So many announcements, and all that comes of them.
    fn run(&mut self, wanted: usize) -> Verdict<()> {
        let mut turns = Vec::new();
        for turn in TURNS {
            let times = self.random.between(1, 8);
            turns.extend(std::iter::repeat_n(turn, times));
        }
        let mut idle = 0;
        while self.announced.len() < wanted {
            let announced = self.announced.len();
            match self.random.pick(&turns) {
                Turn::Announce => self.announce()?,
                Turn::Ask => self.ask_one()?,
                Turn::ToReceiver => self.receiver_takes()?,
                Turn::ToSender => self.sender_takes()?,
                Turn::SendersClock => self.senders_clock()?,
                Turn::ReceiversClock => self.receivers_clock()?,
                Turn::Third => self.third_takes_part()?,
            }
            idle = if self.announced.len() > announced { 0 } else { idle + 1 };
            expect(idle < PATIENCE, || format!("nothing comes to an end: {:?}", self.sender.pair.sender_state()))?;
        }
        self.drain()?;
        if self.loses_any() {
            self.silence()?;
        }
        self.finish()
    }

    fn loses_any(&self) -> bool {
        matches!(self.loss, Loss::Any(_))
    }

    fn announce(&mut self) -> Verdict<()> {
        let destination = if self.random.once_in(3) { GLOBAL } else { self.receiver.own };
        let session = self.random.below(16) as u8;
        let is_used = |a: &Announced| (a.destination, a.session) == (destination, session);
        let is_free = if self.loss == Loss::None {
            !self.announced.iter().any(|a| a.is_open && is_used(a))
        } else {
            !self.announced.iter().any(is_used)
        };
        let open = self.open().len();
        if !is_free || open == TRANSFERS {
            return Ok(());
        }
        let (pgn, length) = (good_pgn(self.random), length(self.random));
        let message = self.random.bytes(length);
        let given = answered(self.sender.pair.announce(destination, session, pgn, &message)?)?;
        expect(given.is(Code::Announced), || format!("an announcement: {:02X?}", given.0))?;
        self.give_out(&given);
        self.announced.push(Announced::new(destination, session, pgn, message, self.sender.clock));
        if open + 1 == TRANSFERS {
            self.counts.add(Met::FourOpen);
        }
        Ok(())
    }

    /// The frame that is in the sender's buffer.
    fn give_out(&mut self, given: &Given) {
        self.to_receiver.extend(self.sender.pair.frame_in_buffer(given));
    }

    /// At an end that is a node.
    fn third_takes_part(&mut self) -> Verdict<()> {
        if self.sender.is_node && self.third.sends(&mut self.sender, self.random)? {
            self.counts.add(Met::ThirdToNode);
        }
        if self.receiver.is_node && self.third.gets(&mut self.receiver, self.random)? {
            self.counts.add(Met::NodeToThird);
        }
        Ok(())
    }

    fn open(&self) -> Vec<usize> {
        (0..self.announced.len()).filter(|&i| self.announced[i].is_open).collect()
    }

    fn ask_one(&mut self) -> Verdict<()> {
        let open = self.open();
        if !open.is_empty() {
            let i = self.random.pick(&open);
            self.ask(i)?;
        }
        Ok(())
    }

    /// Asks for a frame of this transfer: whether one went out.
    fn ask(&mut self, i: usize) -> Verdict<bool> {
        let a = &mut self.announced[i];
        let given = answered(self.sender.pair.next_frame(a.destination, a.session, &a.message)?)?;
        let all_out = a.last_out && a.due.is_empty();
        let by_bam = a.is_broadcast();
        let has_frame = given.0[19] == 1;
        let is_right = if given.is(Code::SegmentSent) {
            a.last_out |= given.word(15) == a.segments();
            has_frame && a.due.next() == Some(given.word(15))
        } else if given.is(Code::StatusSent) {
            // A broadcast's ends it.
            (a.is_open, a.ended_well) = (!by_bam, by_bam);
            has_frame && all_out
        } else {
            self.counts.add(Met::NothingDue);
            given.is(Code::NothingDue) && !has_frame && a.due.is_empty()
        };
        if has_frame {
            a.mark = self.sender.clock;
        }
        let told = || format!("asked for a frame: {:02X?} of {:?}", given.0, self.sender.pair.sender_state());
        expect(is_right, told)?;
        self.give_out(&given);
        Ok(has_frame)
    }

    /// Whether this frame is lost on its way to the receiver.
    fn is_lost_to_receiver(&mut self, frame: &Frame) -> bool {
        let a = find(&mut self.announced, frame);
        let (is_lost, met) = match (self.loss, a) {
            (Loss::Any(one_in), _) => (self.random.once_in(one_in), Met::DroppedToReceiver),
            (Loss::Segments(one_in, behind), Some(a)) if is_segment(frame) => {
                let n = number24(&frame.bytes[1..4]);
                let is_behind = n == a.last_lost + 1 && !self.random.once_in(behind);
                let is_lost = a.can_lose(n) && (is_behind || self.random.once_in(one_in));
                if is_lost {
                    (a.lost, a.last_lost) = (a.lost + 1, n);
                }
                let is_last = n == a.segments() && a.requests == 0;
                (is_lost, if is_last { Met::DroppedLast } else { Met::DroppedSegment })
            }
            _ => (false, Met::DroppedToReceiver),
        };
        if is_lost {
            self.counts.add(met);
        }
        is_lost
    }

    fn is_lost_to_sender(&mut self) -> bool {
        let Loss::Any(one_in) = self.loss else {
            return false;
        };
        let is_lost = self.random.once_in(one_in);
        if is_lost {
            self.counts.add(Met::DroppedToSender);
        }
        is_lost
    }

    fn receiver_takes(&mut self) -> Verdict<()> {
        let Some(frame) = self.to_receiver.pop_front() else {
            return Ok(());
        };
        if self.is_lost_to_receiver(&frame) {
            return Ok(());
        }
        let given = self.taken_by_receiver(&frame)?;
        let line: Line = ((frame.id >> 8) as u8, frame.bytes[0] >> 4);
        self.sessions.answered(line, &given, self.receiver.clock);
        self.can_refuse(&frame, &given)?;
        if given.is(Code::HandedOver) {
            self.hand_over(&given)?;
        } else if given.is(Code::Aborted) {
            self.counts.add(Met::AbortedByOriginator);
        } else if given.is(Code::Grant) || given.is(Code::Taken) {
            self.goes_on(&frame, &given)?;
        }
        self.reply(&given);
        Ok(())
    }

    /// What was refused, a loss explains.
    fn can_refuse(&mut self, frame: &Frame, given: &Given) -> Verdict<()> {
        let (number, loss) = (given.number(), self.loss);
        let is_spent = number == 21 && given.0[6] == 1;
        let Some(a) = find(&mut self.announced, frame) else {
            return Err(Difference(format!("{frame:02X?} was never announced")));
        };
        if given.is(Code::Ended) {
            a.ended_by = Some(number);
        }
        let is_right = match (number, loss) {
            (0, _) => true,
            (_, Loss::None) => false,
            (15 | 16, Loss::Any(_)) => true,
            // What follows the segment that ended a broadcast.
            (16, Loss::Segments(..)) => a.ended_by == Some(19),
            (19, _) => a.is_broadcast(),
            (21, _) if is_spent => a.requests == 5,
            (21, _) => a.is_broadcast(),
            _ => false,
        };
        expect(is_right, || format!("{frame:02X?} was refused with {number}, which no loss can bring"))?;
        match number {
            15 => self.counts.add(Met::EightOpen),
            16 if self.loses_any() => self.counts.add(Met::TooLate),
            16 => self.counts.add(Met::TooLateForBroadcast),
            19 => self.counts.add(Met::OutOfSequence),
            21 if !is_spent => self.counts.add(Met::EndTooEarly),
            _ => {}
        }
        Ok(())
    }

    /// The receiver's session goes on: what is in, what was granted and what is asked for, by the network's own account.
    fn goes_on(&mut self, frame: &Frame, given: &Given) -> Verdict<()> {
        let Some(a) = find(&mut self.announced, frame) else {
            return Ok(());
        };
        if is_segment(frame) {
            a.takes(number24(&frame.bytes[1..4]));
        }
        if !given.is(Code::Grant) {
            return Ok(());
        }
        let (next, count) = (given.word(15), u32::from(given.0[6]));
        a.granted = next + count - 1;
        let is_request = frame.bytes[0] & 0xF == 2 && !is_segment(frame);
        if is_request {
            a.requests += 1;
            let due = a.first_run();
            let told = || format!("asked for {count} from {next} on, due was {due:?}");
            expect((next, count) == due, told)?;
            let (missing, key) = (a.missing(), Key { sa: self.sender.own, da: a.destination, session: a.session });
            let told = self.receiver.pair.missing(key)?;
            expect(told == missing, || format!("{told} are told to be missing, due was {missing}"))?;
            self.counts.add(if self.loses_any() { Met::Asked } else { Met::AskedForSegments });
        }
        Ok(())
    }

    fn taken_by_receiver(&mut self, Frame { id, bytes }: &Frame) -> Verdict<Given> {
        if self.receiver.is_node {
            self.counts.add(Met::TakenByNode);
            self.receiver.pair.node_frame(*id, bytes)
        } else {
            self.receiver.pair.frame(*id, bytes)
        }
    }

    fn taken_by_sender(&mut self, Frame { id, bytes }: &Frame) -> Verdict<Given> {
        if self.sender.is_node {
            self.counts.add(Met::ReplyTakenByNode);
            self.sender.pair.node_frame(*id, bytes)
        } else {
            answered(self.sender.pair.sender_frame(*id, bytes)?)
        }
    }

    fn reply(&mut self, given: &Given) {
        if let Some((id, bytes)) = given.sent() {
            self.to_sender.push_back(Frame { id, bytes: bytes.to_vec() });
        }
    }

    fn hand_over(&mut self, given: &Given) -> Verdict<()> {
        let [sa, destination, session] = [given.0[2], given.0[3], given.0[4]];
        let is_it = |a: &&mut Announced| (a.destination, a.session, a.arrived) == (destination, session, false);
        let a = self.announced.iter_mut().find(is_it);
        let told = || format!("a message to {destination} in session {session} was handed over but not announced");
        let a = a.ok_or_else(|| Difference(told()))?;
        let length = given.word(11) as usize;
        let is_equal = sa == self.sender.own && given.word(7) == a.pgn && self.receiver.pair.out(length) == a.message;
        expect(is_equal, || format!("a message of {length} bytes is not the one announced"))?;
        a.arrived = true;
        Ok(())
    }

    fn sender_takes(&mut self) -> Verdict<()> {
        let Some(frame) = self.to_sender.pop_front() else {
            return Ok(());
        };
        if self.is_lost_to_sender() {
            return Ok(());
        }
        let loss = self.loss;
        let given = self.taken_by_sender(&frame)?;
        let key = (frame.id as u8, frame.bytes[0] >> 4);
        let a = self.announced.iter_mut().find(|a| a.is_open && (a.destination, a.session) == key);
        let is_right = match a {
            Some(a) if given.is(Code::CtsTaken) => {
                let next = number24(&frame.bytes[4..7]);
                a.due = next..next + u32::from(frame.bytes[7]);
                a.mark = self.sender.clock;
                true
            }
            Some(a) if given.is(Code::Acknowledged) => {
                (a.is_open, a.ended_well) = (false, true);
                a.arrived
            }
            Some(a) if given.is(Code::TransferAborted) => {
                self.counts.add(Met::AbortedByResponder);
                a.is_open = false;
                loss != Loss::None
            }
            Some(_) => false,
            None => {
                self.counts.add(Met::TooLateToSender);
                matches!(loss, Loss::Any(_)) && given.number() == 16
            }
        };
        expect(is_right, || format!("{frame:02X?} was answered by {:02X?}", given.0))?;
        expect(given.sent().is_none(), || format!("{frame:02X?} was answered: {:02X?}", given.0))
    }

    /// How far a clock goes on. Where any frames are lost just the first silence may have run out, or any; else nothing may end.
    fn passed(&mut self, last: u32, limit: u32, slack: Option<u32>, silence: usize) -> u32 {
        if self.loses_any() && self.random.once_in(silence) {
            return match slack {
                Some(slack) if self.random.once_in(2) => slack + 1,
                _ => self.random.below(2 * limit as usize) as u32,
            };
        }
        let Some(slack) = slack else {
            return start(self.random).wrapping_sub(last);
        };
        let passed = match self.random.below(8) {
            0 => {
                self.counts.add(Met::OutlivedByOne);
                slack
            }
            1 | 2 => 0,
            _ => self.random.below(slack as usize / 8 + 1) as u32,
        };
        if last.checked_add(passed).is_none() {
            self.counts.add(Met::RanRound);
        }
        passed
    }

    fn senders_clock(&mut self) -> Verdict<()> {
        let End { limit, clock, .. } = self.sender;
        let slack = slack(clock, limit, self.announced.iter().filter(|a| a.is_open).map(|a| a.mark));
        let passed = self.passed(clock, limit, slack, self.silence.0);
        self.senders_reading(passed)
    }

    fn senders_reading(&mut self, passed: u32) -> Verdict<()> {
        let reading = self.sender.clock.wrapping_add(passed);
        self.sender.clock = reading;
        let (number, given) = self.sender.pair.sender_reading(reading)?;
        expect(number == 0, || format!("the sender's reading {reading} was refused with {number}"))?;
        let ended: Vec<Given> = given.into_iter().filter(|ending| ending.code() != 0).collect();
        for a in self.announced.iter_mut().filter(|a| a.is_open) {
            let key = [self.sender.own, a.destination, a.session];
            let ending = ended.iter().find(|ending| ending.0[2..5] == key);
            let is_due = reading.wrapping_sub(a.mark) >= self.sender.limit;
            expect(ending.is_some() == is_due, || {
                format!("reading {reading}, mark {}: {key:?} ended: {}", a.mark, !is_due)
            })?;
            let Some(ending) = ending else {
                continue;
            };
            let by_bam = a.destination == GLOBAL;
            let is_right = ending.is(Code::TransferEnded) && ending.sent().is_none() == by_bam;
            expect(is_right, || format!("reading {reading}: {:02X?}", ending.0))?;
            a.is_open = false;
            self.counts.add(if by_bam { Met::SilentBroadcast } else { Met::SilentRts });
            let abort = ending.sent().map(|(id, bytes)| Frame { id, bytes: bytes.to_vec() });
            self.to_receiver.extend(abort);
        }
        expect(ended.is_empty() || self.loses_any(), || "a transfer ended by silence".into())
    }

    fn receivers_clock(&mut self) -> Verdict<()> {
        let End { limits, clock, .. } = self.receiver;
        let slack = self.sessions.silences().map(|silence| silence.slack(clock)).min();
        let passed = self.passed(clock, limits::longer(limits), slack, self.silence.1);
        self.receivers_reading(passed)
    }

    fn receivers_reading(&mut self, passed: u32) -> Verdict<()> {
        let reading = self.receiver.clock.wrapping_add(passed);
        self.receiver.clock = reading;
        let (number, given) = self.receiver.pair.reading(reading)?;
        expect(number == 0, || format!("the receiver's reading {reading} was refused with {number}"))?;
        let mut ended: Vec<Given> = given.into_iter().filter(|ending| ending.code() != 0).collect();
        ended.sort_by_key(|ending| (ending.0[3], ending.0[4]));
        let due = self.sessions.run_out(reading);
        expect(ended.len() == due.len(), || format!("reading {reading}: {} ended, due {due:?}", ended.len()))?;
        for (ending, (line, silence)) in ended.iter().zip(due) {
            self.session_ended(ending, line)?;
            self.counts.silent(silence, self.receiver.limits, reading);
        }
        for silence in self.sessions.silences() {
            self.counts.outlived(silence, self.receiver.limits, reading);
        }
        expect(ended.is_empty() || self.loses_any(), || "a session ended by silence".into())
    }

    /// This is the ending due to the session of this line; a broadcast's sends nothing.
    fn session_ended(&mut self, ending: &Given, (destination, session): Line) -> Verdict<()> {
        let is_its_own = ending.0[2..5] == [self.sender.own, destination, session];
        let is_silence = ending.is(Code::Ended) && ending.number() == 22;
        let is_right = is_its_own && is_silence && ending.sent().is_none() == (destination == GLOBAL);
        expect(is_right, || format!("to {destination}, session {session}, silence is due: {:02X?}", ending.0))?;
        self.reply(ending);
        Ok(())
    }

    /// Until the queues are empty and nothing is due.
    fn drain(&mut self) -> Verdict<()> {
        loop {
            while !self.to_receiver.is_empty() {
                self.receiver_takes()?;
            }
            while !self.to_sender.is_empty() {
                self.sender_takes()?;
            }
            let mut has_moved = false;
            for i in self.open() {
                has_moved |= self.ask(i)?;
            }
            if !has_moved && self.to_sender.is_empty() && self.to_receiver.is_empty() {
                return Ok(());
            }
        }
    }

    /// Ends all that is still open, at one end before the other.
    fn silence(&mut self) -> Verdict<()> {
        let sender_first = self.random.once_in(2);
        for senders in [sender_first, !sender_first] {
            if senders {
                self.senders_reading(self.sender.limit)?;
            } else {
                self.receivers_reading(limits::longer(self.receiver.limits))?;
            }
            self.drain()?;
        }
        Ok(())
    }

    fn finish(&mut self) -> Verdict<()> {
        let sessions = self.receiver.pair.state().map_or(0, |state| state.slots.iter().flatten().count());
        let transfers = self.sender.pair.sender_state().transfers.iter().flatten().count();
        expect(sessions == 0 && transfers == 0, || format!("{sessions} sessions, {transfers} transfers stay open"))?;
        expect(self.sessions.is_empty(), || "a session is not open that should be".into())?;
        for a in self.announced.drain(..) {
            match self.loss {
                Loss::None => self.counts.arrived(&a)?,
                Loss::Any(_) => self.counts.in_spite_of_losses(&a),
                Loss::Segments(..) => self.counts.with_segments_lost(&a)?,
            }
        }
        Ok(())
    }
}

fn is_segment(frame: &Frame) -> bool {
    (frame.id >> 16) as u8 == DATA
}

/// The announcement that a frame to the receiver belongs to: the first of its key that is not over there, else the last.
fn find<'a>(announced: &'a mut [Announced], frame: &Frame) -> Option<&'a mut Announced> {
    let line: Line = ((frame.id >> 8) as u8, frame.bytes[0] >> 4);
    let is_it = |a: &Announced| (a.destination, a.session) == line;
    let is_under_way = |a: &Announced| is_it(a) && !a.arrived && a.ended_by.is_none();
    let place = announced.iter().position(is_under_way).or_else(|| announced.iter().rposition(is_it))?;
    announced.get_mut(place)
}

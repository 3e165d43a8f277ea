//! 02 E2: the sender over a typed state. It announces by RTS or BAM and gives out one frame each time it is asked; what a CTS has not
//! granted does not go out.

use crate::frame::{is_pgn, is_taken, least_length, number24, Route, DATA_LENGTHS, GLOBAL};
use crate::receiver::{opening_ok, segments_of, LARGEST_MESSAGE, SEGMENT_BYTES};
use crate::sent::{low24, wire_reason};
use crate::Refusal;

pub const TRANSFERS: usize = 4;
/// PF of control frames.
pub(crate) const CONTROL: u32 = 77;
const DATA: u32 = 78;
/// 001, 6.3.3.2.
const PADDING: u8 = 0xAA;

#[derive(Clone, Copy, Debug, PartialEq, Eq)]
pub struct Transfer {
    /// 255 for a broadcast.
    pub destination: u8,
    pub session: u8,
    pub pgn: u32,
    pub total_bytes: u32,
    pub next: u32,
    /// The last segment granted: 0 before an RTS's first CTS, the last of the message in a broadcast.
    pub granted: u32,
    /// The last segment has gone out, at least once.
    pub last_out: bool,
    /// An EOMS has gone out.
    pub status_out: bool,
    /// An EOMS has to go out.
    pub status_owed: bool,
    pub mark: u32,
}

#[derive(Clone, Debug, PartialEq, Eq)]
pub struct Sender {
    pub own: u8,
    pub limit: u32,
    pub last_reading: u32,
    pub transfers: [Option<Transfer>; TRANSFERS],
}

/// A frame that goes out.
#[derive(Clone, Debug, PartialEq, Eq)]
pub struct Frame {
    pub id: u32,
    pub bytes: Vec<u8>,
}

#[derive(Clone, Copy, Debug, PartialEq, Eq)]
pub enum Event {
    Announced,
    /// This segment goes out.
    Segment(u32),
    /// An RTS transfer's EOMS goes out; the EOMA has yet to come.
    Status,
    /// Nothing may go out now.
    NothingDue,
    /// A CTS for segments.
    Granted {
        next: u32,
        count: u8,
    },
    /// A CTS for none.
    Held,
    /// A CTS that asks for the EOMS.
    StatusAsked,
    /// An EOMA has come, or a broadcast's EOMS goes out.
    EndedWell,
    /// The responder has ended the transfer.
    Aborted,
    /// The transfer ended with 27.
    Ended(Refusal),
    /// Refused with no effect.
    Refused(Refusal),
}

#[derive(Clone, Debug, PartialEq, Eq)]
pub struct Answer {
    pub event: Event,
    /// The transfer that the answer is about, as it was after an announcement and before any other call.
    pub transfer: Option<Transfer>,
    pub frame: Option<Frame>,
}

/// A transfer that a reading ended with 22, and the Abort that goes out for it.
#[derive(Clone, Debug, PartialEq, Eq)]
pub struct Ending {
    pub transfer: Transfer,
    pub frame: Option<Frame>,
}

impl Answer {
    pub fn number(&self) -> u8 {
        match self.event {
            Event::Ended(refusal) | Event::Refused(refusal) => refusal.number(),
            _ => 0,
        }
    }

    fn alone(event: Event, transfer: Transfer) -> Answer {
        Answer { event, transfer: Some(transfer), frame: None }
    }

    fn with(event: Event, transfer: Transfer, frame: Frame) -> Answer {
        Answer { event, transfer: Some(transfer), frame: Some(frame) }
    }

    pub(crate) fn refused(refusal: Refusal) -> Answer {
        Answer { event: Event::Refused(refusal), transfer: None, frame: None }
    }
}

/// What a responder says.
enum Reply {
    Cts,
    Eoma,
    Abort,
}

fn destination_ok(destination: u8, session: u8, own: u8) -> bool {
    destination != 254 && destination != own && session <= 15
}

fn length_ok(bytes: usize) -> bool {
    (1..=LARGEST_MESSAGE as usize).contains(&bytes)
}

impl Transfer {
    pub fn is_broadcast(&self) -> bool {
        self.destination == GLOBAL
    }

    pub fn segments(&self) -> u32 {
        segments_of(self.total_bytes)
    }

    fn in_bounds(&self, own: u8) -> bool {
        let grant_ok =
            if self.is_broadcast() { self.granted == self.segments() } else { self.granted <= self.segments() };
        destination_ok(self.destination, self.session, own)
            && is_pgn(self.pgn)
            && length_ok(self.total_bytes as usize)
            && grant_ok
            && (1..=self.granted + 1).contains(&self.next)
    }
}

impl Sender {
    /// The sender that an opening gives. A refused one keeps what it was given, and is out of bounds for good.
    pub fn open(own: u8, limit: u32, reading: u32) -> (Sender, Result<(), Refusal>) {
        let sender = Sender { own, limit, last_reading: reading, transfers: [None; TRANSFERS] };
        let verdict = sender.judge_bounds();
        (sender, verdict)
    }

    pub fn in_bounds(&self) -> bool {
        let open: Vec<&Transfer> = self.transfers.iter().flatten().collect();
        let key = |i: usize| (open[i].destination, open[i].session);
        let one_each = (1..open.len()).all(|i| (0..i).all(|other| key(other) != key(i)));
        opening_ok(self.own, &[self.limit]) && one_each && open.iter().all(|transfer| transfer.in_bounds(self.own))
    }

    fn judge_bounds(&self) -> Result<(), Refusal> {
        if self.in_bounds() {
            Ok(())
        } else {
            Err(Refusal::OutOfBounds)
        }
    }

    pub(crate) fn find(&self, destination: u8, session: u8) -> Option<(usize, Transfer)> {
        let is_it = |transfer: &Transfer| transfer.destination == destination && transfer.session == session;
        let place = self.transfers.iter().position(|place| place.as_ref().is_some_and(is_it))?;
        Some((place, self.transfers[place]?))
    }

    /// To 255 by BAM, else by RTS.
    pub fn announce(&mut self, destination: u8, session: u8, pgn: u32, message: &[u8]) -> Answer {
        self.announced(destination, session, pgn, message).unwrap_or_else(Answer::refused)
    }

    fn announced(&mut self, destination: u8, session: u8, pgn: u32, message: &[u8]) -> Result<Answer, Refusal> {
        self.judge_bounds()?;
        if !destination_ok(destination, session, self.own) {
            return Err(Refusal::NotTakenHere);
        }
        if !is_pgn(pgn) {
            return Err(Refusal::WrongPgn);
        }
        if !length_ok(message.len()) {
            return Err(Refusal::LentMessageLength);
        }
        if self.find(destination, session).is_some() {
            return Err(Refusal::KeyAlreadyOpen);
        }
        let place = self.transfers.iter().position(Option::is_none).ok_or(Refusal::NoFreeTransfer)?;
        let total_bytes = message.len() as u32;
        let transfer = Transfer {
            destination,
            session,
            pgn,
            total_bytes,
            next: 1,
            granted: if destination == GLOBAL { segments_of(total_bytes) } else { 0 },
            last_out: false,
            status_out: false,
            status_owed: false,
            mark: self.last_reading,
        };
        self.transfers[place] = Some(transfer);
        Ok(Answer::with(Event::Announced, transfer, self.announcement(&transfer)))
    }

    /// The next frame of a transfer, whose message is lent again.
    pub fn next_frame(&mut self, destination: u8, session: u8, message: &[u8]) -> Answer {
        self.asked(destination, session, message).unwrap_or_else(Answer::refused)
    }

    fn asked(&mut self, destination: u8, session: u8, message: &[u8]) -> Result<Answer, Refusal> {
        self.judge_bounds()?;
        let (place, transfer) = self.find(destination, session).ok_or(Refusal::KeyNotOpen)?;
        if message.len() != transfer.total_bytes as usize {
            return Err(Refusal::LentMessageLength);
        }
        // No run of calls leaves an EOMS owed beside an open grant, but a record may say so: then the EOMS goes out first.
        if transfer.status_owed {
            Ok(self.give_status(place, transfer))
        } else if transfer.next <= transfer.granted {
            Ok(self.give_segment(place, transfer, message))
        } else {
            Ok(Answer::alone(Event::NothingDue, transfer))
        }
    }

    fn give_segment(&mut self, place: usize, transfer: Transfer, message: &[u8]) -> Answer {
        let n = transfer.next;
        let last_out = transfer.last_out || n == transfer.segments();
        let spends_the_grant = n == transfer.granted;
        self.transfers[place] = Some(Transfer {
            next: n + 1,
            last_out,
            status_owed: spends_the_grant && last_out,
            mark: self.last_reading,
            ..transfer
        });
        Answer::with(Event::Segment(n), transfer, self.segment(&transfer, n, message))
    }

    fn give_status(&mut self, place: usize, transfer: Transfer) -> Answer {
        let frame = self.status(&transfer);
        if transfer.is_broadcast() {
            self.transfers[place] = None;
            return Answer::with(Event::EndedWell, transfer, frame);
        }
        let mark = self.last_reading;
        self.transfers[place] = Some(Transfer { status_out: true, status_owed: false, mark, ..transfer });
        Answer::with(Event::Status, transfer, frame)
    }

    /// Takes a control frame of a responder.
    pub fn control_frame(&mut self, id: u32, bytes: &[u8]) -> Answer {
        self.replied(id, bytes).unwrap_or_else(Answer::refused)
    }

    fn replied(&mut self, id: u32, bytes: &[u8]) -> Result<Answer, Refusal> {
        self.judge_bounds()?;
        let route = self.judge_frame(id, bytes.len())?;
        let reply = match (bytes[0] & 0xF, bytes[7] & 0b11) {
            (1, _) => Reply::Cts,
            (3, _) => Reply::Eoma,
            (15, 1) => Reply::Abort,
            _ => return Err(Refusal::ControlNotTaken),
        };
        let pgn = number24(&bytes[9..12]);
        match self.find(route.sa, bytes[0] >> 4) {
            Some((place, transfer)) if route.da != GLOBAL && transfer.pgn == pgn => match reply {
                Reply::Cts => Ok(self.clear_to_send(place, transfer, bytes)),
                Reply::Eoma => self.acknowledgment(place, transfer, bytes),
                Reply::Abort => {
                    self.transfers[place] = None;
                    Ok(Answer::alone(Event::Aborted, transfer))
                }
            },
            _ => Err(Refusal::KeyNotOpen),
        }
    }

    /// 2, 1, 3 and 9, in this order; a sender by itself takes no other PF than that of control frames.
    fn judge_frame(&self, id: u32, length: usize) -> Result<Route, Refusal> {
        if id >= 1 << 29 {
            return Err(Refusal::IdentifierTooLarge);
        }
        if !DATA_LENGTHS.contains(&length) {
            return Err(Refusal::NotACanLength);
        }
        let route = Route { sa: id as u8, da: (id >> 8) as u8 };
        let pages_and_pf = id >> 16 & 0x3FF;
        if pages_and_pf != CONTROL || !is_taken(route, self.own) {
            return Err(Refusal::NotTakenHere);
        }
        if length != 12 {
            return Err(Refusal::TransferFrameLength);
        }
        Ok(route)
    }

    fn clear_to_send(&mut self, place: usize, transfer: Transfer, bytes: &[u8]) -> Answer {
        let (next, count, request) = (number24(&bytes[4..7]), bytes[7], bytes[8]);
        let held = Transfer { granted: transfer.next - 1, mark: self.last_reading, ..transfer };
        // Before the last segment has gone out the request code means nothing.
        let (forward, event) = if request == 1 && transfer.last_out {
            (Transfer { status_owed: true, ..held }, Event::StatusAsked)
        } else if count == 0 {
            (held, Event::Held)
        } else {
            let granted = next + u32::from(count) - 1;
            if next == 0 || granted > transfer.segments() {
                self.transfers[place] = None;
                let refusal = Refusal::SegmentNotInMessage;
                return Answer::with(Event::Ended(refusal), transfer, self.abort(&transfer, refusal));
            }
            (Transfer { next, granted, status_owed: false, ..held }, Event::Granted { next, count })
        };
        self.transfers[place] = Some(forward);
        Answer::alone(event, transfer)
    }

    fn acknowledgment(&mut self, place: usize, transfer: Transfer, bytes: &[u8]) -> Result<Answer, Refusal> {
        let totals = (number24(&bytes[1..4]), number24(&bytes[4..7]));
        if !transfer.status_out || totals != (transfer.total_bytes, transfer.segments()) {
            return Err(Refusal::KeyNotOpen);
        }
        self.transfers[place] = None;
        Ok(Answer::alone(Event::EndedWell, transfer))
    }

    /// Takes a reading of the clock: what ends with 22, place by place.
    pub fn reading(&mut self, reading: u32) -> Result<[Option<Ending>; TRANSFERS], Refusal> {
        self.judge_bounds()?;
        let mut endings: [Option<Ending>; TRANSFERS] = Default::default();
        for (place, ending) in endings.iter_mut().enumerate() {
            match self.transfers[place] {
                Some(transfer) if reading.wrapping_sub(transfer.mark) >= self.limit => {
                    let frame = (!transfer.is_broadcast()).then(|| self.abort(&transfer, Refusal::Silence));
                    *ending = Some(Ending { transfer, frame });
                    self.transfers[place] = None;
                }
                _ => {}
            }
        }
        self.last_reading = reading;
        Ok(endings)
    }

    /// Figures 31 and 36.
    fn announcement(&self, transfer: &Transfer) -> Frame {
        let (control, max_segments) = if transfer.is_broadcast() { (4, 0xFF) } else { (0, transfer.segments() as u8) };
        self.with_totals(transfer, control, max_segments)
    }

    /// Figure 33, without assurance data.
    fn status(&self, transfer: &Transfer) -> Frame {
        self.with_totals(transfer, 2, 0)
    }

    /// Assurance type 0.
    fn with_totals(&self, transfer: &Transfer, control: u8, byte8: u8) -> Frame {
        let [t0, t1, t2] = low24(transfer.total_bytes);
        let [s0, s1, s2] = low24(transfer.segments());
        self.control(transfer, control, [t0, t1, t2, s0, s1, s2, byte8, 0])
    }

    /// Figure 35: role 00, the originator's, stands below six reserved ones.
    fn abort(&self, transfer: &Transfer, refusal: Refusal) -> Frame {
        let role = 0b1111_1100;
        self.control(transfer, 15, [0xFF, 0xFF, 0xFF, 0xFF, 0xFF, 0xFF, role, wire_reason(refusal)])
    }

    fn control(&self, transfer: &Transfer, control: u8, middle: [u8; 8]) -> Frame {
        let mut bytes = vec![transfer.session << 4 | control];
        bytes.extend(middle);
        bytes.extend(low24(transfer.pgn));
        Frame { id: self.identifier(CONTROL, transfer), bytes }
    }

    /// Figure 37, with format indicator 0.
    fn segment(&self, transfer: &Transfer, n: u32, message: &[u8]) -> Frame {
        let before = (SEGMENT_BYTES * (n - 1)) as usize;
        let due = (message.len() - before).min(SEGMENT_BYTES as usize);
        let mut bytes = vec![transfer.session << 4];
        bytes.extend(low24(n));
        bytes.extend(&message[before..before + due]);
        let length = least_length(bytes.len()).expect("64 bytes at most");
        bytes.resize(length, PADDING);
        Frame { id: self.identifier(DATA, transfer), bytes }
    }

    /// Priority 7, pages 0.
    fn identifier(&self, pf: u32, transfer: &Transfer) -> u32 {
        7 << 26 | pf << 16 | u32::from(transfer.destination) << 8 | u32::from(self.own)
    }
}

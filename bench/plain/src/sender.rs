//! The sender of 02, E2: a typed record behind `&mut self`, four transfers. A frame that goes out is written into a lent buffer; no
//! message is kept.

use crate::transport::{
    control_frame, identifier, is_limit, is_pgn, is_responders, number24, put24, segments_of, wire_reason, ControlBytes, Key, Sent,
    CONTROL, DATA, GLOBAL, SEGMENT_BYTES,
};
use crate::{is_can_fd_length, least_length, Refusal, FRAME_BYTES, SLOT_BYTES};

pub const TRANSFERS: usize = 4;
/// 001, 6.3.3.2.
const PADDING: u8 = 0xaa;

type Frame = [u8; FRAME_BYTES];

#[derive(Clone, Copy)]
pub struct Transfer {
    /// 255 for a broadcast.
    pub da: u8,
    pub number: u8,
    /// The last segment has gone out.
    pub last_out: bool,
    /// An EOMS has gone out.
    pub status_out: bool,
    /// An EOMS has to go out.
    pub status_owed: bool,
    pub total: u32,
    pub pgn: u32,
    pub next: u32,
    pub granted: u32,
    pub mark: u32,
}

impl Transfer {
    fn is_bam(&self) -> bool {
        self.da == GLOBAL
    }

    fn key(&self, own: u8) -> Key {
        Key::new(own, self.da, self.number)
    }
}

/// What a frame with totals says; it is in the front of the lent buffer.
pub struct Totals {
    pub key: Key,
    pub pgn: u32,
    pub total: u32,
    pub segments: u32,
    pub id: u32,
}

impl Totals {
    pub const LENGTH: u8 = 12;
}

pub enum Answer {
    /// An RTS or a BAM goes out.
    Announced(Totals),
    SegmentSent {
        segment: u32,
        length: u8,
        id: u32,
    },
    /// An EOMS goes out; a broadcast has then ended.
    StatusSent(Totals),
    NothingDue,
    CtsTaken,
    Acknowledged(Key),
    Aborted(Key),
    Ended {
        refusal: Refusal,
        key: Key,
        pgn: u32,
        sent: Option<Sent>,
    },
    Refused(Refusal),
}

fn may_send_to(own: u8, da: u8, number: u8) -> bool {
    da != 254 && da != own && number < 16
}

fn is_message_length(length: usize) -> bool {
    length.wrapping_sub(1) < SLOT_BYTES
}

/// RTS, BAM and EOMS.
#[inline(always)]
fn write_totals(own: u8, t: &Transfer, control: u8, byte8: u8, frame: &mut Frame) -> Totals {
    let segments = segments_of(t.total);
    let bytes = frame.first_chunk_mut().expect("12 of 64 bytes");
    bytes[0] = t.number << 4 | control;
    put24(bytes, 1, t.total);
    put24(bytes, 4, segments);
    bytes[7] = byte8;
    bytes[8] = 0;
    put24(bytes, 9, t.pgn);
    Totals {
        key: t.key(own),
        pgn: t.pgn,
        total: t.total,
        segments,
        id: identifier(CONTROL, t.da, own),
    }
}

/// Writes a segment and says how long its frame is.
#[inline(always)]
fn write_segment(number: u8, segment: u32, message: &[u8], frame: &mut Frame) -> u8 {
    let (head, body) = frame.split_first_chunk_mut::<4>().expect("4 of 64 bytes");
    *head = (segment << 8 | u32::from(number << 4)).to_le_bytes();
    let rest = &message[(SEGMENT_BYTES * (segment - 1)) as usize..];
    if let Some(data) = rest.first_chunk::<{ SEGMENT_BYTES as usize }>() {
        body.copy_from_slice(data);
        return FRAME_BYTES as u8;
    }
    let length = least_length(4 + rest.len()).expect("a frame holds a segment");
    let (data, padding) = body[..length - 4].split_at_mut(rest.len());
    data.copy_from_slice(rest);
    padding.fill(PADDING);
    length as u8
}

/// `CHECKED` as of the receiver: whether each call checks the whole record or trusts it.
pub struct Sender<const CHECKED: bool> {
    own: u8,
    limit: u32,
    last: u32,
    transfers: [Option<Transfer>; TRANSFERS],
}

impl<const CHECKED: bool> Sender<CHECKED> {
    pub fn open(own: u8, limit: u32, reading: u32) -> Self {
        Sender {
            own,
            limit,
            last: reading,
            transfers: [None; TRANSFERS],
        }
    }

    pub fn transfers(&self) -> &[Option<Transfer>; TRANSFERS] {
        &self.transfers
    }

    /// 02, E2, of one open transfer but for its key being the only one.
    #[inline(always)]
    fn transfer_in_bounds(&self, t: &Transfer) -> bool {
        if !is_message_length(t.total as usize) {
            return false;
        }
        let segments = segments_of(t.total);
        may_send_to(self.own, t.da, t.number)
            && is_pgn(t.pgn)
            && t.granted <= segments
            && (!t.is_bam() || t.granted == segments)
            && t.next.wrapping_sub(1) <= t.granted
    }

    #[inline(always)]
    pub(crate) fn in_bounds(&self) -> bool {
        if self.own > 253 || !is_limit(self.limit) {
            return false;
        }
        let mut keys = [Key::new(0, 0, 0); TRANSFERS];
        for (open, t) in self.transfers.iter().flatten().enumerate() {
            let key = t.key(self.own);
            if !self.transfer_in_bounds(t) || keys[..open].contains(&key) {
                return false;
            }
            keys[open] = key;
        }
        true
    }

    fn find(&self, da: u8, number: u8) -> Option<usize> {
        self.transfers
            .iter()
            .position(|t| matches!(t, Some(t) if t.da == da && t.number == number))
    }

    /// Ends a transfer with a refusal: an RTS's responder is told.
    fn fail(&mut self, place: usize, refusal: Refusal) -> Answer {
        let t = self.transfers[place].take().expect("an open transfer");
        Answer::Ended {
            refusal,
            key: t.key(self.own),
            pgn: t.pgn,
            sent: (!t.is_bam()).then(|| {
                let mut sent = control_frame(t.number, 15, t.pgn, t.da, self.own);
                sent.bytes[7] = 0xfc;
                sent.bytes[8] = wire_reason(refusal);
                sent
            }),
        }
    }

    /// Announces a message: to 255 by BAM, else by RTS.
    #[inline(never)]
    pub fn announce(&mut self, da: u8, number: u8, pgn: u32, message: &[u8], frame: &mut [u8]) -> Answer {
        let Ok(frame) = <&mut Frame>::try_from(frame) else {
            return Answer::Refused(23);
        };
        if CHECKED && !self.in_bounds() {
            return Answer::Refused(23);
        }
        let place = match self.place_for(da, number, pgn, message.len()) {
            Ok(place) => place,
            Err(refusal) => return Answer::Refused(refusal),
        };
        let total = message.len() as u32;
        let segments = segments_of(total);
        let is_bam = da == GLOBAL;
        let t = self.transfers[place].insert(Transfer {
            da,
            number,
            last_out: false,
            status_out: false,
            status_owed: false,
            total,
            pgn,
            next: 1,
            granted: if is_bam { segments } else { 0 },
            mark: self.last,
        });
        let (control, max) = if is_bam { (4, 0xff) } else { (0, segments as u8) };
        Answer::Announced(write_totals(self.own, t, control, max, frame))
    }

    fn place_for(&self, da: u8, number: u8, pgn: u32, length: usize) -> Result<usize, Refusal> {
        if !may_send_to(self.own, da, number) {
            return Err(3);
        }
        if !is_pgn(pgn) {
            return Err(8);
        }
        if !is_message_length(length) {
            return Err(26);
        }
        if self.find(da, number).is_some() {
            return Err(14);
        }
        self.transfers.iter().position(Option::is_none).ok_or(25)
    }

    /// Gives the next frame of a transfer, whose message is lent again.
    #[inline(never)]
    pub fn next_frame(&mut self, da: u8, number: u8, message: &[u8], frame: &mut [u8]) -> Answer {
        let Ok(frame) = <&mut Frame>::try_from(frame) else {
            return Answer::Refused(23);
        };
        if CHECKED && !self.in_bounds() {
            return Answer::Refused(23);
        }
        let Some(place) = self.find(da, number) else {
            return Answer::Refused(16);
        };
        let t = self.transfers[place].as_mut().expect("an open transfer");
        if message.len() != t.total as usize {
            return Answer::Refused(26);
        }
        if t.next <= t.granted {
            let segment = t.next;
            let length = write_segment(number, segment, message, frame);
            t.last_out |= segment == segments_of(t.total);
            t.status_owed |= segment == t.granted && t.last_out;
            t.next += 1;
            t.mark = self.last;
            let id = identifier(DATA, da, self.own);
            return Answer::SegmentSent { segment, length, id };
        }
        if !t.status_owed {
            return Answer::NothingDue;
        }
        let totals = write_totals(self.own, t, 2, 0, frame);
        if t.is_bam() {
            self.transfers[place] = None;
        } else {
            t.status_out = true;
            t.status_owed = false;
            t.mark = self.last;
        }
        Answer::StatusSent(totals)
    }

    /// Takes one frame at a node that only sends.
    #[inline(never)]
    pub fn frame(&mut self, id: u32, bytes: &[u8]) -> Answer {
        if CHECKED && !self.in_bounds() {
            return Answer::Refused(23);
        }
        self.take(id, bytes)
    }

    /// Takes a frame after 23.
    #[inline(always)]
    pub(crate) fn take(&mut self, id: u32, bytes: &[u8]) -> Answer {
        if id >> 29 != 0 {
            return Answer::Refused(2);
        }
        if !is_can_fd_length(bytes.len()) {
            return Answer::Refused(1);
        }
        let pages_and_pf = (id >> 16) & 0x3ff;
        let da = (id >> 8) as u8;
        let sa = id as u8;
        let is_ours = pages_and_pf == u32::from(CONTROL) && (da == self.own || da == GLOBAL) && sa < 254 && sa != self.own;
        if !is_ours {
            return Answer::Refused(3);
        }
        match bytes.try_into() {
            Ok(bytes) if is_responders(bytes) => self.reply(sa, da, bytes),
            Ok(_) => Answer::Refused(10),
            Err(_) => Answer::Refused(9),
        }
    }

    /// Takes a CTS, an EOMA or a responder's Abort.
    #[inline(always)]
    fn reply(&mut self, sa: u8, da: u8, bytes: &ControlBytes) -> Answer {
        let place = match self.find(sa, bytes[0] >> 4) {
            Some(place) if da != GLOBAL => place,
            _ => return Answer::Refused(16),
        };
        let t = self.transfers[place].as_ref().expect("an open transfer");
        if t.pgn != number24(bytes, 9) {
            return Answer::Refused(16);
        }
        let key = t.key(self.own);
        match bytes[0] & 15 {
            1 => self.clear_to_send(place, bytes),
            3 => {
                let is_ours = number24(bytes, 1) == t.total && number24(bytes, 4) == segments_of(t.total);
                if !t.status_out || !is_ours {
                    return Answer::Refused(16);
                }
                self.transfers[place] = None;
                Answer::Acknowledged(key)
            }
            _ => {
                self.transfers[place] = None;
                Answer::Aborted(key)
            }
        }
    }

    fn clear_to_send(&mut self, place: usize, bytes: &ControlBytes) -> Answer {
        let t = self.transfers[place].as_mut().expect("an open transfer");
        let (next, count) = (number24(bytes, 4), u32::from(bytes[7]));
        if t.last_out && bytes[8] == 1 {
            // the EOMS is asked for once more
            t.granted = t.next - 1;
            t.status_owed = true;
        } else if count == 0 {
            t.granted = t.next - 1;
        } else {
            let granted = next + count - 1;
            if next == 0 || granted > segments_of(t.total) {
                return self.fail(place, 27);
            }
            t.next = next;
            t.granted = granted;
            t.status_owed = false;
        }
        t.mark = self.last;
        Answer::CtsTaken
    }

    /// Takes a reading of the clock, with an answer, and its place, for each transfer that was silent too long.
    pub fn reading(&mut self, now: u32, mut each: impl FnMut(usize, Answer)) -> Result<(), Refusal> {
        if CHECKED && !self.in_bounds() {
            return Err(23);
        }
        for place in 0..TRANSFERS {
            if matches!(&self.transfers[place], Some(t) if now.wrapping_sub(t.mark) >= self.limit) {
                each(place, self.fail(place, 22));
            }
        }
        self.last = now;
        Ok(())
    }
}

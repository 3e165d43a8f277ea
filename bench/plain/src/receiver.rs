//! The receiver: a typed record behind `&mut self`, eight slots over a lent store.

use crate::transport::{
    control_frame, is_limit, is_pgn, is_responders, number24, put24, segments_of, wire_reason, ControlBytes, Key, Sent, GLOBAL,
    SEGMENT_BYTES,
};
use crate::{is_can_fd_length, Groups, Refusal, SLOTS, SLOT_BYTES};

/// How many segments a CTS is for at most.
pub const GRANT: u32 = 16;
/// How often a session may ask for what is missing (02, E6).
pub const REQUESTS: u8 = 5;
/// 001, Table 11.
const REQUESTS_SPENT: u8 = 5;

pub(crate) type Store = [u8; SLOTS * SLOT_BYTES];

/// What a session has been silent since (02, E4).
#[derive(Clone, Copy, PartialEq, Eq)]
pub enum Wait {
    /// A CTS.
    First,
    /// A segment that brought none, or the announcement of a BAM.
    Second,
}

/// How long a session may be silent in each wait, in milliseconds.
#[derive(Clone, Copy)]
pub struct Limits {
    pub first: u32,
    pub second: u32,
}

impl Limits {
    fn of(&self, wait: Wait) -> u32 {
        match wait {
            Wait::First => self.first,
            Wait::Second => self.second,
        }
    }
}

/// Which segments of a message are in (02, E6): a bit for each, that of segment 1 the lowest. There are 69 at most, so five bits of `high`
/// are used.
#[derive(Clone, Copy, Default, PartialEq, Eq)]
pub struct Taken {
    low: u64,
    high: u8,
}

impl Taken {
    /// The lowest 72 of these bits.
    pub fn new(bits: u128) -> Self {
        Taken {
            low: bits as u64,
            high: (bits >> u64::BITS) as u8,
        }
    }

    pub fn bits(self) -> u128 {
        u128::from(self.high) << u64::BITS | u128::from(self.low)
    }

    fn has(self, segment: u32) -> bool {
        match (segment - 1).checked_sub(u64::BITS) {
            None => self.low >> (segment - 1) & 1 != 0,
            Some(bit) => self.high >> bit & 1 != 0,
        }
    }

    fn add(&mut self, segment: u32) {
        match (segment - 1).checked_sub(u64::BITS) {
            None => self.low |= 1 << (segment - 1),
            Some(bit) => self.high |= 1 << bit,
        }
    }

    fn count(self) -> u32 {
        self.low.count_ones() + self.high.count_ones()
    }

    /// Whether nothing is in past so many segments.
    fn is_within(self, segments: u32) -> bool {
        match segments.checked_sub(u64::BITS) {
            None => self.high == 0 && self.low >> segments == 0,
            Some(bits) => self.high >> bits == 0,
        }
    }

    /// The first segment that is not in.
    fn first_missing(self) -> u32 {
        self.bits().trailing_ones() + 1
    }

    /// How many are not in before the next that is, counted from a segment on; nothing is in past the last.
    fn missing_from(self, segment: u32) -> u32 {
        (self.bits() >> (segment - 1)).trailing_zeros()
    }
}

#[derive(Clone, Copy)]
pub struct Session {
    pub key: Key,
    pub is_bam: bool,
    pub max: u8,
    pub total: u32,
    pub segments: u32,
    pub pgn: u32,
    /// Of a BAM, whose segments come in sequence.
    pub next: u32,
    /// Of an RTS: the last segment that a CTS was for.
    pub granted: u32,
    /// Of an RTS.
    pub taken: Taken,
    /// Of an RTS: how many segments are not in.
    pub missing: u32,
    /// Of an RTS: how often it has asked for what is missing.
    pub requests: u8,
    pub mark: u32,
    pub wait: Wait,
}

impl Session {
    /// How many segments are not in yet, of either kind.
    pub fn missing(&self) -> u32 {
        if self.is_bam {
            self.segments + 1 - self.next
        } else {
            self.missing
        }
    }

    /// The first segment that is not in, of either kind.
    pub fn first_missing(&self) -> u32 {
        if self.is_bam {
            self.next
        } else {
            self.taken.first_missing()
        }
    }
}

pub enum Answer<'a> {
    Groups(Groups<'a>),
    Opened(Key),
    Taken {
        key: Key,
        segment: u32,
    },
    Grant {
        key: Key,
        pgn: u32,
        next: u32,
        count: u8,
        sent: Sent,
    },
    HandedOver {
        key: Key,
        is_bam: bool,
        slot: u8,
        pgn: u32,
        segments: u32,
        message: &'a [u8],
        sent: Option<Sent>,
    },
    Aborted(Key),
    Ended {
        refusal: Refusal,
        key: Key,
        is_bam: bool,
        /// Segments were missing, and all requests were made.
        is_spent: bool,
        pgn: u32,
        sent: Option<Sent>,
    },
    RefusedRts {
        refusal: Refusal,
        key: Key,
        pgn: u32,
        sent: Sent,
    },
    Refused(Refusal),
}

impl Answer<'_> {
    pub fn sent(&self) -> Option<&Sent> {
        match self {
            Answer::Grant { sent, .. } | Answer::RefusedRts { sent, .. } => Some(sent),
            Answer::HandedOver { sent, .. } | Answer::Ended { sent, .. } => sent.as_ref(),
            _ => None,
        }
    }
}

fn cts(own: u8, s: &Session, next: u32, count: u8) -> Sent {
    let mut sent = control_frame(s.key.number(), 1, s.pgn, s.key.sa(), own);
    put24(&mut sent.bytes, 4, next);
    sent.bytes[7] = count;
    sent.bytes[8] = 0;
    sent
}

fn eoma(own: u8, s: &Session) -> Sent {
    let mut sent = control_frame(s.key.number(), 3, s.pgn, s.key.sa(), own);
    put24(&mut sent.bytes, 1, s.total);
    put24(&mut sent.bytes, 4, s.segments);
    sent
}

fn abort(own: u8, key: Key, pgn: u32, reason: u8) -> Sent {
    let mut sent = control_frame(key.number(), 15, pgn, key.sa(), own);
    sent.bytes[7] = 0xfd;
    sent.bytes[8] = reason;
    sent
}

/// A CTS from a segment on, for `most` or as many as MAX SGMTS and 16 allow. The first wait begins with it.
fn grant<'a>(own: u8, s: &mut Session, next: u32, most: u32) -> Answer<'a> {
    let count = most.min(s.max.into()).min(GRANT);
    s.granted = next + count - 1;
    s.wait = Wait::First;
    Answer::Grant {
        key: s.key,
        pgn: s.pgn,
        next,
        count: count as u8,
        sent: cts(own, s, next, count as u8),
    }
}

/// The next CTS: for the segments after the last one granted, in or not.
fn grant_next<'a>(own: u8, s: &mut Session) -> Answer<'a> {
    let (next, left) = (s.granted + 1, s.segments - s.granted);
    grant(own, s, next, left)
}

/// Asks for the first run of segments that are missing.
fn request<'a>(own: u8, s: &mut Session) -> Answer<'a> {
    s.requests += 1;
    let next = s.taken.first_missing();
    let run = s.taken.missing_from(next).min(s.segments + 1 - next);
    grant(own, s, next, run)
}

/// `CHECKED` says whether each call checks the whole record, as 01 asks of every receiver (refusal 23), or trusts it.
pub struct Receiver<const CHECKED: bool> {
    own: u8,
    limits: Limits,
    last: u32,
    slots: [Option<Session>; SLOTS],
}

impl<const CHECKED: bool> Receiver<CHECKED> {
    pub fn open(own: u8, limits: Limits, reading: u32) -> Self {
        Receiver {
            own,
            limits,
            last: reading,
            slots: [None; SLOTS],
        }
    }

    pub fn slots(&self) -> &[Option<Session>; SLOTS] {
        &self.slots
    }

    /// For a test that puts a session out of bounds.
    pub fn slots_mut(&mut self) -> &mut [Option<Session>; SLOTS] {
        &mut self.slots
    }

    /// 01, "State in bounds", and 02, E4 and E6, of one open slot but for its key being the only one.
    #[inline(always)]
    fn session_in_bounds(&self, s: &Session) -> bool {
        s.total.wrapping_sub(1) < SLOT_BYTES as u32
            && s.segments == segments_of(s.total)
            && is_pgn(s.pgn)
            && s.key.sa() < 254
            && s.key.sa() != self.own
            && s.key.number() < 16
            && if s.is_bam {
                s.key.da() == GLOBAL && s.wait == Wait::Second && s.next.wrapping_sub(1) <= s.segments
            } else {
                s.key.da() == self.own
                    && s.max != 0
                    && s.granted.wrapping_sub(1) < s.segments
                    && s.requests <= REQUESTS
                    && s.taken.is_within(s.segments)
                    && s.missing == s.segments - s.taken.count()
            }
    }

    #[inline(always)]
    pub(crate) fn in_bounds(&self) -> bool {
        if self.own > 253 || !is_limit(self.limits.first) || !is_limit(self.limits.second) {
            return false;
        }
        let mut keys = [Key::new(0, 0, 0); SLOTS];
        let mut open = 0;
        for s in self.slots.iter().flatten() {
            if !self.session_in_bounds(s) || keys[..open].contains(&s.key) {
                return false;
            }
            keys[open] = s.key;
            open += 1;
        }
        true
    }

    fn find(&self, key: Key) -> Option<usize> {
        self.slots.iter().position(|slot| matches!(slot, Some(s) if s.key == key))
    }

    /// Ends the session in a slot with a refusal: an RTS session is told.
    fn fail<'a>(&mut self, slot: usize, refusal: Refusal) -> Answer<'a> {
        self.end(slot, refusal, wire_reason(refusal))
    }

    /// The same, for a reason on the wire.
    fn end<'a>(&mut self, slot: usize, refusal: Refusal, reason: u8) -> Answer<'a> {
        let s = self.slots[slot].take().expect("an open slot");
        Answer::Ended {
            refusal,
            key: s.key,
            is_bam: s.is_bam,
            is_spent: reason == REQUESTS_SPENT,
            pgn: s.pgn,
            sent: (!s.is_bam).then(|| abort(self.own, s.key, s.pgn, reason)),
        }
    }

    /// How many segments of a session are not in yet.
    #[inline(never)]
    pub fn missing(&self, sa: u8, da: u8, number: u8) -> Result<u32, Refusal> {
        if CHECKED && !self.in_bounds() {
            return Err(23);
        }
        let slot = self.find(Key::new(sa, da, number)).ok_or(16)?;
        Ok(self.slots[slot].as_ref().expect("an open slot").missing())
    }

    /// Takes one frame.
    #[inline(never)]
    pub fn frame<'a>(&mut self, id: u32, bytes: &'a [u8], store: &'a mut [u8]) -> Answer<'a> {
        let Ok(store) = <&mut Store>::try_from(store) else {
            return Answer::Refused(23);
        };
        if CHECKED && !self.in_bounds() {
            return Answer::Refused(23);
        }
        self.take(id, bytes, store)
    }

    /// Takes a frame after 23.
    #[inline(always)]
    pub(crate) fn take<'a>(&mut self, id: u32, bytes: &'a [u8], store: &'a mut Store) -> Answer<'a> {
        if id >> 29 != 0 {
            return Answer::Refused(2);
        }
        if !is_can_fd_length(bytes.len()) {
            return Answer::Refused(1);
        }
        let pages = (id >> 24) & 3;
        let pf = (id >> 16) as u8;
        let da = (id >> 8) as u8;
        let sa = id as u8;
        let is_ours = pages == 0 && matches!(pf, 37 | 77 | 78) && (da == self.own || da == 255) && sa < 254 && sa != self.own;
        if !is_ours {
            return Answer::Refused(3);
        }
        match pf {
            37 => match Groups::judged(bytes) {
                Ok(groups) => Answer::Groups(groups),
                Err(refusal) => Answer::Refused(refusal),
            },
            77 => match bytes.try_into() {
                Ok(bytes) => self.control(sa, da, bytes, store),
                Err(_) => Answer::Refused(9),
            },
            _ => match bytes.split_first_chunk::<4>() {
                Some((head, data)) if !data.is_empty() => self.segment(sa, da, *head, data, store),
                _ => Answer::Refused(9),
            },
        }
    }

    fn control<'a>(&mut self, sa: u8, da: u8, bytes: &ControlBytes, store: &'a Store) -> Answer<'a> {
        let number = bytes[0] >> 4;
        let key = Key::new(sa, da, number);
        match bytes[0] & 15 {
            0 => self.announcement(key, false, bytes),
            4 => self.announcement(key, true, bytes),
            2 => self.end_of_message(key, bytes, store),
            15 if bytes[7] & 3 == 0 => self.abort_received(key, bytes),
            // 02, E2: a receiver alone has no transfer
            _ if is_responders(bytes) => Answer::Refused(16),
            _ => Answer::Refused(10),
        }
    }

    fn announcement<'a>(&mut self, key: Key, is_bam: bool, bytes: &ControlBytes) -> Answer<'a> {
        if is_bam != (key.da() == 255) {
            return Answer::Refused(11);
        }
        let segments = number24(bytes, 4);
        let mut s = Session {
            key,
            is_bam,
            max: bytes[7],
            total: number24(bytes, 1),
            segments,
            pgn: number24(bytes, 9),
            next: 1,
            granted: 0,
            taken: Taken::default(),
            missing: segments,
            requests: 0,
            mark: self.last,
            wait: Wait::Second,
        };
        match self.slot_for(&s, bytes[8]) {
            Err(refusal) if is_bam => Answer::Refused(refusal),
            Err(refusal) => Answer::RefusedRts {
                refusal,
                key,
                pgn: s.pgn,
                sent: abort(self.own, key, s.pgn, wire_reason(refusal)),
            },
            Ok(slot) => {
                let answer = if is_bam {
                    Answer::Opened(key)
                } else {
                    grant_next(self.own, &mut s)
                };
                self.slots[slot] = Some(s);
                answer
            }
        }
    }

    fn slot_for(&self, s: &Session, assurance: u8) -> Result<usize, Refusal> {
        if s.total == 0 || s.segments != s.total.div_ceil(SEGMENT_BYTES) || (!s.is_bam && s.max == 0) {
            return Err(11);
        }
        if s.total as usize > SLOT_BYTES {
            return Err(12);
        }
        if assurance != 0 {
            return Err(13);
        }
        if !is_pgn(s.pgn) {
            return Err(8);
        }
        if let Some(slot) = self.find(s.key) {
            let open = self.slots[slot].as_ref().expect("an open slot");
            // 02, E1: the RTS of an open session once more starts it anew
            return if !s.is_bam && s.pgn == open.pgn { Ok(slot) } else { Err(14) };
        }
        self.slots.iter().position(Option::is_none).ok_or(15)
    }

    fn segment<'a>(&mut self, sa: u8, da: u8, head: [u8; 4], data: &[u8], store: &mut Store) -> Answer<'a> {
        if head[0] & 15 != 0 {
            return Answer::Refused(17);
        }
        let number = head[0] >> 4;
        let Some(slot) = self.find(Key::new(sa, da, number)) else {
            return Answer::Refused(16);
        };
        let segment = u32::from_le_bytes(head) >> 8;
        let s = self.slots[slot].as_mut().expect("an open slot");
        let is_in_message = segment.wrapping_sub(1) < s.segments;
        let is_due = is_in_message && if s.is_bam { segment == s.next } else { !s.taken.has(segment) };
        if !is_due {
            let is_in = segment == 0 || if s.is_bam { segment < s.next } else { is_in_message };
            return if is_in { Answer::Refused(18) } else { self.fail(slot, 19) };
        }
        let place = (SEGMENT_BYTES * (segment - 1)) as usize;
        let due = (s.total as usize - place).min(SEGMENT_BYTES as usize);
        if data.len() < due {
            return Answer::Refused(20);
        }
        let start = slot * SLOT_BYTES + place;
        store[start..start + due].copy_from_slice(&data[..due]);
        s.mark = self.last;
        if s.is_bam {
            s.next += 1;
        } else {
            s.taken.add(segment);
            s.missing -= 1;
            if segment == s.granted && segment < s.segments && s.requests == 0 {
                return grant_next(self.own, s);
            }
        }
        s.wait = Wait::Second;
        Answer::Taken { key: s.key, segment }
    }

    fn end_of_message<'a>(&mut self, key: Key, bytes: &ControlBytes, store: &'a Store) -> Answer<'a> {
        let Some(slot) = self.find(key) else {
            return Answer::Refused(16);
        };
        let s = self.slots[slot].as_mut().expect("an open slot");
        let is_as_announced =
            number24(bytes, 1) == s.total && number24(bytes, 4) == s.segments && bytes[8] == 0 && number24(bytes, 9) == s.pgn;
        if !is_as_announced {
            return self.fail(slot, 21);
        }
        if s.missing() > 0 {
            if s.is_bam {
                return self.fail(slot, 21);
            }
            if s.requests == REQUESTS {
                return self.end(slot, 21, REQUESTS_SPENT);
            }
            s.mark = self.last;
            return request(self.own, s);
        }
        let start = slot * SLOT_BYTES;
        let answer = Answer::HandedOver {
            key,
            is_bam: s.is_bam,
            slot: slot as u8,
            pgn: s.pgn,
            segments: s.segments,
            message: &store[start..start + s.total as usize],
            sent: (!s.is_bam).then(|| eoma(self.own, s)),
        };
        self.slots[slot] = None;
        answer
    }

    fn abort_received<'a>(&mut self, key: Key, bytes: &ControlBytes) -> Answer<'a> {
        match self.find(key) {
            Some(slot) if self.slots[slot].is_some_and(|s| s.pgn == number24(bytes, 9)) => {
                self.slots[slot] = None;
                Answer::Aborted(key)
            }
            _ => Answer::Refused(16),
        }
    }

    /// Takes a reading of the clock, with an answer, and its slot, for each session that was silent too long.
    pub fn reading(&mut self, now: u32, mut each: impl FnMut(usize, Answer)) -> Result<(), Refusal> {
        if CHECKED && !self.in_bounds() {
            return Err(23);
        }
        for slot in 0..SLOTS {
            if matches!(&self.slots[slot], Some(s) if now.wrapping_sub(s.mark) >= self.limits.of(s.wait)) {
                each(slot, self.fail(slot, 22));
            }
        }
        self.last = now;
        Ok(())
    }
}

//! 01 "Transfer frames" and "Life of a session", with E1, E4 and E6 of 02, and E2 as far as a receiver by itself meets it: the receiver
//! over a typed state.

use crate::frame::{self, is_pgn, is_reply, is_taken, number24, Carried, Route, GLOBAL};
use crate::{groups, Refusal};

pub const SLOTS: usize = 8;
pub const SLOT_BYTES: usize = 4096;
pub const STORE_BYTES: usize = SLOTS * SLOT_BYTES;
/// Data bytes in one segment.
pub const SEGMENT_BYTES: u32 = 60;
/// One CTS grants no more segments than this.
pub const GRANT: u32 = 16;
/// 02 E6: so often an RTS session asks for segments that are missing.
pub const REQUESTS: u8 = 5;
pub const LARGEST_MESSAGE: u32 = 4096;
pub const LARGEST_OWN: u8 = 253;
pub const LARGEST_LIMIT: u32 = 60_000;

#[derive(Clone, Copy, Debug, PartialEq, Eq)]
pub enum Kind {
    Rts,
    Bam,
}

#[derive(Clone, Copy, Debug, PartialEq, Eq)]
pub struct Key {
    pub sa: u8,
    pub da: u8,
    pub session: u8,
}

/// 02 E4: which of its two waits a session is in.
#[derive(Clone, Copy, Debug, PartialEq, Eq)]
pub enum Wait {
    /// Its announcement, its latest segment or an EOMS brought a CTS after which no segment has come.
    First,
    /// Its latest segment brought none, or it is a broadcast.
    Second,
}

/// A session ends once it has been silent for the limit of its wait, in milliseconds.
#[derive(Clone, Copy, Debug, PartialEq, Eq)]
pub struct Limits {
    pub first: u32,
    pub second: u32,
}

impl Limits {
    /// The same for either wait.
    pub const fn both(limit: u32) -> Limits {
        Limits { first: limit, second: limit }
    }

    pub fn in_force(&self, wait: Wait) -> u32 {
        match wait {
            Wait::First => self.first,
            Wait::Second => self.second,
        }
    }
}

/// 02 E6: which segments are in. Bit n - 1 stands for segment n; a record's bytes have room for 72.
#[derive(Clone, Copy, Debug, Default, PartialEq, Eq)]
pub struct Taken(pub u128);

impl Taken {
    pub fn has(self, n: u32) -> bool {
        (1..=128).contains(&n) && self.0 >> (n - 1) & 1 == 1
    }

    fn with(self, n: u32) -> Taken {
        Taken(self.0 | 1 << (n - 1))
    }

    pub fn count(self) -> u32 {
        self.0.count_ones()
    }

    /// Nothing past segment `last`.
    fn ends_by(self, last: u32) -> bool {
        self.0 >> last == 0
    }
}

/// `next` is a broadcast's, `granted` and the three fields from `taken` on are an RTS's. What is the other kind's is 0 in a session that was
/// opened here, and else stays as it was found.
#[derive(Clone, Copy, Debug, PartialEq, Eq)]
pub struct Session {
    pub kind: Kind,
    pub key: Key,
    pub total_bytes: u32,
    pub segments: u32,
    /// MAX SGMTS. A broadcast has none; the byte in its place is kept as it came.
    pub max_segments: u8,
    pub pgn: u32,
    /// The segment that a broadcast takes next.
    pub next: u32,
    /// The last segment granted, or asked for.
    pub granted: u32,
    pub mark: u32,
    pub wait: Wait,
    pub taken: Taken,
    /// How many segments are not in.
    pub missing: u32,
    /// How often missing segments were asked for.
    pub requests: u8,
}

#[derive(Clone, Debug, PartialEq, Eq)]
pub struct Receiver {
    pub own: u8,
    pub limits: Limits,
    pub last_reading: u32,
    pub slots: [Option<Session>; SLOTS],
}

/// A session that ended by 19, 21 or 22.
#[derive(Clone, Copy, Debug, PartialEq, Eq)]
pub struct Ending {
    pub key: Key,
    pub kind: Kind,
    pub pgn: u32,
    pub refusal: Refusal,
    /// By 21 since segments were missing and all requests spent (02 E6).
    pub is_spent: bool,
}

#[derive(Clone, Copy, Debug, PartialEq, Eq)]
pub enum Answer {
    /// The frame's groups can be read.
    Groups,
    /// A broadcast was opened.
    Opened(Key),
    /// A segment was taken and no CTS is due.
    Taken {
        key: Key,
        segment: u32,
    },
    /// A CTS is due: after an RTS, the first or a repeated one, after the last segment granted, or for segments that are missing at an
    /// EOMS.
    Grant {
        key: Key,
        pgn: u32,
        next: u32,
        count: u8,
    },
    HandedOver {
        key: Key,
        kind: Kind,
        slot: usize,
        pgn: u32,
        total_bytes: u32,
        segments: u32,
    },
    /// The originator ended its session.
    Aborted(Key),
    Ended(Ending),
    /// An RTS to the own address was refused and is answered by Abort.
    RefusedRts {
        key: Key,
        pgn: u32,
        refusal: Refusal,
    },
    /// Refused with no effect.
    Refused(Refusal),
}

impl Answer {
    pub fn number(&self) -> u8 {
        match self {
            Answer::Ended(ending) => ending.refusal.number(),
            Answer::RefusedRts { refusal, .. } | Answer::Refused(refusal) => refusal.number(),
            _ => 0,
        }
    }
}

/// RTS or BAM, as it came.
struct Announcement {
    kind: Kind,
    total_bytes: u32,
    segments: u32,
    max_segments: u8,
    assurance: u8,
    pgn: u32,
}

/// How many segments a message takes.
pub fn segments_of(total_bytes: u32) -> u32 {
    total_bytes.div_ceil(SEGMENT_BYTES)
}

/// How many segments the next CTS grants, of so many that it could.
fn grant(max_segments: u8, most: u32) -> u32 {
    u32::from(max_segments).min(GRANT).min(most)
}

pub(crate) fn opening_ok(own: u8, limits: &[u32]) -> bool {
    own <= LARGEST_OWN && limits.iter().all(|limit| (1..=LARGEST_LIMIT).contains(limit))
}

impl Session {
    /// How many segments are not in.
    pub fn missing(&self) -> u32 {
        match self.kind {
            Kind::Rts => self.missing,
            Kind::Bam => self.segments + 1 - self.next,
        }
    }

    /// Segment `n` is in. There is no segment 0, and 18 is for it too.
    fn is_in(&self, n: u32) -> bool {
        match self.kind {
            Kind::Rts => n == 0 || self.taken.has(n),
            Kind::Bam => n < self.next,
        }
    }

    /// The last segment that may come now: an RTS's come in any order, a broadcast's one after the other.
    fn last_due(&self) -> u32 {
        match self.kind {
            Kind::Rts => self.segments,
            Kind::Bam => self.next.min(self.segments),
        }
    }

    /// The first run of missing segments: its first one, and how many.
    fn first_run(&self) -> (u32, u32) {
        let first = (1..=self.segments).find(|&n| !self.taken.has(n)).unwrap_or(self.segments + 1);
        let run = (first..=self.segments).take_while(|&n| !self.taken.has(n)).count();
        (first, run as u32)
    }

    /// How many bytes of the message segment `n` brings.
    fn data_due(&self, n: u32) -> usize {
        let before = SEGMENT_BYTES * (n - 1);
        (self.total_bytes - before).min(SEGMENT_BYTES) as usize
    }

    /// 01 "State in bounds", for one open slot, with E4 and E6 of 02.
    fn in_bounds(&self, own: u8) -> bool {
        let announced = (1..=LARGEST_MESSAGE).contains(&self.total_bytes)
            && self.segments == segments_of(self.total_bytes)
            && is_pgn(self.pgn);
        let route = Route { sa: self.key.sa, da: self.key.da };
        announced && is_taken(route, own) && self.key.session <= 15 && self.kind_in_bounds(own)
    }

    /// The segments are a message's here.
    fn kind_in_bounds(&self, own: u8) -> bool {
        match self.kind {
            Kind::Bam => {
                let next_ok = (1..=self.segments + 1).contains(&self.next);
                self.key.da == GLOBAL && self.wait == Wait::Second && next_ok
            }
            Kind::Rts => {
                let taken_ok = self.taken.ends_by(self.segments) && self.missing == self.segments - self.taken.count();
                let grant_ok = (1..=self.segments).contains(&self.granted);
                self.key.da == own && self.max_segments >= 1 && taken_ok && grant_ok && self.requests <= REQUESTS
            }
        }
    }

    fn ended_by(&self, refusal: Refusal) -> Ending {
        Ending { key: self.key, kind: self.kind, pgn: self.pgn, refusal, is_spent: false }
    }
}

impl Receiver {
    /// The receiver that an opening gives. A refused one keeps what it was given, and is out of bounds for good.
    pub fn open(own: u8, limits: Limits, reading: u32) -> (Receiver, Result<(), Refusal>) {
        let receiver = Receiver { own, limits, last_reading: reading, slots: [None; SLOTS] };
        let verdict = if receiver.opening_ok() { Ok(()) } else { Err(Refusal::OutOfBounds) };
        (receiver, verdict)
    }

    fn opening_ok(&self) -> bool {
        opening_ok(self.own, &[self.limits.first, self.limits.second])
    }

    pub fn in_bounds(&self) -> bool {
        let open: Vec<&Session> = self.slots.iter().flatten().collect();
        let one_each = (1..open.len()).all(|i| open[..i].iter().all(|other| other.key != open[i].key));
        self.opening_ok() && one_each && open.iter().all(|session| session.in_bounds(self.own))
    }

    /// Takes one frame.
    pub fn frame(&mut self, id: u32, bytes: &[u8], store: &mut [u8]) -> Answer {
        self.judged(id, bytes, store).unwrap_or_else(Answer::Refused)
    }

    fn judged(&mut self, id: u32, bytes: &[u8], store: &mut [u8]) -> Result<Answer, Refusal> {
        if !self.in_bounds() || store.len() != STORE_BYTES {
            return Err(Refusal::OutOfBounds);
        }
        let (carried, route) = frame::judge(id, bytes.len(), self.own)?;
        match carried {
            Carried::Groups => groups::read(bytes).map(|_| Answer::Groups),
            Carried::Control => self.control(route, bytes),
            Carried::Segment => self.segment(route, bytes, store),
        }
    }

    /// Takes a reading of the clock: what ends, slot by slot.
    pub fn reading(&mut self, reading: u32, store: &[u8]) -> Result<[Option<Ending>; SLOTS], Refusal> {
        if !self.in_bounds() || store.len() != STORE_BYTES {
            return Err(Refusal::OutOfBounds);
        }
        let mut endings = [None; SLOTS];
        for (slot, ending) in self.slots.iter_mut().zip(&mut endings) {
            if let Some(session) = slot {
                if reading.wrapping_sub(session.mark) >= self.limits.in_force(session.wait) {
                    *ending = Some(session.ended_by(Refusal::Silence));
                    *slot = None;
                }
            }
        }
        self.last_reading = reading;
        Ok(endings)
    }

    fn find(&self, key: Key) -> Option<(usize, Session)> {
        let slot = self.slots.iter().position(|slot| slot.is_some_and(|session| session.key == key))?;
        Some((slot, self.slots[slot]?))
    }

    fn control(&mut self, route: Route, bytes: &[u8]) -> Result<Answer, Refusal> {
        let key = Key { sa: route.sa, da: route.da, session: bytes[0] >> 4 };
        let role = bytes[7] & 0b11;
        match bytes[0] & 0xF {
            0 => self.announcement(key, Kind::Rts, bytes),
            2 => self.end_of_message(key, bytes),
            4 => self.announcement(key, Kind::Bam, bytes),
            15 if role == 0 => self.abort(key, bytes),
            // 02 E2: a receiver by itself has no transfer.
            _ if is_reply(bytes) => Err(Refusal::KeyNotOpen),
            _ => Err(Refusal::ControlNotTaken),
        }
    }

    fn announcement(&mut self, key: Key, kind: Kind, bytes: &[u8]) -> Result<Answer, Refusal> {
        let announcement = Announcement {
            kind,
            total_bytes: number24(&bytes[1..4]),
            segments: number24(&bytes[4..7]),
            max_segments: bytes[7],
            assurance: bytes[8],
            pgn: number24(&bytes[9..12]),
        };
        let due_da = if kind == Kind::Rts { self.own } else { GLOBAL };
        if key.da != due_da {
            return Err(Refusal::AnnouncementNumbers);
        }
        match (self.place_for(key, &announcement), kind) {
            (Ok(slot), _) => Ok(self.open_session(slot, key, &announcement)),
            (Err(refusal), Kind::Rts) => Ok(Answer::RefusedRts { key, pgn: announcement.pgn, refusal }),
            (Err(refusal), Kind::Bam) => Err(refusal),
        }
    }

    /// The slot in which the announcement opens a session, or why there is none.
    fn place_for(&self, key: Key, a: &Announcement) -> Result<usize, Refusal> {
        let no_grant = a.kind == Kind::Rts && a.max_segments == 0;
        if a.total_bytes == 0 || a.segments != segments_of(a.total_bytes) || no_grant {
            return Err(Refusal::AnnouncementNumbers);
        }
        if a.total_bytes > LARGEST_MESSAGE {
            return Err(Refusal::MessageTooLarge);
        }
        if a.assurance != 0 {
            return Err(Refusal::AssuranceAnnounced);
        }
        if !is_pgn(a.pgn) {
            return Err(Refusal::WrongPgn);
        }
        match self.find(key) {
            // 02 E1: an RTS that repeats the session's PGN gets the session's own slot, to begin anew there.
            Some((slot, session)) if a.kind == Kind::Rts && a.pgn == session.pgn => Ok(slot),
            Some(_) => Err(Refusal::KeyAlreadyOpen),
            None => self.slots.iter().position(Option::is_none).ok_or(Refusal::EightSessionsOpen),
        }
    }

    fn open_session(&mut self, slot: usize, key: Key, a: &Announcement) -> Answer {
        let broadcast = Session {
            kind: a.kind,
            key,
            total_bytes: a.total_bytes,
            segments: a.segments,
            max_segments: a.max_segments,
            pgn: a.pgn,
            next: 1,
            granted: 0,
            mark: self.last_reading,
            wait: Wait::Second,
            taken: Taken::default(),
            missing: 0,
            requests: 0,
        };
        let count = grant(a.max_segments, a.segments);
        let (session, answer) = match a.kind {
            Kind::Bam => (broadcast, Answer::Opened(key)),
            Kind::Rts => (
                Session { next: 0, granted: count, wait: Wait::First, missing: a.segments, ..broadcast },
                Answer::Grant { key, pgn: a.pgn, next: 1, count: count as u8 },
            ),
        };
        self.slots[slot] = Some(session);
        answer
    }

    fn segment(&mut self, route: Route, bytes: &[u8], store: &mut [u8]) -> Result<Answer, Refusal> {
        if bytes[0] & 0xF != 0 {
            return Err(Refusal::FormatIndicator);
        }
        let key = Key { sa: route.sa, da: route.da, session: bytes[0] >> 4 };
        let (slot, session) = self.find(key).ok_or(Refusal::KeyNotOpen)?;
        let n = number24(&bytes[1..4]);
        if session.is_in(n) {
            return Err(Refusal::SegmentAlreadyTaken);
        }
        if n > session.last_due() {
            return Ok(self.end(slot, session, Refusal::SegmentOutOfSequence));
        }
        let due = session.data_due(n);
        let Some(data) = bytes.get(4..4 + due) else {
            return Err(Refusal::SegmentTooShort);
        };
        let place = slot * SLOT_BYTES + (SEGMENT_BYTES * (n - 1)) as usize;
        store[place..place + due].copy_from_slice(data);
        Ok(self.bring_forward(slot, session, n))
    }

    /// Segment `n` of the session is in.
    fn bring_forward(&mut self, slot: usize, session: Session, n: u32) -> Answer {
        let mut forward = Session { mark: self.last_reading, wait: Wait::Second, ..session };
        match session.kind {
            Kind::Bam => forward.next = n + 1,
            Kind::Rts => (forward.taken, forward.missing) = (session.taken.with(n), session.missing - 1),
        }
        // 02 E6: whether the segments after the last one granted are in does not matter; once some were asked for, no segment brings a CTS.
        let left = session.segments - n;
        let brings_cts = session.kind == Kind::Rts && session.requests == 0 && n == session.granted && left > 0;
        let answer = if brings_cts {
            let count = grant(session.max_segments, left);
            forward.granted = n + count;
            forward.wait = Wait::First;
            Answer::Grant { key: session.key, pgn: session.pgn, next: n + 1, count: count as u8 }
        } else {
            Answer::Taken { key: session.key, segment: n }
        };
        self.slots[slot] = Some(forward);
        answer
    }

    fn end_of_message(&mut self, key: Key, bytes: &[u8]) -> Result<Answer, Refusal> {
        let (slot, session) = self.find(key).ok_or(Refusal::KeyNotOpen)?;
        let as_announced = number24(&bytes[1..4]) == session.total_bytes
            && number24(&bytes[4..7]) == session.segments
            && bytes[8] == 0
            && number24(&bytes[9..12]) == session.pgn;
        let is_whole = session.missing() == 0;
        if !as_announced || (session.kind == Kind::Bam && !is_whole) {
            return Ok(self.end(slot, session, Refusal::EndNotAsAnnounced));
        }
        if !is_whole {
            return Ok(self.request(slot, session));
        }
        self.slots[slot] = None;
        let Session { kind, pgn, total_bytes, segments, .. } = session;
        Ok(Answer::HandedOver { key, kind, slot, pgn, total_bytes, segments })
    }

    /// 02 E6: asks an RTS's originator for the first run that is missing, or ends the session where it was asked too often.
    fn request(&mut self, slot: usize, session: Session) -> Answer {
        if session.requests == REQUESTS {
            self.slots[slot] = None;
            return Answer::Ended(Ending { is_spent: true, ..session.ended_by(Refusal::EndNotAsAnnounced) });
        }
        let (first, run) = session.first_run();
        let count = grant(session.max_segments, run);
        self.slots[slot] = Some(Session {
            granted: first + count - 1,
            mark: self.last_reading,
            wait: Wait::First,
            requests: session.requests + 1,
            ..session
        });
        Answer::Grant { key: session.key, pgn: session.pgn, next: first, count: count as u8 }
    }

    /// How many segments of the open session of this key are not in.
    pub fn missing(&self, key: Key) -> Result<u32, Refusal> {
        if !self.in_bounds() {
            return Err(Refusal::OutOfBounds);
        }
        let (_, session) = self.find(key).ok_or(Refusal::KeyNotOpen)?;
        Ok(session.missing())
    }

    fn abort(&mut self, key: Key, bytes: &[u8]) -> Result<Answer, Refusal> {
        match self.find(key) {
            Some((slot, session)) if number24(&bytes[9..12]) == session.pgn => {
                self.slots[slot] = None;
                Ok(Answer::Aborted(key))
            }
            _ => Err(Refusal::KeyNotOpen),
        }
    }

    fn end(&mut self, slot: usize, session: Session, refusal: Refusal) -> Answer {
        self.slots[slot] = None;
        Answer::Ended(session.ended_by(refusal))
    }
}

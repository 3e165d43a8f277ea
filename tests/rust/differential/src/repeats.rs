//! What came of announcements for keys that are open (02 E1), told by the record before a call, the call and its answer.

use crate::pair::Given;
use crate::sender::CONTROL;
use rules::calls::Code;
use rules::frame::number24;
use rules::receiver::{Key, Receiver, Session, SLOTS};

/// `NAMES` says them in words, in the same order.
#[derive(Clone, Copy)]
pub enum Form {
    NothingTaken,
    MidTransfer,
    AllIn,
    EightOpen,
    Shorter,
    Longer,
    OtherMax,
    NewMark,
    Spared,
    SparedByWait,
    EndedByWait,
    AskedForAll,
    HandedOver,
    OtherPgn,
    Broadcast,
    WrongPgn,
    WrongNumbers,
    TooLarge,
    Assurance,
}

pub const NAMES: [&str; 19] = [
    "restart with nothing taken",
    "restart in mid-transfer",
    "restart with all segments in",
    "restart with eight open",
    "restart for fewer bytes",
    "restart for more bytes",
    "restart with another MAX SGMTS",
    "restart that moved the mark",
    "reading outlived by the new mark only",
    "reading outlived by the restart's wait only",
    "22 by the restart's wait only",
    "request for all after a restart with all in",
    "hand-over after a restart",
    "14 by another PGN",
    "14 by a BAM",
    "repeated RTS refused by 8",
    "repeated RTS refused by 11",
    "repeated RTS refused by 12",
    "repeated RTS refused by 13",
];

/// What never came up, of these counts by `Form`.
pub fn missing(counts: &[u64]) -> Vec<&'static str> {
    NAMES.into_iter().zip(counts).filter(|(_, &count)| count == 0).map(|(name, _)| name).collect()
}

/// By slot, of a session that was restarted: what it was before. A slot's entry means nothing once its session has ended.
#[derive(Default)]
pub struct Watch([Option<Session>; SLOTS]);

impl Watch {
    pub fn frame(&mut self, before: &Receiver, id: u32, bytes: &[u8], given: &Given) -> Vec<Form> {
        if bytes.len() != 12 || id >> 16 & 0xFF != u32::from(CONTROL) {
            return vec![];
        }
        let key = Key { sa: id as u8, da: (id >> 8) as u8, session: bytes[0] >> 4 };
        let is_key = |slot: &Option<Session>| slot.is_some_and(|session| session.key == key);
        let Some(slot) = before.slots.iter().position(is_key) else {
            // What opens here takes the lowest free slot.
            if let Some(free) = before.slots.iter().position(Option::is_none) {
                self.0[free] = None;
            }
            return vec![];
        };
        match (bytes[0] & 0xF, given.number()) {
            (0, 0) => self.restart(before, slot, bytes),
            (0, 8) => vec![Form::WrongPgn],
            (0, 11) => vec![Form::WrongNumbers],
            (0, 12) => vec![Form::TooLarge],
            (0, 13) => vec![Form::Assurance],
            (0, 14) => vec![Form::OtherPgn],
            (4, 14) => vec![Form::Broadcast],
            (2, _) => self.end(before, slot, given),
            _ => vec![],
        }
    }

    fn restart(&mut self, before: &Receiver, slot: usize, bytes: &[u8]) -> Vec<Form> {
        let Some(session) = before.slots[slot] else {
            return vec![];
        };
        self.0[slot] = Some(session);
        let total = number24(&bytes[1..4]);
        let (has_none, has_all) = (session.missing == session.segments, session.missing == 0);
        let forms = [
            (Form::NothingTaken, has_none),
            (Form::MidTransfer, !has_none && !has_all),
            (Form::AllIn, has_all),
            (Form::EightOpen, before.slots.iter().all(Option::is_some)),
            (Form::Shorter, total < session.total_bytes),
            (Form::Longer, total > session.total_bytes),
            (Form::OtherMax, bytes[7] != session.max_segments),
            (Form::NewMark, session.mark != before.last_reading),
        ];
        forms.into_iter().filter(|(_, holds)| *holds).map(|(form, _)| form).collect()
    }

    fn end(&self, before: &Receiver, slot: usize, given: &Given) -> Vec<Form> {
        let (Some(session), Some(former)) = (before.slots[slot], self.0[slot]) else {
            return vec![];
        };
        let has_none = session.missing == session.segments;
        if given.is(Code::HandedOver) {
            vec![Form::HandedOver]
        } else if given.is(Code::Grant) && has_none && former.missing == 0 {
            vec![Form::AskedForAll]
        } else {
            vec![]
        }
    }

    /// Sessions with nothing taken or asked for since their restart for which a reading brought another thing than it would have with the
    /// mark, or with the wait, from before the restart.
    pub fn reading(&self, before: &Receiver, reading: u32, given: &[Given]) -> Vec<Form> {
        let form = |slot: usize| {
            let (session, former) = (before.slots[slot]?, self.0[slot]?);
            let has_run_out = |mark: u32, wait| reading.wrapping_sub(mark) >= before.limits.in_force(wait);
            let had_with_mark = has_run_out(former.mark, session.wait);
            let had_with_wait = has_run_out(session.mark, former.wait);
            let is_fresh = session.missing == session.segments && session.requests == 0;
            match (is_fresh, given[slot].code() != 0) {
                (true, false) if had_with_mark => Some(Form::Spared),
                (true, false) if had_with_wait => Some(Form::SparedByWait),
                (true, true) if !had_with_wait => Some(Form::EndedByWait),
                _ => None,
            }
        };
        (0..SLOTS).filter_map(form).collect()
    }
}

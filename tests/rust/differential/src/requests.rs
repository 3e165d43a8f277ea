//! What came of segments in any order and of requests for those that are missing (02 E6), told by the record before a call, the call and
//! its answer; and what became of records whose bytes were changed there.

use crate::pair::{expect, Given, Verdict};
use crate::sender::{CONTROL, DATA};
use rules::calls::Code;
use rules::frame::number24;
use rules::receiver::{Key, Kind, Receiver, Session, Wait, REQUESTS, SLOTS};
use std::collections::BTreeMap;

/// Each form, and what it is in words.
macro_rules! forms {
    ($($form:ident: $name:literal,)*) => {
        #[derive(Clone, Copy, Debug, PartialEq, Eq, PartialOrd, Ord)]
        pub enum Form {
            $($form,)*
        }

        const FORMS: &[(Form, &str)] = &[$((Form::$form, $name),)*];
    };
}

forms! {
    LastFirst: "last segment first",
    PastGrant: "segment past the grant",
    BelowAnother: "segment below one that is in",
    Segment64: "segment 64",
    Segment65: "segment 65",
    Segment69: "segment 69",
    CtsWithHoles: "CTS with a hole before it",
    CtsForOneIn: "CTS for a segment that is in",
    CtsWhoseLastIsIn: "CTS whose last is in",
    CtsAfterRestart: "CTS by a segment after a restart",
    NoCtsAfterRequest: "no CTS by the last granted after a request",
    NoCtsAtTheEnd: "no CTS by the last of the message",
    AskedFor: "segment asked for",
    NotAskedFor: "segment not asked for",
    Zero: "18 for number 0",
    InAlready: "18 for one that is in",
    GrantedInAlready: "18 for the last granted that was in",
    PastEnd: "19 past the end",
    PastEndAfterRequest: "19 past the end after a request",
    TooShort: "20 behind a hole",
    First: "first request",
    Second: "second request",
    Third: "third request",
    Fourth: "fourth request",
    Fifth: "fifth request",
    ToAnother: "request up to a segment that is in",
    ToTheEnd: "request up to the end",
    By16: "request bounded by 16",
    ByMax: "request bounded by MAX SGMTS",
    LaterRuns: "request that leaves a run",
    Across64: "request across segment 64",
    Again: "request right after another",
    NothingIn: "request with nothing in",
    NewMark: "request that moved the mark",
    NewWait: "request that changed the wait",
    Back: "request below the last granted",
    AfterRestart: "request after a restart that gave five anew",
    Spent: "21 with five spent",
    SpentAtOnce: "21 right after the fifth request",
    OtherWithHoles: "21 by another EOMS with holes",
    OtherWhenSpent: "21 by another EOMS with five spent",
    OtherWithAllIn: "21 by another EOMS with all in",
    HandedOverDisordered: "hand-over in disorder without a request",
    HandedOverAfterRequest: "hand-over after a request",
    HandedOverAfterFive: "hand-over after five requests",
    Restarted: "restart after a request",
    RestartedAfterFive: "restart after five requests",
    SparedByMark: "reading outlived by the request's mark only",
    SparedByWait: "reading outlived by the request's wait only",
    EndedByWait: "22 by the request's wait only",
    BroadcastSkipped: "19 for a broadcast's later segment",
    BroadcastCut: "21 for a broadcast with segments missing",
    MissingAll: "all missing",
    MissingSome: "some missing",
    MissingNone: "none missing",
    MissingOfBroadcast: "missing of a broadcast",
    MissingNotOpen: "missing of a key not open",
    // From here on of records that were changed.
    BitPast: "bit past the count",
    BitPastCounted: "bit past the count, counted as in",
    BitTurned: "bit turned",
    BitTurnedCounted: "bit turned and counted",
    OneMoreMissing: "one more missing",
    OneLessMissing: "one less missing",
    OtherMissing: "another number missing",
    FiveRequests: "five requests made",
    SixRequests: "six requests made",
    OtherRequests: "more requests made",
    GrantedNone: "last granted 0",
    GrantedFirst: "last granted 1",
    GrantedAll: "last granted the count",
    GrantedPast: "last granted past the count",
    GrantedBehind: "last granted one that is in",
    AnyNext: "any next of an RTS",
    AnyOfBroadcast: "any such bytes of a broadcast",
    MissingOutOfBounds: "missing of a record out of bounds",
}

pub type Counts = BTreeMap<Form, u64>;

/// All that traffic has to bring.
pub fn met_by_traffic(counts: &Counts) -> Verdict<()> {
    all_met(counts, |form| form < Form::BitPast)
}

/// All that records have to bring.
pub fn met_by_records(counts: &Counts) -> Verdict<()> {
    all_met(counts, |form| form >= Form::BitPast)
}

fn all_met(counts: &Counts, is_due: impl Fn(Form) -> bool) -> Verdict<()> {
    let missing = FORMS.iter().filter(|(form, _)| is_due(*form) && !counts.contains_key(form));
    let missing: Vec<&str> = missing.map(|(_, name)| *name).collect();
    expect(missing.is_empty(), || format!("never came up: {}", missing.join(", ")))
}

pub fn line(counts: &Counts) -> String {
    let count = |form: &Form| counts.get(form).copied().unwrap_or_default();
    let forms: Vec<String> = FORMS.iter().map(|(form, name)| format!("{name} {}", count(form))).collect();
    format!("requests: {}", forms.join(", "))
}

fn those<const N: usize>(forms: [(Form, bool); N]) -> Vec<Form> {
    forms.into_iter().filter(|(_, holds)| *holds).map(|(form, _)| form).collect()
}

/// What is seen of a session and not in its record.
#[derive(Clone, Copy, Default)]
struct Seen {
    /// What it was before its latest frame taken, where that was a request.
    asked: Option<Session>,
    /// A segment has come after a later one.
    is_disordered: bool,
    /// Requests were made before its latest RTS.
    has_five_anew: bool,
}

/// By slot. An entry means nothing once its session has ended.
#[derive(Default)]
pub struct Watch([Seen; SLOTS]);

impl Watch {
    pub fn frame(&mut self, before: &Receiver, id: u32, bytes: &[u8], given: &Given) -> Vec<Form> {
        let pf = (id >> 16) as u8;
        let is_whole = bytes.len() >= 5 && (pf == DATA || (pf == CONTROL && bytes.len() == 12));
        if given.number() == 23 || !is_whole {
            return vec![];
        }
        let key = Key { sa: id as u8, da: (id >> 8) as u8, session: bytes[0] >> 4 };
        let is_key = |slot: &Option<Session>| slot.is_some_and(|session| session.key == key);
        let Some(slot) = before.slots.iter().position(is_key) else {
            // What opens here takes the lowest free slot.
            if let Some(free) = before.slots.iter().position(Option::is_none) {
                self.0[free] = Seen::default();
            }
            return vec![];
        };
        let (Some(session), seen) = (before.slots[slot], &mut self.0[slot]) else {
            return vec![];
        };
        match bytes[0] & 0xF {
            _ if pf == DATA => seen.segment(&session, number24(&bytes[1..4]), given),
            0 if given.is(Code::Grant) => seen.restart(&session),
            2 => seen.status(before, &session, given),
            _ => vec![],
        }
    }

    /// Sessions whose latest frame was a request, for which a reading brought another thing than it would have with the mark, or with
    /// the wait, from before it.
    pub fn reading(&self, before: &Receiver, reading: u32, given: &[Given]) -> Vec<Form> {
        let form = |slot: usize| {
            let (session, former) = (before.slots[slot]?, self.0[slot].asked?);
            let has_run_out = |mark: u32, wait| reading.wrapping_sub(mark) >= before.limits.in_force(wait);
            let had_with_wait = has_run_out(session.mark, former.wait);
            match given[slot].code() != 0 {
                false if has_run_out(former.mark, session.wait) => Some(Form::SparedByMark),
                false if had_with_wait => Some(Form::SparedByWait),
                true if !had_with_wait => Some(Form::EndedByWait),
                _ => None,
            }
        };
        (0..SLOTS).filter_map(form).collect()
    }
}

impl Seen {
    fn restart(&mut self, session: &Session) -> Vec<Form> {
        *self = Seen { has_five_anew: session.requests > 0, ..Seen::default() };
        those([(Form::Restarted, session.requests > 0), (Form::RestartedAfterFive, session.requests == REQUESTS)])
    }

    fn segment(&mut self, session: &Session, n: u32, given: &Given) -> Vec<Form> {
        let is_in = |n: u32| session.taken.has(n);
        let has_hole = (1..n.min(session.segments)).any(|n| !is_in(n));
        let is_last_granted = n == session.granted;
        if session.kind == Kind::Bam {
            return those([(Form::BroadcastSkipped, given.number() == 19 && n <= session.segments)]);
        }
        match given.number() {
            0 => self.taken(session, n, given),
            18 => those([
                (Form::Zero, n == 0),
                (Form::InAlready, n > 0),
                // Had it come after its CTS, it would have brought the next one.
                (Form::GrantedInAlready, is_last_granted && session.requests == 0 && n < session.segments),
            ]),
            19 => those([(Form::PastEnd, true), (Form::PastEndAfterRequest, session.requests > 0)]),
            20 => those([(Form::TooShort, has_hole)]),
            _ => vec![],
        }
    }

    fn taken(&mut self, session: &Session, n: u32, given: &Given) -> Vec<Form> {
        let is_in = |n: u32| session.taken.has(n);
        let is_below = (n + 1..=session.segments).any(is_in);
        self.asked = None;
        self.is_disordered |= is_below;
        let brings_cts = given.is(Code::Grant);
        let granted = given.word(15)..given.word(15) + u32::from(given.0[6]);
        let is_last_granted = n == session.granted;
        let was_asked = session.requests > 0;
        those([
            (Form::LastFirst, session.taken.count() == 0 && n == session.segments && n > 1),
            (Form::PastGrant, n > session.granted),
            (Form::BelowAnother, is_below),
            (Form::Segment64, n == 64),
            (Form::Segment65, n == 65),
            (Form::Segment69, n == 69),
            (Form::CtsWithHoles, brings_cts && (1..n).any(|n| !is_in(n))),
            (Form::CtsForOneIn, brings_cts && granted.clone().any(is_in)),
            (Form::CtsWhoseLastIsIn, brings_cts && is_in(granted.end - 1)),
            (Form::CtsAfterRestart, brings_cts && self.has_five_anew),
            (Form::NoCtsAfterRequest, !brings_cts && is_last_granted && was_asked && n < session.segments),
            (Form::NoCtsAtTheEnd, !brings_cts && is_last_granted && !was_asked && n == session.segments),
            (Form::AskedFor, was_asked && n <= session.granted),
            (Form::NotAskedFor, was_asked && n > session.granted),
        ])
    }

    fn status(&mut self, before: &Receiver, session: &Session, given: &Given) -> Vec<Form> {
        let is_cut = session.missing() > 0;
        if session.kind == Kind::Bam {
            return those([(Form::BroadcastCut, given.number() == 21 && is_cut)]);
        }
        let (is_21, by_spent) = (given.number() == 21, given.0[6] == 1);
        let (requests, is_handed_over) = (session.requests, given.is(Code::HandedOver));
        if given.is(Code::Grant) {
            return self.request(before, session, given);
        }
        those([
            (Form::Spent, is_21 && by_spent),
            (Form::SpentAtOnce, is_21 && by_spent && self.asked.is_some()),
            (Form::OtherWithHoles, is_21 && !by_spent && is_cut && requests < REQUESTS),
            (Form::OtherWhenSpent, is_21 && !by_spent && is_cut && requests == REQUESTS),
            (Form::OtherWithAllIn, is_21 && !by_spent && !is_cut),
            (Form::HandedOverDisordered, is_handed_over && self.is_disordered && requests == 0),
            (Form::HandedOverAfterRequest, is_handed_over && requests > 0),
            (Form::HandedOverAfterFive, is_handed_over && requests == REQUESTS),
        ])
    }

    fn request(&mut self, before: &Receiver, session: &Session, given: &Given) -> Vec<Form> {
        let was_asked = self.asked.replace(*session).is_some();
        let is_in = |n: u32| session.taken.has(n);
        let (next, count, max) = (given.word(15), given.0[6], session.max_segments);
        let behind = next + u32::from(count);
        let at_end = behind > session.segments;
        let is_cut = !at_end && !is_in(behind);
        let nth = [Form::First, Form::Second, Form::Third, Form::Fourth, Form::Fifth];
        let mut forms = those([
            (Form::ToAnother, !at_end && is_in(behind)),
            (Form::ToTheEnd, at_end),
            (Form::By16, is_cut && count == 16 && max > 16),
            (Form::ByMax, is_cut && count == max && max < 16),
            (Form::LaterRuns, (behind..=session.segments).any(|n| is_in(n) && n < session.segments && !is_in(n + 1))),
            (Form::Across64, next <= 64 && behind > 65),
            (Form::Again, was_asked),
            (Form::NothingIn, session.taken.count() == 0),
            (Form::NewMark, session.mark != before.last_reading),
            (Form::NewWait, session.wait == Wait::Second),
            (Form::Back, behind - 1 < session.granted),
            (Form::AfterRestart, self.has_five_anew),
        ]);
        forms.extend(nth.get(usize::from(session.requests)));
        forms
    }
}

/// What was asked of this state: how many segments of a key are missing.
pub fn of_missing(state: Option<&Receiver>, key: Key, number: usize) -> Vec<Form> {
    let is_key = |session: &&Session| session.key == key;
    let session = state.and_then(|state| state.slots.iter().flatten().find(is_key));
    match (number >> 8, session) {
        (16, _) => vec![Form::MissingNotOpen],
        (23, _) => vec![Form::MissingOutOfBounds],
        (_, Some(session)) if session.kind == Kind::Bam => vec![Form::MissingOfBroadcast],
        (_, Some(session)) => {
            let all = session.segments as usize;
            vec![match number {
                0 => Form::MissingNone,
                _ if number == all => Form::MissingAll,
                _ => Form::MissingSome,
            }]
        }
        _ => vec![],
    }
}

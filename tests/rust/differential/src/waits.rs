//! The two waits of a session (02 E4): an originator's own reckoning of its silence, and what readings brought where the limits differ.

use crate::pair::Given;
use rules::receiver::{Limits, Receiver, Session, Wait};

/// Control of a CTS.
const CTS: u8 = 1;

/// How long a session may be silent, reckoned from the answers to its frames and apart from the rules.
#[derive(Clone, Copy, Debug)]
pub struct Silence {
    /// The last reading before its latest frame that was taken.
    mark: u32,
    limit: u32,
    pub is_after_cts: bool,
}

impl Silence {
    /// After this answer to a frame that was taken.
    pub fn after(given: &Given, clock: u32, limits: Limits) -> Silence {
        let is_after_cts = given.sent().is_some_and(|(_, bytes)| bytes[0] & 0xF == CTS);
        Silence { mark: clock, limit: if is_after_cts { limits.first } else { limits.second }, is_after_cts }
    }

    pub fn passed(&self, reading: u32) -> u32 {
        reading.wrapping_sub(self.mark)
    }

    pub fn has_run_out(&self, reading: u32) -> bool {
        self.passed(reading) >= self.limit
    }

    /// How far a clock that shows `last` may go on before this has run out.
    pub fn slack(&self, last: u32) -> u32 {
        self.limit - 1 - self.passed(last)
    }
}

const WAITS: [&str; 2] = ["first wait", "second wait"];
const ORDERS: [&str; 2] = ["second limit shorter", "second limit longer"];
const EVENTS: [&str; 3] = ["outlived one before its limit", "ended at its limit", "read between the limits"];
/// Of each wait, order of the limits and event one.
pub const FORMS: usize = WAITS.len() * ORDERS.len() * EVENTS.len();

pub fn name(form: usize) -> String {
    let (wait, order, event) = (form / 6, form / 3 % 2, form % 3);
    format!("{} {}, {}", WAITS[wait], EVENTS[event], ORDERS[order])
}

/// What never came up, of these counts by form.
pub fn missing(counts: &[u64; FORMS]) -> Vec<String> {
    (0..FORMS).filter(|&form| counts[form] == 0).map(name).collect()
}

/// By form: what a reading brought for the sessions that were open before it.
pub fn forms(before: &Receiver, reading: u32, given: &[Given]) -> Vec<usize> {
    let open = before.slots.iter().zip(given).filter_map(|(slot, given)| Some((slot.as_ref()?, given)));
    open.flat_map(|(session, given)| of_session(before.limits, session, reading, given.code() != 0)).collect()
}

fn of_session(limits: Limits, session: &Session, reading: u32, has_ended: bool) -> Vec<usize> {
    let Limits { first, second } = limits;
    let (wait, limit) = if session.wait == Wait::First { (0, first) } else { (1, second) };
    let passed = reading.wrapping_sub(session.mark);
    let is_between = (first.min(second)..first.max(second)).contains(&passed);
    let events = [!has_ended && passed == limit - 1, has_ended && passed == limit, is_between];
    let form = |event: usize| 6 * wait + 3 * usize::from(second > first) + event;
    (0..EVENTS.len()).filter(|&event| first != second && events[event]).map(form).collect()
}

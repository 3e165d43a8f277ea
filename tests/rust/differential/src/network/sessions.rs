//! The receiver's sessions as the network reckons them, from the answers to the frames that it took and from its clock.

use crate::pair::Given;
use crate::waits::Silence;
use rules::calls::Code;
use rules::receiver::Limits;

/// Destination and session number: all of them have one sender.
pub type Line = (u8, u8);

pub struct Sessions {
    limits: Limits,
    open: Vec<(Line, Silence)>,
}

impl Sessions {
    pub fn new(limits: Limits) -> Sessions {
        Sessions { limits, open: Vec::new() }
    }

    pub fn is_empty(&self) -> bool {
        self.open.is_empty()
    }

    pub fn silences(&self) -> impl Iterator<Item = Silence> + '_ {
        self.open.iter().map(|(_, silence)| *silence)
    }

    /// What this answer to a frame of the line has done to its session.
    pub fn answered(&mut self, line: Line, given: &Given, clock: u32) {
        let is_one_of = |codes: [Code; 3]| codes.into_iter().any(|code| given.is(code));
        let has_gone_on = is_one_of([Code::Opened, Code::Grant, Code::Taken]);
        if has_gone_on || is_one_of([Code::HandedOver, Code::Aborted, Code::Ended]) {
            self.open.retain(|(other, _)| *other != line);
        }
        if has_gone_on {
            self.open.push((line, Silence::after(given, clock, self.limits)));
        }
    }

    /// Takes out the sessions that have to end at this reading, in order of line.
    pub fn run_out(&mut self, reading: u32) -> Vec<(Line, Silence)> {
        let (mut due, open) = self.open.iter().partition(|(_, silence)| silence.has_run_out(reading));
        self.open = open;
        due.sort_by_key(|(line, _)| *line);
        due
    }
}

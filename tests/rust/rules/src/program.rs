//! 01 "Program": the records of a trace, and the lines that an answer brings. What makes the calls is the caller's.

use crate::calls::{word, Code, ANSWER_BYTES};
use crate::groups::Group;
use std::fmt::Write;

/// The opening values: own address, the limit of either wait, the first reading.
pub const OPENING: (u8, u32, u32) = (33, 1_250, 0);

pub enum Record {
    Reading(u32),
    Frame(u32, Vec<u8>),
}

/// The next record and the place behind it; none where it is bad.
pub fn read_record(input: &[u8], at: usize) -> Option<(Record, usize)> {
    let (kind, at) = read_number(input, at)?;
    match kind {
        0 => {
            let (reading, at) = read_number(input, at)?;
            Some((Record::Reading(reading), at))
        }
        1 => {
            let (id, at) = read_number(input, at)?;
            let (length, at) = read_number(input, at)?;
            let end = at + if length <= 64 { length as usize } else { return None };
            Some((Record::Frame(id, input.get(at..end)?.to_vec()), end))
        }
        _ => None,
    }
}

/// Groups of seven bits, the low one first, in the shortest form, below 2^32.
fn read_number(input: &[u8], mut at: usize) -> Option<(u32, usize)> {
    let mut number = 0_u64;
    for group in 0..5 {
        let byte = *input.get(at)?;
        at += 1;
        number |= u64::from(byte & 0x7F) << (7 * group);
        if byte & 0x80 == 0 {
            let is_shortest = byte != 0 || group == 0;
            return if is_shortest { Some((u32::try_from(number).ok()?, at)) } else { None };
        }
    }
    None
}

/// What a run over a trace has told so far: its lines, and every frame sent with the number of its record, in hex.
#[derive(Default)]
pub struct Told {
    pub lines: String,
    pub sent: String,
    pub records: usize,
}

impl Told {
    pub fn line(&mut self, line: std::fmt::Arguments) {
        writeln!(self.lines, "{line}").expect("a string takes all");
    }

    pub fn group(&mut self, id: u32, group: &Group) {
        self.line(format_args!("pg {} {} {} {}", id & 0xFF, id >> 8 & 0xFF, group.pgn, group.length));
    }

    /// The lines and the sent frame of an answer that is not groups; `message` is what it hands over.
    pub fn answer(&mut self, answer: &[u8; ANSWER_BYTES], message: &[u8]) {
        if answer[19] == 1 {
            let hex: String = answer[24..].iter().map(|byte| format!("{byte:02x}")).collect();
            let (record, id) = (self.records, word(&answer[20..]));
            writeln!(self.sent, "{record} {id:08X} {hex}").expect("a string takes all");
        }
        let [number, code, sa, da, session, kind, count] = [0, 1, 2, 3, 4, 5, 6].map(|at| answer[at]);
        let [pgn, total, segment] = [7, 11, 15].map(|at| word(&answer[at..]));
        let is_rts = kind == 1;
        let is = |one: Code| code == one as u8;
        if is(Code::Opened) {
            self.line(format_args!("open {sa} {session}"));
        } else if is(Code::Taken) {
            self.line(format_args!("took {sa} {session} {segment}"));
        } else if is(Code::Grant) {
            self.line(format_args!("send cts {sa} {session} {segment} {count}"));
        } else if is(Code::HandedOver) {
            if is_rts {
                self.line(format_args!("send eoma {sa} {session}"));
            }
            let bytes: String = message.iter().map(|byte| format!(" {byte}")).collect();
            self.line(format_args!("msg {sa} {da} {session} {pgn} {total}{bytes}"));
        } else if is(Code::Aborted) {
            self.line(format_args!("ended {sa} {session} 0"));
        } else if is(Code::Ended) && !is_rts {
            self.line(format_args!("ended {sa} {session} {number}"));
        } else if is(Code::Ended) || is(Code::RefusedRts) {
            self.line(format_args!("send abort {sa} {session} {number}"));
        } else {
            self.line(format_args!("refused {number}"));
        }
    }
}

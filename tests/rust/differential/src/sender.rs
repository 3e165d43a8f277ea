//! Originators other than ours: transfers, and the frames that they bring. Layouts by Figures 31, 33, 35, 36 and 37, written apart from
//! the rules.

use crate::random::Random;
use std::ops::Range;

pub const MULTI_PG: u8 = 37;
pub const CONTROL: u8 = 77;
pub const DATA: u8 = 78;
pub const CAN_LENGTHS: [usize; 16] = [0, 1, 2, 3, 4, 5, 6, 7, 8, 12, 16, 20, 24, 32, 48, 64];

#[derive(Clone, Debug, Default)]
pub struct Frame {
    pub id: u32,
    pub bytes: Vec<u8>,
}

/// Who sends to whom, in which session.
#[derive(Clone, Copy, Debug, PartialEq, Eq)]
pub struct Line {
    pub sa: u8,
    pub da: u8,
    pub session: u8,
}

pub fn identifier(random: &mut Random, pf: u8, da: u8, sa: u8) -> u32 {
    let priority = random.below(8) as u32;
    priority << 26 | u32::from(pf) << 16 | u32::from(da) << 8 | u32::from(sa)
}

/// A PGN in good form; edges of its parts come often.
pub fn good_pgn(random: &mut Random) -> u32 {
    let pages = random.below(4) as u32;
    let pf = if random.once_in(3) { random.pick(&[0, 1, 238, 239, 240, 241, 254, 255]) } else { random.byte() };
    let ps = if pf >= 240 { random.byte() } else { 0 };
    pages << 16 | u32::from(pf) << 8 | u32::from(ps)
}

/// 24 bits, in good form or not.
pub fn any_pgn(random: &mut Random) -> u32 {
    match random.below(5) {
        0 => random.u32() & 0xFF_FFFF,
        1 => good_pgn(random) | 1 << random.between(18, 23),
        2 => random.pick(&[0x00_EF01, 0x03_EFFF, 0x00_0001, 0x03_FFFF, 0x04_0000, 0xFF_FFFF, 0x00_F001, 0x00_EF00]),
        _ => good_pgn(random),
    }
}

/// 1 to 4,096; the edges of segments, grants and slots come often.
pub fn good_total(random: &mut Random) -> u32 {
    match random.below(10) {
        0 => random.pick(&[1, 2, 59, 60, 61, 119, 120, 121]),
        1 => random.pick(&[959, 960, 961, 1019, 1020, 1021, 1919, 1920, 1921]),
        2 => random.pick(&[4019, 4020, 4021, 4079, 4080, 4081, 4095, 4096]),
        3 => random.between(1, 4096) as u32,
        _ => random.between(1, 600) as u32,
    }
}

pub fn good_max(random: &mut Random) -> u8 {
    match random.below(3) {
        0 => random.pick(&[1, 2, 3, 15, 16, 17, 68, 69, 254, 255]),
        _ => random.between(1, 255) as u8,
    }
}

#[derive(Clone, Debug)]
pub struct Control {
    pub control: u8,
    pub total: u32,
    pub segments: u32,
    pub byte8: u8,
    pub byte9: u8,
    pub pgn: u32,
}

impl Control {
    pub fn bytes(&self, session: u8) -> Vec<u8> {
        let mut bytes = vec![session << 4 | self.control];
        bytes.extend(&self.total.to_le_bytes()[..3]);
        bytes.extend(&self.segments.to_le_bytes()[..3]);
        bytes.extend([self.byte8, self.byte9]);
        bytes.extend(&self.pgn.to_le_bytes()[..3]);
        bytes
    }

    pub fn frame(&self, random: &mut Random, line: Line) -> Frame {
        Frame { id: identifier(random, CONTROL, line.da, line.sa), bytes: self.bytes(line.session) }
    }
}

/// A data frame: `data` behind the four bytes of its head, padded to a CAN FD length.
pub fn data_frame(random: &mut Random, line: Line, number: u32, data: &[u8]) -> Frame {
    let mut bytes = vec![line.session << 4];
    bytes.extend(&number.to_le_bytes()[..3]);
    bytes.extend(data);
    let least = CAN_LENGTHS.into_iter().find(|&length| length >= bytes.len().max(5)).unwrap_or(64);
    let length = if random.once_in(4) { 64 } else { least };
    let padding = random.pick(&[0x00, 0xAA, 0xFF, 0x5C]);
    bytes.resize(length.max(bytes.len()), padding);
    Frame { id: identifier(random, DATA, line.da, line.sa), bytes }
}

#[derive(Clone, Debug)]
pub struct Transfer {
    pub line: Line,
    pub is_rts: bool,
    pub pgn: u32,
    pub max: u8,
    pub message: Vec<u8>,
    /// Frames already made: the announcement, each segment, the end.
    pub made: u32,
    /// Segments that were asked for and not made again (02 E6).
    again: Range<u32>,
}

impl Transfer {
    /// To 255 it is a broadcast, else an RTS.
    pub fn new(random: &mut Random, line: Line) -> Transfer {
        let total = good_total(random);
        Transfer {
            line,
            is_rts: line.da != 255,
            pgn: good_pgn(random),
            max: good_max(random),
            message: random.bytes(total as usize),
            made: 0,
            again: 0..0,
        }
    }

    /// The line and the PGN again from the start, with another message and MAX SGMTS or with the same.
    pub fn anew(&self, random: &mut Random) -> Transfer {
        if random.once_in(4) {
            Transfer { made: 0, again: 0..0, ..self.clone() }
        } else {
            Transfer { pgn: self.pgn, ..Transfer::new(random, self.line) }
        }
    }

    pub fn total(&self) -> u32 {
        self.message.len() as u32
    }

    pub fn segments(&self) -> u32 {
        self.message.chunks(60).count() as u32
    }

    /// All segments have been made, and the end has not.
    pub fn is_whole(&self) -> bool {
        self.made == self.segments() + 1
    }

    pub fn is_over(&self) -> bool {
        self.made == self.segments() + 2
    }

    pub fn announcement(&self) -> Control {
        Control {
            control: if self.is_rts { 0 } else { 4 },
            total: self.total(),
            segments: self.segments(),
            byte8: self.max,
            byte9: 0,
            pgn: self.pgn,
        }
    }

    pub fn status(&self) -> Control {
        Control { control: 2, byte8: self.max, ..self.announcement() }
    }

    /// Reserved bits and the reason are anything.
    pub fn abort(&self, random: &mut Random) -> Control {
        Control {
            control: 15,
            total: random.u32(),
            segments: random.u32(),
            byte8: random.byte() & 0b1111_1100,
            byte9: random.byte(),
            pgn: self.pgn,
        }
    }

    pub fn segment(&self, random: &mut Random, number: u32) -> Frame {
        let data = self.message.chunks(60).nth(number as usize - 1).unwrap_or(&[]);
        data_frame(random, self.line, number, data)
    }

    /// The end was answered by a request: these segments come once more, and then the end.
    pub fn asked(&mut self, first: u32, count: u8) {
        self.made = self.segments() + 1;
        self.again = first..first + u32::from(count);
    }

    /// The next frame of an orderly transfer.
    pub fn next(&mut self, random: &mut Random) -> Frame {
        if let Some(number) = self.again.next() {
            return self.segment(random, number);
        }
        let made = self.made;
        self.made += 1;
        if made == 0 {
            self.announcement().frame(random, self.line)
        } else if made <= self.segments() {
            self.segment(random, made)
        } else {
            self.status().frame(random, self.line)
        }
    }
}

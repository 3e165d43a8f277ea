//! Records of a trace, read as a stream.

use std::io::{self, Read};

const WINDOW: usize = 1 << 16;

pub enum Next<'a> {
    Reading(u32),
    Frame(u32, &'a [u8]),
    End,
    /// A bad record starts at this byte.
    Bad(u64),
}

pub struct Records<R> {
    source: R,
    window: Vec<u8>,
    at: usize,
    filled: usize,
    /// bytes of the input before the window
    before: u64,
}

enum Parsed {
    Reading(u32, usize),
    /// identifier, first and last place of the bytes
    Frame(u32, usize, usize),
    Short,
    Bad,
}

enum Number {
    Good(u32, usize),
    Short,
    Bad,
}

/// Seven bits a byte, low group first; shortest form only; below 2^32.
fn number(bytes: &[u8], start: usize) -> Number {
    let mut value: u64 = 0;
    for i in 0..5 {
        let Some(&byte) = bytes.get(start + i) else {
            return Number::Short;
        };
        value |= u64::from(byte & 0x7f) << (7 * i);
        if byte & 0x80 == 0 {
            if byte == 0 && i > 0 {
                return Number::Bad;
            }
            return match u32::try_from(value) {
                Ok(v) => Number::Good(v, start + i + 1),
                Err(_) => Number::Bad,
            };
        }
    }
    Number::Bad
}

macro_rules! take {
    ($bytes:expr, $at:expr) => {
        match number($bytes, $at) {
            Number::Good(v, next) => (v, next),
            Number::Short => return Parsed::Short,
            Number::Bad => return Parsed::Bad,
        }
    };
}

fn parse(bytes: &[u8]) -> Parsed {
    let (kind, at) = take!(bytes, 0);
    match kind {
        0 => {
            let (now, at) = take!(bytes, at);
            Parsed::Reading(now, at)
        }
        1 => {
            let (id, at) = take!(bytes, at);
            let (length, at) = take!(bytes, at);
            if length > 64 {
                return Parsed::Bad;
            }
            let end = at + length as usize;
            if end > bytes.len() {
                return Parsed::Short;
            }
            Parsed::Frame(id, at, end)
        }
        _ => Parsed::Bad,
    }
}

impl<R: Read> Records<R> {
    pub fn new(source: R) -> Self {
        Records {
            source,
            window: vec![0; WINDOW],
            at: 0,
            filled: 0,
            before: 0,
        }
    }

    /// Reads more behind what is left; false at the end of the input.
    fn fill(&mut self) -> io::Result<bool> {
        self.window.copy_within(self.at..self.filled, 0);
        self.before += self.at as u64;
        self.filled -= self.at;
        self.at = 0;
        let got = loop {
            match self.source.read(&mut self.window[self.filled..]) {
                Err(e) if e.kind() == io::ErrorKind::Interrupted => continue,
                other => break other?,
            }
        };
        self.filled += got;
        Ok(got > 0)
    }

    pub fn next(&mut self) -> io::Result<Next<'_>> {
        loop {
            let start = self.at;
            match parse(&self.window[start..self.filled]) {
                Parsed::Reading(now, used) => {
                    self.at += used;
                    return Ok(Next::Reading(now));
                }
                Parsed::Frame(id, first, last) => {
                    self.at += last;
                    return Ok(Next::Frame(id, &self.window[start + first..start + last]));
                }
                Parsed::Bad => return Ok(Next::Bad(self.before + start as u64)),
                Parsed::Short => {
                    if !self.fill()? {
                        return Ok(if self.filled == 0 {
                            Next::End
                        } else {
                            Next::Bad(self.before)
                        });
                    }
                }
            }
        }
    }
}

//! Writes a mixed trace to standard output, always the same for the same number of records.
//!
//!     generate RECORDS > TRACE
//!
//! Of a hundred records about 40 are Multi-PG frames, 48 belong to eight transfers (RTS and BAM, interleaved), 10 are readings and
//! the rest is noise: frames for others, odd lengths, controls that are not a receiver's, a ninth announcement. One Multi-PG frame
//! in 50 and one transfer frame in 200 is damaged. Of the transfers by RTS some lose segments, a few of them many; these come again
//! after the end of message status, as the receiver asks for them.

use std::collections::VecDeque;
use std::io::{self, BufWriter, Write};

const OWN: u32 = 33;

struct Dice(u64);

impl Dice {
    /// xorshift64*
    fn next(&mut self) -> u64 {
        self.0 ^= self.0 >> 12;
        self.0 ^= self.0 << 25;
        self.0 ^= self.0 >> 27;
        self.0.wrapping_mul(0x2545_f491_4f6c_dd1d) >> 11
    }
    fn below(&mut self, n: u64) -> u32 {
        (self.next() % n) as u32
    }
    fn one_in(&mut self, n: u64) -> bool {
        self.below(n) == 0
    }
    fn byte(&mut self) -> u8 {
        self.below(256) as u8
    }
}

#[derive(Clone)]
struct Transfer {
    sa: u32,
    session: u8,
    is_bam: bool,
    total: u32,
    pgn: u32,
    is_announced: bool,
    /// the segments that go out before the next end of message status
    due: VecDeque<u32>,
    /// those that have got lost, in order
    lost: VecDeque<u32>,
    /// of how many segments one gets lost; none if 0
    loses_one_in: u64,
}

struct Out<W: Write> {
    to: W,
}

impl<W: Write> Out<W> {
    fn number(&mut self, value: u32) -> io::Result<()> {
        let mut rest = value;
        while rest >= 128 {
            self.to.write_all(&[rest as u8 | 128])?;
            rest >>= 7;
        }
        self.to.write_all(&[rest as u8])
    }
    fn reading(&mut self, now: u32) -> io::Result<()> {
        self.number(0)?;
        self.number(now)
    }
    fn frame(&mut self, id: u32, bytes: &[u8]) -> io::Result<()> {
        self.number(1)?;
        self.number(id)?;
        self.number(bytes.len() as u32)?;
        self.to.write_all(bytes)
    }
}

/// Fills up to the next length that CAN FD has.
fn pad(bytes: &mut Vec<u8>, with: u8) {
    let lengths = [0, 1, 2, 3, 4, 5, 6, 7, 8, 12, 16, 20, 24, 32, 48, 64];
    let length = lengths
        .into_iter()
        .find(|&l| l >= bytes.len())
        .unwrap_or(64);
    let start = bytes.len();
    bytes.resize(length, with);
    for (i, byte) in bytes[start..].iter_mut().enumerate() {
        if i < 3 && with == 0xaa {
            *byte = 0;
        }
    }
}

fn identifier(pf: u32, da: u32, sa: u32) -> u32 {
    7 << 26 | pf << 16 | da << 8 | sa
}

fn pgn(dice: &mut Dice) -> u32 {
    if dice.one_in(3) {
        0xf000 + dice.below(0x1000)
    } else {
        dice.below(240) << 8
    }
}

fn multi_pg(dice: &mut Dice) -> (u32, Vec<u8>) {
    let mut bytes = Vec::new();
    loop {
        let length = if dice.one_in(4) { dice.below(40) } else { 8 };
        if bytes.len() + 4 + length as usize > 64 {
            break;
        }
        let group = pgn(dice);
        bytes.extend([
            0x40 | (group >> 16) as u8,
            (group >> 8) as u8,
            group as u8,
            length as u8,
        ]);
        for _ in 0..length {
            bytes.push(dice.byte());
        }
        if dice.one_in(3) {
            break;
        }
    }
    pad(&mut bytes, 0xaa);
    if dice.one_in(50) && !bytes.is_empty() {
        let place = dice.below(bytes.len() as u64) as usize;
        bytes[place] = dice.byte();
    }
    let da = if dice.one_in(2) { 255 } else { OWN };
    (identifier(37, da, 128 + dice.below(60)), bytes)
}

fn control(first: u8, total: u32, eighth: u8, pgn: u32) -> Vec<u8> {
    let segments = total.div_ceil(60);
    let mut bytes = vec![first];
    bytes.extend(&total.to_le_bytes()[..3]);
    bytes.extend(&segments.to_le_bytes()[..3]);
    bytes.extend([eighth, 0]);
    bytes.extend(&pgn.to_le_bytes()[..3]);
    bytes
}

impl Transfer {
    fn restart(&mut self, dice: &mut Dice) {
        self.session = dice.below(16) as u8;
        self.is_bam = dice.one_in(2);
        let most = if dice.one_in(3) { 4096 } else { 1500 };
        self.total = 1 + dice.below(most);
        self.pgn = pgn(dice);
        self.is_announced = false;
        self.due.clear();
        self.lost.clear();
        self.loses_one_in = match dice.below(16) {
            _ if self.is_bam => 0,
            0 => 4,
            1..=4 => 30,
            _ => 0,
        };
    }

    /// The next segment that does not get lost.
    fn next_segment(&mut self, dice: &mut Dice) -> Option<u32> {
        while let Some(n) = self.due.pop_front() {
            if self.loses_one_in == 0 || !dice.one_in(self.loses_one_in) {
                return Some(n);
            }
            self.lost.push_back(n);
            self.lost.make_contiguous().sort_unstable();
        }
        None
    }

    /// What the receiver asks for: the first run that is missing.
    fn first_run(&mut self) -> VecDeque<u32> {
        let mut run = VecDeque::new();
        while let Some(&n) = self.lost.front() {
            if run.len() == 16 || run.back().is_some_and(|&last| n != last + 1) {
                break;
            }
            run.push_back(n);
            self.lost.pop_front();
        }
        run
    }

    fn step(&mut self, dice: &mut Dice) -> (u32, Vec<u8>) {
        let da = if self.is_bam { 255 } else { OWN };
        let top = self.session << 4;
        let segments = self.total.div_ceil(60);
        if !self.is_announced {
            self.is_announced = true;
            self.due = (1..=segments).collect();
            let first = top | if self.is_bam { 4 } else { 0 };
            let max = if dice.one_in(4) {
                1 + dice.below(20) as u8
            } else {
                255
            };
            return (
                identifier(77, da, self.sa),
                control(first, self.total, max, self.pgn),
            );
        }
        let Some(n) = self.next_segment(dice) else {
            let bytes = control(top | 2, self.total, 255, self.pgn);
            let id = identifier(77, da, self.sa);
            self.due = self.first_run();
            if self.due.is_empty() {
                self.restart(dice);
            }
            return (id, bytes);
        };
        let due = (self.total - 60 * (n - 1)).min(60);
        let mut bytes = vec![top];
        bytes.extend(&n.to_le_bytes()[..3]);
        for _ in 0..due {
            bytes.push(dice.byte());
        }
        pad(&mut bytes, 0xff);
        (identifier(78, da, self.sa), bytes)
    }

    /// A frame that is not the transfer's next one.
    fn damaged(&mut self, dice: &mut Dice) -> (u32, Vec<u8>) {
        let (id, mut bytes) = self.clone().step(dice);
        match dice.below(5) {
            // a segment again, or one left out: that ends a broadcast, so begin anew
            0 => bytes[1] = bytes[1].wrapping_sub(1),
            1 => {
                bytes[1] = bytes[1].wrapping_add(1);
                if self.is_bam {
                    self.restart(dice);
                }
            }
            2 => bytes[0] |= 1 << dice.below(4),
            3 => bytes.truncate(8),
            // an Abort of its originator, or of another PGN
            _ => {
                let top = self.session << 4;
                let pgn = self.pgn ^ dice.below(2) << 8;
                let da = if self.is_bam { 255 } else { OWN };
                let bytes = control(top | 15, 0xff_ffff, 0xfc, pgn);
                let id = identifier(77, da, self.sa);
                if pgn == self.pgn {
                    self.restart(dice);
                }
                return (id, bytes);
            }
        }
        (id, bytes)
    }
}

fn noise(dice: &mut Dice) -> (u32, Vec<u8>) {
    match dice.below(5) {
        0 => (identifier(dice.below(256), OWN, 128), vec![0; 8]),
        1 => (dice.next() as u32, vec![0; 8]),
        2 => (identifier(37, 255, 128), vec![0; dice.below(65) as usize]),
        3 => (
            identifier(77, OWN, 200),
            control(dice.byte(), 61, 255, 0xfeca),
        ),
        _ => (
            identifier(78, OWN, 200),
            vec![dice.byte(), 1, 0, 0, 5, 6, 7, 8],
        ),
    }
}

fn main() -> io::Result<()> {
    let records: u64 = std::env::args()
        .nth(1)
        .and_then(|a| a.parse().ok())
        .expect("generate RECORDS");
    let mut dice = Dice(20_220_922);
    let mut out = Out {
        to: BufWriter::with_capacity(1 << 20, io::stdout().lock()),
    };
    let blank = Transfer {
        sa: 0,
        session: 0,
        is_bam: false,
        total: 1,
        pgn: 0,
        is_announced: false,
        due: VecDeque::new(),
        lost: VecDeque::new(),
        loses_one_in: 0,
    };
    let mut transfers = vec![blank; 8];
    for (i, t) in transfers.iter_mut().enumerate() {
        t.sa = 128 + 7 * i as u32;
        t.restart(&mut dice);
    }
    // The clock starts shortly before it runs round.
    let mut now: u32 = u32::MAX - 5000;
    for _ in 0..records {
        let (id, bytes) = match dice.below(100) {
            0..=9 => {
                now = now.wrapping_add(dice.below(20));
                if dice.one_in(2000) {
                    now = now.wrapping_add(1250);
                    for t in &mut transfers {
                        t.restart(&mut dice);
                    }
                }
                out.reading(now)?;
                continue;
            }
            10..=49 => multi_pg(&mut dice),
            50..=97 => {
                let which = dice.below(8) as usize;
                let t = &mut transfers[which];
                if dice.one_in(200) {
                    t.damaged(&mut dice)
                } else {
                    t.step(&mut dice)
                }
            }
            _ => noise(&mut dice),
        };
        out.frame(id, &bytes)?;
    }
    out.to.flush()
}

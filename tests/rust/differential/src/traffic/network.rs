//! Transfers of several originators at once: orderly, in each other's way, or damaged.

use crate::limits;
use crate::pair::{expect, Pair, Verdict};
use crate::random::Random;
use crate::sender::{Frame, Line, Transfer, CAN_LENGTHS};
use rules::calls::Code;
use rules::receiver::Limits;

/// Whole transfers, up to four at once: all is taken, and each message is handed over as it was sent.
pub fn valid(pair: &mut Pair, random: &mut Random, calls: u64) -> Verdict<()> {
    while pair.tally.calls < calls {
        let own = random.below(254) as u8;
        let mut clock = random.u32();
        pair.open(own, limits::two(random, |random| random.between_u32(40_000, 60_000)), clock)?;
        let first = random.below(16);
        let lines: Vec<Line> = (0..4).map(|i| line_of(own, first, i)).collect();
        let mut transfers: Vec<Transfer> = lines.iter().map(|&line| Transfer::new(random, line)).collect();
        for _ in 0..500 {
            let i = random.below(transfers.len());
            let frame = transfers[i].next(random);
            let given = pair.frame(frame.id, &frame.bytes)?;
            expect(given.number() == 0, || format!("a frame of a valid transfer was refused by {}", given.number()))?;
            if transfers[i].is_over() {
                let message = &transfers[i].message;
                expect(given.is(Code::HandedOver), || "a valid transfer was not handed over".into())?;
                expect(pair.out(message.len()) == message, || "a message is not what was sent".into())?;
                transfers[i] = Transfer::new(random, lines[i]);
            }
            if random.once_in(4) {
                clock = clock.wrapping_add(random.below(100) as u32);
                let (_, endings) = pair.reading(clock)?;
                expect(endings.iter().all(|ending| ending.code() == 0), || "a valid transfer was ended".into())?;
            }
        }
    }
    Ok(())
}

/// Lines 0 and 1, 2 and 3 and so on have one sender and session: one to the own address, the other to all. Three senders have the
/// session `first`, and the same three have others.
pub fn line_of(own: u8, first: usize, i: usize) -> Line {
    let pair = i / 2;
    // Adding 1 to 253 to an address, modulo 254, never gives it again.
    let sa = (usize::from(own) + 1 + pair % 3 * 84) % 254;
    Line { sa: sa as u8, da: [own, 255][i % 2], session: ((first + pair / 3 * 7) % 16) as u8 }
}

struct Network {
    lines: usize,
    /// One frame in so many is damaged; 0 for none.
    damage: usize,
    /// One call in so many is a reading.
    reading: usize,
    limits: Limits,
}

pub fn interleaved(pair: &mut Pair, random: &mut Random, calls: u64) -> Verdict<()> {
    while pair.tally.calls < calls {
        let lines = random.between(6, 12);
        let limits = limits::two(random, |random| random.between_u32(50, 5_000));
        Network { lines, damage: 0, reading: 6, limits }.run(pair, random)?;
    }
    Ok(())
}

pub fn damaged(pair: &mut Pair, random: &mut Random, calls: u64) -> Verdict<()> {
    while pair.tally.calls < calls {
        let lines = random.between(1, 8);
        let damage = random.between(2, 12);
        let limits = limits::two(random, |random| random.between_u32(2_000, 6_000));
        Network { lines, damage, reading: 12, limits }.run(pair, random)?;
    }
    Ok(())
}

/// More originators than slots, over a store that is never cleared.
pub fn full(pair: &mut Pair, random: &mut Random, calls: u64) -> Verdict<()> {
    while pair.tally.calls < calls {
        let lines = random.between(9, 16);
        let limits = limits::two(random, |random| random.pick(&[40_000, 60_000]));
        Network { lines, damage: 60, reading: 40, limits }.run(pair, random)?;
    }
    Ok(())
}

impl Network {
    fn run(&self, pair: &mut Pair, random: &mut Random) -> Verdict<()> {
        let own = random.below(254) as u8;
        let mut clock = random.u32();
        pair.open(own, self.limits, clock)?;
        let first = random.below(16);
        let mut transfers: Vec<Transfer> =
            (0..self.lines).map(|i| Transfer::new(random, line_of(own, first, i))).collect();
        let mut held_back: Vec<Frame> = Vec::new();
        for _ in 0..400 {
            let i = random.below(transfers.len());
            let transfer = &mut transfers[i];
            let frame = if random.once_in(50) {
                transfer.abort(random).frame(random, transfer.line)
            } else {
                if random.once_in(25) {
                    *transfer = transfer.anew(random);
                }
                transfer.next(random)
            };
            let is_hurt = self.damage > 0 && random.once_in(self.damage);
            let frames = if is_hurt { damage(random, frame, &mut held_back) } else { vec![frame] };
            let mut number = 0;
            for frame in frames {
                let given = pair.frame(frame.id, &frame.bytes)?;
                number = given.number();
                let Line { sa, da, session } = transfer.line;
                if transfer.is_over() && given.is(Code::Grant) && given.0[2..5] == [sa, da, session] {
                    transfer.asked(given.word(15), given.0[6]);
                }
            }
            // An originator that was refused begins again at once, or goes on for a while as if nothing had been. With another PGN it has to
            // wait for the end of a session that is still open.
            if transfer.is_over() || (number != 0 && random.once_in(2)) {
                let keeps_pgn = !random.once_in(3);
                *transfer = if keeps_pgn { transfer.anew(random) } else { Transfer::new(random, transfer.line) };
            }
            if random.once_in(self.reading) {
                let is_silent = random.once_in(8);
                let passed = if is_silent { limits::silence(random, self.limits) } else { random.between_u32(0, 19) };
                clock = clock.wrapping_add(passed);
                pair.reading(clock)?;
            }
        }
        Ok(())
    }
}

/// What comes of a frame on a bad line: none, one or several.
fn damage(random: &mut Random, mut frame: Frame, held_back: &mut Vec<Frame>) -> Vec<Frame> {
    match random.below(10) {
        0 => return vec![],
        1 => return vec![frame.clone(), frame],
        2 => {
            held_back.push(frame);
            return vec![];
        }
        3 => {
            held_back.insert(0, frame);
            return std::mem::take(held_back);
        }
        4 => frame.id ^= 1 << random.below(32),
        5 => frame.bytes.truncate(random.below(frame.bytes.len() + 1)),
        6 => frame.bytes.truncate(random.pick(&CAN_LENGTHS)),
        7 => frame.bytes.resize(random.between(0, 70), 0xAA),
        8 => frame.bytes.resize(random.pick(&CAN_LENGTHS), 0xAA),
        _ => {
            for _ in 0..random.between(1, 3) {
                let at = random.below(frame.bytes.len().min(12));
                frame.bytes[at] ^= 1 << random.below(8);
            }
        }
    }
    vec![frame]
}

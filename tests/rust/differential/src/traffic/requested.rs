//! Segments lost, repeated and in any order, and what is asked for again (02 E6). Each originator keeps its own account of what is in, what
//! it was granted and how often it was asked, and so knows what every frame of its own has to bring, how many segments are missing, and
//! when its session has to end by silence. Some broadcast, and there may be more of them than slots. Each form of `requests` has to come
//! up here.

use crate::limits;
use crate::pair::{expect, Given, Pair, Verdict};
use crate::random::Random;
use crate::requests;
use crate::sender::{Control, Frame, Line, Transfer, CAN_LENGTHS};
use crate::traffic::network::line_of;
use crate::traffic::repeated::{outlives, passed, Clock};
use crate::waits::Silence;
use rules::calls::Code;
use rules::receiver::Key;

/// Total Bytes of 64, 65, 68 and 69 segments.
const LARGE: [usize; 8] = [3_840, 3_841, 3_900, 3_901, 4_080, 4_081, 4_095, 4_096];

struct Originator {
    transfer: Transfer,
    /// None where its session is not open.
    open: Option<Open>,
}

/// The session by its originator's account.
struct Open {
    silence: Silence,
    /// By segment, from 1 on.
    is_in: Vec<bool>,
    granted: u32,
    /// How often it was asked for missing segments.
    asked: u8,
    /// What it sends before its end, in this order.
    plan: Vec<u32>,
    /// One of so many that it sends is lost, and some after it.
    loss: usize,
    in_order: bool,
    /// Little else goes wrong.
    is_calm: bool,
}

/// What a frame has to bring.
#[derive(Clone, Copy, Debug)]
enum Due {
    Taken(u32),
    Cts {
        next: u32,
        count: u32,
    },
    HandedOver,
    /// By this refusal; an RTS is sent an Abort with this reason.
    Ended(u8, u8),
    Refused(u8),
}

pub fn run(pair: &mut Pair, random: &mut Random, calls: u64) -> Verdict<()> {
    while pair.tally.calls < calls {
        let own = random.below(254) as u8;
        let limits = limits::two(random, |random| random.between_u32(100, 4_000));
        let mut clock = Clock { limits, last: random.u32() };
        pair.open(own, limits, clock.last)?;
        let first = random.below(16);
        let lines = random.pick(&[1, 2, 4, 8, 9, 10]);
        let mut originators: Vec<Originator> = (0..lines)
            .map(|i| {
                let line = line_of(own, first, 2 * i + usize::from(random.once_in(5)));
                Originator { transfer: Transfer::new(random, line), open: None }
            })
            .collect();
        for _ in 0..1_500 {
            let is_full = originators.iter().filter(|originator| originator.open.is_some()).count() == 8;
            originators[random.below(lines)].turn(pair, random, clock, is_full)?;
            if random.once_in(50) {
                let open: Vec<Silence> = originators.iter().filter_map(|o| Some(o.open.as_ref()?.silence)).collect();
                clock.last = clock.last.wrapping_add(passed(random, &open, clock));
                reading(pair, &mut originators, clock.last)?;
            }
        }
    }
    requests::met_by_traffic(&pair.tally.requests)
}

fn reading(pair: &mut Pair, originators: &mut [Originator], reading: u32) -> Verdict<()> {
    let (_, endings) = pair.reading(reading)?;
    for originator in originators {
        if let Some(open) = &originator.open {
            if !outlives(&endings, originator.transfer.line, open.silence, reading)? {
                originator.open = None;
            }
        }
    }
    Ok(())
}

impl Open {
    fn missing(&self) -> Vec<u32> {
        (1..).zip(&self.is_in).filter(|(_, is_in)| !**is_in).map(|(n, _)| n).collect()
    }

    fn has(&self, n: u32) -> bool {
        n == 0 || self.is_in.get(n as usize - 1).is_some_and(|is_in| *is_in)
    }

    fn is_granted(&mut self, random: &mut Random, next: u32, count: u32) {
        self.granted = next + count - 1;
        let mut plan: Vec<u32> = (next..next + count).collect();
        if !self.in_order {
            (1..plan.len()).for_each(|i| plan.swap(i, random.below(i + 1)));
        }
        self.plan.extend(plan);
    }
}

impl Originator {
    /// Mostly what was granted goes out, or is lost, and then the end.
    fn turn(&mut self, pair: &mut Pair, random: &mut Random, clock: Clock, is_full: bool) -> Verdict<()> {
        let is_rts = self.transfer.is_rts;
        let Some(open) = &mut self.open else {
            self.transfer = Transfer::new(random, self.transfer.line);
            if random.once_in(3) {
                let length = random.pick(&LARGE);
                self.transfer.message = random.bytes(length);
            }
            return self.announce(pair, random, clock, is_full);
        };
        let segments = open.is_in.len() as u32;
        let missing = open.missing();
        let turns = if open.is_calm { 1_000 } else { 100 };
        match random.below(turns) {
            0 | 1 if is_rts => self.restart(pair, random, clock),
            2 => self.send(pair, random, clock, 0),
            3..=6 => {
                let taken: Vec<u32> = (1..=segments).filter(|&n| open.has(n)).collect();
                let n = if taken.is_empty() { 0 } else { random.pick(&taken) };
                self.send(pair, random, clock, n)
            }
            7 if random.once_in(2) => {
                let past = random.pick(&[segments + 1, segments + 2, 70, 73, 129, segments | 0x100, 0xFF_FFFF]);
                self.send(pair, random, clock, past.max(segments + 1))
            }
            8 | 9 => self.damaged(pair, random),
            10..=13 if is_rts && !missing.is_empty() => {
                let n = random.pick(&missing);
                self.send(pair, random, clock, n)
            }
            14 if is_rts || random.once_in(3) => self.send(pair, random, clock, segments),
            15 => self.end(pair, random, clock),
            16 if random.once_in(3) => self.other_end(pair, random),
            17..=22 => self.count(pair, random),
            _ if open.plan.is_empty() => self.end(pair, random, clock),
            _ => {
                let n = open.plan.remove(0);
                if random.once_in(open.loss) {
                    let more = random.below(8).min(open.plan.len());
                    open.plan.drain(..more);
                    return Ok(());
                }
                self.send(pair, random, clock, n)
            }
        }
    }

    fn key(&self) -> Key {
        let Line { sa, da, session } = self.transfer.line;
        Key { sa, da, session }
    }

    /// The frame brings what is due, and where that is a refusal it changes nothing.
    fn brings(&self, pair: &mut Pair, Frame { id, bytes }: &Frame, due: Due) -> Verdict<Given> {
        let before = (pair.record().to_vec(), pair.store().to_vec());
        let given = pair.frame(*id, bytes)?;
        let told = || format!("{bytes:02X?} was answered by {:02X?}, due was {due:?}", given.0);
        let is_right = match due {
            Due::Taken(n) => given.is(Code::Taken) && given.word(15) == n && given.sent().is_none(),
            Due::Cts { next, count } => {
                let [n, pgn] = [next, self.transfer.pgn].map(u32::to_le_bytes);
                let head = self.transfer.line.session << 4 | 1;
                let cts = [&[head, 255, 255, 255], &n[..3], &[count as u8, 0], &pgn[..3]].concat();
                given.is(Code::Grant) && given.sent().is_some_and(|(_, sent)| sent == cts)
            }
            Due::HandedOver => {
                let message = &self.transfer.message;
                given.is(Code::HandedOver)
                    && given.word(11) == self.transfer.total()
                    && pair.out(message.len()) == message
            }
            Due::Ended(number, reason) => {
                let sends = given.sent().map(|(_, sent)| sent[8]);
                let due = self.transfer.is_rts.then_some(reason);
                let is_spent = self.transfer.is_rts && reason == 5;
                given.is(Code::Ended) && given.number() == number && sends == due && (given.0[6] == 1) == is_spent
            }
            Due::Refused(number) => {
                let stays = pair.record() == before.0 && pair.store() == before.1;
                given.is(Code::Refused) && given.number() == number && stays
            }
        };
        expect(is_right, told)?;
        Ok(given)
    }

    fn announce(&mut self, pair: &mut Pair, random: &mut Random, clock: Clock, is_full: bool) -> Verdict<()> {
        let Frame { id, bytes } = self.transfer.next(random);
        let given = pair.frame(id, &bytes)?;
        let number = given.number();
        expect(number == if is_full { 15 } else { 0 }, || format!("an announcement was answered by {number}"))?;
        if !is_full {
            self.opened(random, &given, clock);
        }
        Ok(())
    }

    fn restart(&mut self, pair: &mut Pair, random: &mut Random, clock: Clock) -> Verdict<()> {
        self.transfer = self.transfer.anew(random);
        let count = self.grant(self.transfer.segments());
        let frame = self.transfer.next(random);
        let given = self.brings(pair, &frame, Due::Cts { next: 1, count })?;
        self.opened(random, &given, clock);
        Ok(())
    }

    /// Nothing is in, and of an RTS the first segments are granted.
    fn opened(&mut self, random: &mut Random, given: &Given, clock: Clock) {
        let segments = self.transfer.segments();
        let mut open = Open {
            silence: Silence::after(given, clock.last, clock.limits),
            is_in: vec![false; segments as usize],
            granted: 0,
            asked: 0,
            plan: vec![],
            loss: random.pick(&[2, 4, 12, 60, 1_000]),
            in_order: !self.transfer.is_rts || random.once_in(2),
            is_calm: random.once_in(2),
        };
        let count = if self.transfer.is_rts { self.grant(segments) } else { segments };
        open.is_granted(random, 1, count);
        self.open = Some(open);
    }

    /// Of so many segments one CTS asks for these.
    fn grant(&self, most: u32) -> u32 {
        most.min(16).min(self.transfer.max.into())
    }

    fn segment_due(&self, open: &Open, n: u32) -> Due {
        let segments = self.transfer.segments();
        let is_later = !self.transfer.is_rts && open.missing().first() != Some(&n);
        if open.has(n) {
            Due::Refused(18)
        } else if n > segments || is_later {
            Due::Ended(19, 7)
        } else if self.transfer.is_rts && open.asked == 0 && n == open.granted && n < segments {
            Due::Cts { next: n + 1, count: self.grant(segments - n) }
        } else {
            Due::Taken(n)
        }
    }

    fn send(&mut self, pair: &mut Pair, random: &mut Random, clock: Clock, n: u32) -> Verdict<()> {
        let Some(mut open) = self.open.take() else {
            return Ok(());
        };
        let due = self.segment_due(&open, n);
        let mut frame = self.transfer.segment(random, n.max(1));
        frame.bytes[1..4].copy_from_slice(&n.to_le_bytes()[..3]);
        let given = self.brings(pair, &frame, due)?;
        match due {
            Due::Ended(..) => return Ok(()),
            Due::Cts { next, count } => open.is_granted(random, next, count),
            _ => {}
        }
        if given.number() == 0 {
            open.is_in[n as usize - 1] = true;
            open.silence = Silence::after(&given, clock.last, clock.limits);
        }
        self.open = Some(open);
        Ok(())
    }

    /// A segment with a format indicator, or one that is not in and too short for the data due.
    fn damaged(&self, pair: &mut Pair, random: &mut Random) -> Verdict<()> {
        let missing = self.open.as_ref().map(Open::missing).unwrap_or_default();
        let n = match missing.first() {
            Some(&first) if !self.transfer.is_rts => first,
            Some(_) => random.pick(&missing),
            None => 1,
        };
        let mut frame = self.transfer.segment(random, n);
        let due = self.transfer.message.chunks(60).nth(n as usize - 1).unwrap_or_default().len();
        let too_short: Vec<usize> = CAN_LENGTHS.into_iter().filter(|length| (5..4 + due).contains(length)).collect();
        let number = if missing.is_empty() || too_short.is_empty() || random.once_in(4) {
            frame.bytes[0] |= random.between(1, 15) as u8;
            17
        } else {
            frame.bytes.truncate(random.pick(&too_short));
            20
        };
        self.brings(pair, &frame, Due::Refused(number)).map(drop)
    }

    /// The end as announced.
    fn end(&mut self, pair: &mut Pair, random: &mut Random, clock: Clock) -> Verdict<()> {
        let Some(mut open) = self.open.take() else {
            return Ok(());
        };
        let missing = open.missing();
        let next = missing.first().copied().unwrap_or_default();
        let run = missing.iter().zip(next..).take_while(|(n, due)| **n == *due).count() as u32;
        let due = match self.transfer.is_rts {
            _ if missing.is_empty() => Due::HandedOver,
            false => Due::Ended(21, 0),
            true if open.asked == 5 => Due::Ended(21, 5),
            true => Due::Cts { next, count: self.grant(run) },
        };
        let frame = self.transfer.status().frame(random, self.transfer.line);
        let given = self.brings(pair, &frame, due)?;
        if let Due::Cts { next, count } = due {
            open.plan.clear();
            open.is_granted(random, next, count);
            open.asked += 1;
            open.silence = Silence::after(&given, clock.last, clock.limits);
            self.open = Some(open);
        }
        Ok(())
    }

    /// An end with another field than was announced.
    fn other_end(&mut self, pair: &mut Pair, random: &mut Random) -> Verdict<()> {
        let status = self.transfer.status();
        let bit = 1 << random.below(24);
        let status = match random.below(4) {
            0 => Control { total: status.total ^ bit, ..status },
            1 => Control { segments: status.segments ^ bit, ..status },
            2 => Control { pgn: status.pgn ^ bit, ..status },
            _ => Control { byte9: random.between(1, 255) as u8, ..status },
        };
        let frame = status.frame(random, self.transfer.line);
        self.brings(pair, &frame, Due::Ended(21, 250))?;
        self.open = None;
        Ok(())
    }

    /// How many are missing, of this key or of one beside it that nobody has.
    fn count(&self, pair: &mut Pair, random: &mut Random) -> Verdict<()> {
        let missing = pair.missing(self.key())?;
        let due = self.open.as_ref().map(|open| open.missing().len());
        expect(Some(missing) == due, || format!("{missing} missing, due {due:?}"))?;
        let other = Key { session: self.key().session + random.pick(&[16, 32, 128]), ..self.key() };
        let missing = pair.missing(other)?;
        expect(missing == 256 * 16, || format!("{missing} missing of no session"))
    }
}

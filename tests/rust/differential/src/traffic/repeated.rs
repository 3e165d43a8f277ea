//! Announcements for keys that are open (02 E1). Each originator knows what every frame of its own has to bring, and when its session
//! has to end by silence, in either wait (02 E4), which a refused segment does not change. There may be more of them than slots. Each
//! form of such an announcement has to come up here.

use crate::limits;
use crate::pair::{expect, Given, Pair, Verdict};
use crate::random::Random;
use crate::repeats;
use crate::sender::{Control, Frame, Line, Transfer, CAN_LENGTHS};
use crate::traffic::network::line_of;
use crate::waits::Silence;
use rules::calls::Code;
use rules::receiver::{Key, Limits};

struct Originator {
    transfer: Transfer,
    /// None where its session is not open.
    silence: Option<Silence>,
    /// How often all of its segments were asked for (02 E6).
    asked: u8,
}

/// What the receiver was opened with, and its last reading.
#[derive(Clone, Copy)]
pub struct Clock {
    pub limits: Limits,
    pub last: u32,
}

pub fn run(pair: &mut Pair, random: &mut Random, calls: u64) -> Verdict<()> {
    while pair.tally.calls < calls {
        let own = random.below(254) as u8;
        let limits = limits::two(random, |random| random.between_u32(100, 4_000));
        let mut clock = Clock { limits, last: random.u32() };
        pair.open(own, limits, clock.last)?;
        let first = random.below(16);
        let lines = random.pick(&[2, 6, 8, 9, 10]);
        let mut originators: Vec<Originator> =
            (0..lines).map(|i| Originator::new(random, line_of(own, first, i))).collect();
        for _ in 0..400 {
            let is_full = originators.iter().filter(|originator| originator.silence.is_some()).count() == 8;
            originators[random.below(lines)].turn(pair, random, clock, is_full)?;
            if random.once_in(5) {
                let open: Vec<Silence> = originators.iter().filter_map(|originator| originator.silence).collect();
                clock.last = clock.last.wrapping_add(passed(random, &open, clock));
                reading(pair, &mut originators, clock.last)?;
            }
        }
    }
    let missing = repeats::missing(&pair.tally.repeats);
    expect(missing.is_empty(), || format!("never came up: {}", missing.join(", ")))
}

/// Mostly a little; else to where the silence of one that is open has just run out, or has just not.
pub fn passed(random: &mut Random, open: &[Silence], clock: Clock) -> u32 {
    if open.is_empty() || !random.once_in(6) {
        return random.below(limits::shorter(clock.limits) as usize / 3) as u32;
    }
    random.pick(open).slack(clock.last) + u32::from(random.once_in(2))
}

fn reading(pair: &mut Pair, originators: &mut [Originator], reading: u32) -> Verdict<()> {
    let (_, endings) = pair.reading(reading)?;
    for originator in originators {
        if let Some(silence) = originator.silence {
            let goes_on = outlives(&endings, originator.transfer.line, silence, reading)?;
            originator.silence = goes_on.then_some(silence);
        }
    }
    Ok(())
}

/// Whether the session of this line goes on after a reading, as its silence has it.
pub fn outlives(endings: &[Given], line: Line, silence: Silence, reading: u32) -> Verdict<bool> {
    let Line { sa, da, session } = line;
    let has_ended = endings.iter().any(|given| given.number() == 22 && given.0[2..5] == [sa, da, session]);
    let told = || format!("reading {reading}: {sa} {da} {session} ended: {has_ended}, by its reckoning {silence:?}");
    expect(has_ended == silence.has_run_out(reading), told)?;
    Ok(!has_ended)
}

impl Originator {
    fn new(random: &mut Random, line: Line) -> Originator {
        Originator { transfer: Transfer::new(random, line), silence: None, asked: 0 }
    }

    /// Mostly the transfer goes on; where all segments are in, an announcement is as likely as the end.
    fn turn(&mut self, pair: &mut Pair, random: &mut Random, clock: Clock, is_full: bool) -> Verdict<()> {
        if self.silence.is_none() {
            return self.announce(pair, random, clock, is_full);
        }
        let turns = if self.transfer.is_whole() { 8 } else { 24 };
        match random.below(turns) {
            0 | 1 if self.transfer.is_rts => self.restart(pair, random, clock),
            0..=2 => self.key_is_open(pair, random),
            3 => self.bad_form(pair, random),
            4 | 5 if self.transfer.made == 1 => self.end_at_once(pair, random, clock),
            6 => self.bad_segment(pair, random),
            _ => self.go_on(pair, random, clock),
        }
    }

    /// The answer was to a frame that was taken: its silence counts from here.
    fn taken(&mut self, given: &Given, clock: Clock) {
        self.silence = Some(Silence::after(given, clock.last, clock.limits));
    }

    fn announce(&mut self, pair: &mut Pair, random: &mut Random, clock: Clock, is_full: bool) -> Verdict<()> {
        (self.transfer, self.asked) = (Transfer::new(random, self.transfer.line), 0);
        let Frame { id, bytes } = self.transfer.next(random);
        let given = pair.frame(id, &bytes)?;
        let number = given.number();
        expect(number == if is_full { 15 } else { 0 }, || format!("a first announcement was answered by {number}"))?;
        if !is_full {
            self.taken(&given, clock);
        }
        Ok(())
    }

    fn restart(&mut self, pair: &mut Pair, random: &mut Random, clock: Clock) -> Verdict<()> {
        let (slot, store) = (self.slot(pair), pair.store().to_vec());
        (self.transfer, self.asked) = (self.transfer.anew(random), 0);
        let Frame { id, bytes } = self.transfer.next(random);
        let given = pair.frame(id, &bytes)?;
        expect(self.is_cts(&given), || format!("a repeated RTS was answered by {:02X?}", given.0))?;
        expect(self.slot(pair) == slot, || "a repeated RTS has moved its session".into())?;
        expect(pair.store() == store, || "a repeated RTS has changed the store".into())?;
        self.taken(&given, clock);
        Ok(())
    }

    fn slot(&self, pair: &Pair) -> Option<usize> {
        let Line { sa, da, session } = self.transfer.line;
        let key = Key { sa, da, session };
        pair.state()?.slots.iter().position(|slot| slot.is_some_and(|session| session.key == key))
    }

    /// The CTS for what comes after the frames made.
    fn is_cts(&self, given: &Given) -> bool {
        let Transfer { made, max, .. } = self.transfer;
        let count = (self.transfer.segments() + 1 - made).min(16).min(max.into());
        given.is(Code::Grant) && given.word(15) == made && u32::from(given.0[6]) == count
    }

    /// A BAM, of the same PGN or another, or an RTS of another.
    fn key_is_open(&mut self, pair: &mut Pair, random: &mut Random) -> Verdict<()> {
        let mut again = self.transfer.anew(random).announcement();
        if self.transfer.is_rts || random.once_in(3) {
            again.pgn = other_pgn(random, again.pgn);
        }
        self.refused(pair, random, &again, 14)
    }

    fn bad_form(&mut self, pair: &mut Pair, random: &mut Random) -> Verdict<()> {
        let mut again = self.transfer.anew(random).announcement();
        let number = random.pick(&[8, 11, 12, 13]);
        match number {
            8 => again.pgn |= 1 << random.between(18, 23),
            11 if self.transfer.is_rts && random.once_in(2) => again.byte8 = 0,
            11 => again.segments = random.pick(&[0, again.segments - 1, again.segments + 1, again.segments + 0x100]),
            12 => {
                again.total = random.pick(&[4_097, 4_098, 65_536, 0xFF_FFFF]);
                again.segments = again.total.div_ceil(60);
            }
            _ => again.byte9 = random.pick(&[1, 2, 128, 255]),
        }
        self.refused(pair, random, &again, number)
    }

    /// With a format indicator, a number that is 0 or already taken, or too short for the data due.
    fn bad_segment(&self, pair: &mut Pair, random: &mut Random) -> Verdict<()> {
        let next = self.transfer.made;
        let mut frame = self.transfer.segment(random, next);
        let due = self.transfer.message.chunks(60).nth(next as usize - 1).unwrap_or_default().len();
        let too_short: Vec<usize> = CAN_LENGTHS.into_iter().filter(|length| (5..4 + due).contains(length)).collect();
        let number = match random.below(3) {
            0 => {
                frame.bytes[0] |= random.between(1, 15) as u8;
                17
            }
            1 if !too_short.is_empty() => {
                frame.bytes.truncate(random.pick(&too_short));
                20
            }
            _ => {
                frame = self.transfer.segment(random, 1);
                frame.bytes[1] = random.below(next as usize) as u8;
                18
            }
        };
        let given = self.stays(pair, &frame, number)?;
        expect(given.sent().is_none(), || format!("a refused segment was answered by {:02X?}", given.0))
    }

    /// The announcement is refused with this number.
    fn refused(&self, pair: &mut Pair, random: &mut Random, again: &Control, number: u8) -> Verdict<()> {
        let frame = again.frame(random, self.transfer.line);
        let given = self.stays(pair, &frame, number)?;
        let told = || format!("an announcement for an open key was answered by {:02X?}", given.0);
        expect(given.sent().is_some() == self.transfer.is_rts, told)
    }

    /// The frame is refused with this number, and record and store stay.
    fn stays(&self, pair: &mut Pair, Frame { id, bytes }: &Frame, number: u8) -> Verdict<Given> {
        let before = (pair.record().to_vec(), pair.store().to_vec());
        let given = pair.frame(*id, bytes)?;
        let told = || format!("{bytes:02X?}, which is due {number}, was answered by {:02X?}", given.0);
        expect(given.number() == number, told)?;
        let is_same = pair.record() == before.0 && pair.store() == before.1;
        expect(is_same, || format!("refused by {number}, but the record or the store has changed"))?;
        Ok(given)
    }

    /// EOMS with nothing taken since the announcement: an RTS is asked for its segments from 1 on, a broadcast ends.
    fn end_at_once(&mut self, pair: &mut Pair, random: &mut Random, clock: Clock) -> Verdict<()> {
        let Frame { id, bytes } = self.transfer.status().frame(random, self.transfer.line);
        let given = pair.frame(id, &bytes)?;
        let goes_on = self.transfer.is_rts && self.asked < 5;
        let is_right = if goes_on { self.is_cts(&given) } else { given.number() == 21 };
        expect(is_right, || format!("an end with nothing taken was answered by {:02X?}", given.0))?;
        self.asked += 1;
        self.silence = goes_on.then(|| Silence::after(&given, clock.last, clock.limits));
        Ok(())
    }

    fn go_on(&mut self, pair: &mut Pair, random: &mut Random, clock: Clock) -> Verdict<()> {
        let Frame { id, bytes } = self.transfer.next(random);
        let given = pair.frame(id, &bytes)?;
        let is_good = given.number() == 0 && (!given.is(Code::Grant) || self.is_cts(&given));
        expect(is_good, || format!("a frame of a transfer was answered by {:02X?}", given.0))?;
        self.taken(&given, clock);
        if self.transfer.is_over() {
            let message = &self.transfer.message;
            expect(given.is(Code::HandedOver), || "a transfer was not handed over".into())?;
            let is_same = given.word(11) == self.transfer.total() && pair.out(message.len()) == message;
            expect(is_same, || "a message is not what was sent since the latest announcement".into())?;
            self.silence = None;
        }
        Ok(())
    }
}

/// One bit away and in good form: PF stays on its side of 240, and below 240 the low byte stays 0.
fn other_pgn(random: &mut Random, pgn: u32) -> u32 {
    let is_pdu2 = pgn >> 8 & 0xFF >= 240;
    let bits: &[u32] = if is_pdu2 { &[0, 1, 7, 8, 11, 16, 17] } else { &[8, 9, 11, 16, 17] };
    pgn ^ 1 << random.pick(bits)
}

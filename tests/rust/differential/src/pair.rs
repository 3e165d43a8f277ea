//! Both sides of the comparison: each call is made through the rules and through the archive, on buffers that were equal before it, and
//! everything it could have touched is compared after it: number, every lent buffer, and the bytes around each.

/// After a call on both sides: these buffers are the same on both.
macro_rules! same {
    ($pair:ident, $call:expr, $($buffer:ident),*) => {
        $(if let Some(difference) = $pair.rules.$buffer.difference(&$pair.archive.$buffer) {
            return Err(Difference(format!("{}: {} {difference}", $call(), stringify!($buffer))));
        })*
    };
}

mod sending;

use crate::groups::Lists;
use crate::random::Random;
use crate::repeats;
use crate::requests;
use crate::trailers;
use crate::waits;
use rules::calls::{self, Code, ANSWERS_BYTES, ANSWER_BYTES, GROUPS_WORDS, GROUP_WORDS, RECORD_BYTES};
use rules::groups::Group;
use rules::receiver::{Key, Limits, Receiver, STORE_BYTES};
use rules::sender_calls::{self, FRAME_BYTES, SENDER_BYTES, TRANSFER_ANSWERS_BYTES};
use std::fmt::{Debug, Display};

/// Bytes before and behind each lent buffer, which no call may touch.
const GUARD: usize = 64;
const LARGEST: Sizes = Sizes {
    record: 420,
    store: 36_864,
    answer: 80,
    answers: 400,
    groups: 128,
    out: 5_000,
    sender: 160,
    frame: 128,
    transfer_answers: 200,
};

/// How many bytes (or words) of each buffer are lent.
#[derive(Clone, Copy, Debug)]
pub struct Sizes {
    pub record: usize,
    pub store: usize,
    pub answer: usize,
    pub answers: usize,
    pub groups: usize,
    pub out: usize,
    pub sender: usize,
    pub frame: usize,
    pub transfer_answers: usize,
}

pub const RIGHT: Sizes = Sizes {
    record: RECORD_BYTES,
    store: STORE_BYTES,
    answer: ANSWER_BYTES,
    answers: ANSWERS_BYTES,
    groups: GROUPS_WORDS,
    out: 64,
    sender: SENDER_BYTES,
    frame: FRAME_BYTES,
    transfer_answers: TRANSFER_ANSWERS_BYTES,
};

struct Buffer<T> {
    all: Vec<T>,
}

impl<T: Copy + PartialEq + Debug> Buffer<T> {
    fn new(largest: usize, guard: T) -> Buffer<T> {
        Buffer { all: vec![guard; largest + 2 * GUARD] }
    }

    fn lent(&self, size: usize) -> &[T] {
        &self.all[GUARD..GUARD + size]
    }

    fn lent_mut(&mut self, size: usize) -> &mut [T] {
        &mut self.all[GUARD..GUARD + size]
    }

    /// Where the two differ, counted from the start of the lent part.
    fn difference(&self, other: &Buffer<T>) -> Option<String> {
        if self.all == other.all {
            return None;
        }
        let at = self.all.iter().zip(&other.all).position(|(a, b)| a != b)?;
        let place = at as i64 - GUARD as i64;
        Some(format!("at {place}: {:02X?} by the rules, {:02X?} by the archive", self.all[at], other.all[at]))
    }
}

/// The calls of one side.
#[allow(clippy::type_complexity)]
struct Calls {
    least_length: fn(usize) -> usize,
    open: fn(&mut [u8], u8, u32, u32, u32) -> u8,
    frame: fn(&mut [u8], u32, &[u8], &mut [u8], &mut [u8]) -> u8,
    reading: fn(&mut [u8], u32, &[u8], &mut [u8]) -> u8,
    message: fn(&[u8], &[u8], &mut [u8]) -> usize,
    missing: fn(&[u8], u8, u8, u8) -> usize,
    groups: fn(&[u8], &mut [u32]) -> usize,
    pack: fn(&[u8], &[u8], &[u32], &[u8], &[u8], &[u8], &[u8], &mut [u8]) -> usize,
    sender_open: fn(&mut [u8], u8, u32, u32) -> u8,
    announce: fn(&mut [u8], u8, u8, u32, &[u8], &mut [u8], &mut [u8]) -> u8,
    next_frame: fn(&mut [u8], u8, u8, &[u8], &mut [u8], &mut [u8]) -> u8,
    sender_frame: fn(&mut [u8], u32, &[u8], &mut [u8]) -> u8,
    sender_reading: fn(&mut [u8], u32, &mut [u8]) -> u8,
    node_frame: fn(&mut [u8], u32, &[u8], &mut [u8], &mut [u8], &mut [u8]) -> u8,
}

const RULES: Calls = Calls {
    least_length: calls::least_length,
    open: calls::open,
    frame: calls::frame,
    reading: calls::reading,
    message: calls::message,
    missing: calls::missing,
    groups: calls::groups,
    pack: calls::pack,
    sender_open: sender_calls::sender_open,
    announce: sender_calls::announce,
    next_frame: sender_calls::next_frame,
    sender_frame: sender_calls::sender_frame,
    sender_reading: sender_calls::sender_reading,
    node_frame: sender_calls::node_frame,
};

const ARCHIVE: Calls = Calls {
    least_length: boundary::least_length,
    open: boundary::open,
    frame: boundary::frame,
    reading: boundary::reading,
    message: boundary::message,
    missing: boundary::missing,
    groups: boundary::groups,
    pack: boundary::pack,
    sender_open: boundary::sender_open,
    announce: boundary::announce,
    next_frame: boundary::next_frame,
    sender_frame: boundary::sender_frame,
    sender_reading: boundary::sender_reading,
    node_frame: boundary::node_frame,
};

struct Side {
    calls: Calls,
    record: Buffer<u8>,
    store: Buffer<u8>,
    answer: Buffer<u8>,
    answers: Buffer<u8>,
    groups: Buffer<u32>,
    out: Buffer<u8>,
    sender: Buffer<u8>,
    frame: Buffer<u8>,
    transfer_answers: Buffer<u8>,
}

impl Side {
    fn new(calls: Calls) -> Side {
        Side {
            calls,
            record: Buffer::new(LARGEST.record, 0xC1),
            store: Buffer::new(LARGEST.store, 0xC2),
            answer: Buffer::new(LARGEST.answer, 0xC3),
            answers: Buffer::new(LARGEST.answers, 0xC4),
            groups: Buffer::new(LARGEST.groups, 0xC5C5_C5C5),
            out: Buffer::new(LARGEST.out, 0xC6),
            sender: Buffer::new(LARGEST.sender, 0xC7),
            frame: Buffer::new(LARGEST.frame, 0xC8),
            transfer_answers: Buffer::new(LARGEST.transfer_answers, 0xC9),
        }
    }
}

/// The two sides did not do the same, or not what the traffic had to bring.
#[derive(Debug)]
pub struct Difference(pub String);

pub type Verdict<T> = Result<T, Difference>;

pub fn expect(holds: bool, what: impl FnOnce() -> String) -> Verdict<()> {
    if holds {
        Ok(())
    } else {
        Err(Difference(what()))
    }
}

/// What came up.
#[derive(Clone, Default)]
pub struct Tally {
    pub calls: u64,
    /// By number of the refusal; at 0 the calls that refused nothing.
    pub numbers: [u64; 28],
    /// By code of the answer.
    pub codes: [u64; 19],
    /// Frames that an answer says are to be sent.
    pub sent: u64,
    pub messages: u64,
    pub groups: u64,
    /// By form of `repeats`.
    pub repeats: [u64; repeats::NAMES.len()],
    /// By form of `waits`.
    pub waits: [u64; waits::FORMS],
    pub trailers: trailers::Counts,
    pub requests: requests::Counts,
}

impl Tally {
    pub fn add(&mut self, other: &Tally) {
        self.calls += other.calls;
        self.sent += other.sent;
        self.messages += other.messages;
        self.groups += other.groups;
        self.numbers.iter_mut().zip(other.numbers).for_each(|(a, b)| *a += b);
        self.codes.iter_mut().zip(other.codes).for_each(|(a, b)| *a += b);
        self.repeats.iter_mut().zip(other.repeats).for_each(|(a, b)| *a += b);
        self.waits.iter_mut().zip(other.waits).for_each(|(a, b)| *a += b);
        for (&form, count) in &other.trailers {
            *self.trailers.entry(form).or_default() += count;
        }
        for (&form, count) in &other.requests {
            *self.requests.entry(form).or_default() += count;
        }
    }
}

pub struct Pair {
    rules: Side,
    archive: Side,
    /// The sizes that the next call lends.
    pub sizes: Sizes,
    pub tally: Tally,
    watch: Watch,
    noise: u8,
}

/// What is seen of the sessions beside their record.
#[derive(Default)]
struct Watch {
    repeats: repeats::Watch,
    requests: requests::Watch,
}

/// The bytes of an answer, as the archive wrote them.
#[derive(Clone, Copy)]
pub struct Given(pub [u8; ANSWER_BYTES]);

impl Given {
    pub fn number(&self) -> u8 {
        self.0[0]
    }

    pub fn code(&self) -> u8 {
        self.0[1]
    }

    pub fn word(&self, at: usize) -> u32 {
        u32::from_le_bytes([self.0[at], self.0[at + 1], self.0[at + 2], self.0[at + 3]])
    }

    pub fn is(&self, code: Code) -> bool {
        self.code() == code as u8
    }

    /// Identifier and bytes of the frame to be sent.
    pub fn sent(&self) -> Option<(u32, &[u8])> {
        (self.0[19] == 1).then(|| (self.word(20), &self.0[24..]))
    }
}

fn hex(bytes: &[u8]) -> String {
    bytes.iter().map(|byte| format!("{byte:02X}")).collect()
}

impl Pair {
    /// Nothing opened yet; the stores hold the same random bytes.
    pub fn new(random: &mut Random) -> Pair {
        let (rules, archive) = (Side::new(RULES), Side::new(ARCHIVE));
        let (tally, watch) = (Tally::default(), Watch::default());
        let mut pair = Pair { rules, archive, sizes: RIGHT, tally, watch, noise: 0 };
        pair.fill_store(random);
        pair
    }

    pub fn fill_store(&mut self, random: &mut Random) {
        random.fill(self.rules.store.lent_mut(LARGEST.store));
        self.archive.store.all.clone_from(&self.rules.store.all);
    }

    pub fn set_record(&mut self, bytes: &[u8; RECORD_BYTES]) {
        self.watch = Watch::default();
        self.rules.record.lent_mut(RECORD_BYTES).copy_from_slice(bytes);
        self.archive.record.lent_mut(RECORD_BYTES).copy_from_slice(bytes);
    }

    pub fn record(&self) -> &[u8] {
        self.archive.record.lent(RECORD_BYTES)
    }

    pub fn store(&self) -> &[u8] {
        self.archive.store.lent(STORE_BYTES)
    }

    /// The state that the record stands for.
    pub fn state(&self) -> Option<Receiver> {
        calls::read_record(self.record())
    }

    /// One group of the last `groups`.
    pub fn group(&self, i: usize) -> Group {
        calls::read_group(&self.archive.groups.lent(GROUPS_WORDS)[GROUP_WORDS * i..])
    }

    /// The first bytes of the output of the last `pack` or `message`.
    pub fn out(&self, length: usize) -> &[u8] {
        self.archive.out.lent(length)
    }

    /// A value for what a call is to overwrite, another one each time.
    fn next_noise(&mut self) -> u8 {
        self.noise = self.noise.wrapping_mul(5).wrapping_add(3);
        self.noise
    }

    /// Makes a call on both sides: what both returned.
    fn both<N>(&mut self, name: impl Fn() -> String, mut call: impl FnMut(&mut Side) -> N) -> Verdict<N>
    where
        N: Copy + PartialEq + Display,
    {
        let (by_rules, by_archive) = (call(&mut self.rules), call(&mut self.archive));
        self.tally.calls += 1;
        let told = || format!("{}: {by_rules} by the rules, {by_archive} by the archive", name());
        expect(by_rules == by_archive, told)?;
        Ok(by_archive)
    }

    /// 01: a call that does not refuse with 23 leaves a record in bounds with the same opening values, its first nine bytes.
    fn stays_in_bounds(&self, name: impl Fn() -> String, before: &[u8], number: u8) -> Verdict<()> {
        let in_bounds = || self.state().is_some_and(|state| state.in_bounds());
        let holds = number == 23 || (in_bounds() && self.record()[..9] == before[..9]);
        expect(holds, || format!("{}: the next record is out of bounds", name()))
    }

    fn count(&mut self, given: &Given) {
        self.tally.codes[usize::from(given.code())] += 1;
        self.tally.sent += u64::from(given.0[19]);
    }

    /// What a frame brought on this record.
    fn count_frame(&mut self, record: &[u8], id: u32, bytes: &[u8], given: &Given) {
        let Some(before) = calls::read_record(record) else {
            return;
        };
        for form in self.watch.repeats.frame(&before, id, bytes, given) {
            self.tally.repeats[form as usize] += 1;
        }
        let forms = self.watch.requests.frame(&before, id, bytes, given);
        self.count_requests(forms);
    }

    /// What a reading brought on this record.
    fn count_reading(&mut self, record: &[u8], reading: u32, given: &[Given]) {
        let Some(before) = calls::read_record(record) else {
            return;
        };
        for form in self.watch.repeats.reading(&before, reading, given) {
            self.tally.repeats[form as usize] += 1;
        }
        for form in waits::forms(&before, reading, given) {
            self.tally.waits[form] += 1;
        }
        self.count_requests(self.watch.requests.reading(&before, reading, given));
    }

    pub fn count_requests(&mut self, forms: Vec<requests::Form>) {
        for form in forms {
            *self.tally.requests.entry(form).or_default() += 1;
        }
    }

    fn count_trailers(&mut self, forms: Vec<trailers::Form>) {
        for form in forms {
            *self.tally.trailers.entry(form).or_default() += 1;
        }
    }

    pub fn least_length(&mut self, need: usize) -> Verdict<usize> {
        self.both(|| format!("least length for {need}"), |side| (side.calls.least_length)(need))
    }

    pub fn open(&mut self, own: u8, limits: Limits, reading: u32) -> Verdict<u8> {
        let (size, Limits { first, second }) = (self.sizes.record, limits);
        let name = || format!("open of {size} bytes with {own}, {first}, {second}, {reading}");
        let number =
            self.both(name, |side| (side.calls.open)(side.record.lent_mut(size), own, first, second, reading))?;
        same!(self, name, record);
        self.tally.numbers[usize::from(number)] += 1;
        Ok(number)
    }

    /// None where the answer's buffer is of another size.
    pub fn frame_raw(&mut self, id: u32, bytes: &[u8]) -> Verdict<Option<Given>> {
        let (sizes, noise) = (self.sizes, self.next_noise());
        let record = self.record().to_vec();
        let name = || format!("frame {id:08X} {} on record {}, {sizes:?}", hex(bytes), hex(&record));
        let lent = bytes.to_vec();
        let number = self.both(name, |side| {
            side.answer.lent_mut(LARGEST.answer).fill(noise);
            let record = side.record.lent_mut(sizes.record);
            let store = side.store.lent_mut(sizes.store);
            (side.calls.frame)(record, id, &lent, store, side.answer.lent_mut(sizes.answer))
        })?;
        same!(self, name, answer, record, store);
        expect(lent == bytes, || format!("{}: wrote into the frame", name()))?;
        self.stays_in_bounds(name, &record, number)?;
        self.tally.numbers[usize::from(number)] += 1;
        let Ok(given) = self.archive.answer.lent(sizes.answer).try_into().map(Given) else {
            return Ok(None);
        };
        self.count(&given);
        self.count_frame(&record, id, bytes, &given);
        Ok(Some(given))
    }

    /// A frame with all that belongs to its answer: the groups it carries, the message it hands over.
    pub fn frame(&mut self, id: u32, bytes: &[u8]) -> Verdict<Given> {
        let given = self.frame_raw(id, bytes)?.ok_or_else(|| Difference("no answer was lent".into()))?;
        self.what_belongs_to(&given, bytes)?;
        Ok(given)
    }

    fn what_belongs_to(&mut self, given: &Given, bytes: &[u8]) -> Verdict<()> {
        if given.is(Code::Groups) {
            let count = self.groups(bytes)?;
            expect(count <= 16, || format!("frame {} was taken, its groups were not", hex(bytes)))?;
        }
        if given.is(Code::HandedOver) {
            let length = given.word(11) as usize;
            self.message_within(&given.0, length - 1)?;
            let copied = self.message_within(&given.0, length + usize::from(self.noise) % 3)?;
            expect(copied == length, || format!("of {length} bytes handed over, {copied} were copied"))?;
            self.tally.messages += 1;
        }
        Ok(())
    }

    /// The number, and the eight answers where they were lent whole.
    pub fn reading(&mut self, reading: u32) -> Verdict<(u8, Vec<Given>)> {
        let (sizes, noise) = (self.sizes, self.next_noise());
        let record = self.record().to_vec();
        let name = || format!("reading {reading} on record {}, {sizes:?}", hex(&record));
        let number = self.both(name, |side| {
            side.answers.lent_mut(LARGEST.answers).fill(noise);
            let record = side.record.lent_mut(sizes.record);
            (side.calls.reading)(record, reading, side.store.lent(sizes.store), side.answers.lent_mut(sizes.answers))
        })?;
        same!(self, name, answers, record, store);
        self.stays_in_bounds(name, &record, number)?;
        self.tally.numbers[usize::from(number)] += 1;
        if sizes.answers != ANSWERS_BYTES {
            return Ok((number, vec![]));
        }
        let answers = self.archive.answers.lent(ANSWERS_BYTES).chunks_exact(ANSWER_BYTES);
        let given: Vec<Given> = answers.map(|bytes| Given(bytes.try_into().expect("36 bytes each"))).collect();
        for ending in given.iter().filter(|ending| ending.code() != 0) {
            self.tally.numbers[usize::from(ending.number())] += 1;
            self.count(ending);
        }
        if number == 0 {
            self.count_reading(&record, reading, &given);
        }
        Ok((number, given))
    }

    /// How many segments of a key's session are not in, or 256 times the number of the refusal.
    pub fn missing(&mut self, key: Key) -> Verdict<usize> {
        let (size, Key { sa, da, session }) = (self.sizes.record, key);
        let record = self.record().to_vec();
        let name = || format!("missing of {sa} {da} {session} in {size} bytes of record {}", hex(&record));
        let missing = self.both(name, |side| (side.calls.missing)(side.record.lent(size), sa, da, session))?;
        same!(self, name, record);
        self.tally.numbers[missing >> 8] += 1;
        self.count_requests(requests::of_missing(self.state().as_ref(), key, missing));
        Ok(missing)
    }

    fn message_within(&mut self, answer: &[u8], room: usize) -> Verdict<usize> {
        let sizes = self.sizes;
        self.sizes.out = room;
        let copied = self.message(answer);
        self.sizes = sizes;
        copied
    }

    pub fn message(&mut self, answer: &[u8]) -> Verdict<usize> {
        let (sizes, noise) = (self.sizes, self.next_noise());
        let name = || format!("message of {}, {sizes:?}", hex(answer));
        let length = self.both(name, |side| {
            side.out.lent_mut(LARGEST.out).fill(noise);
            (side.calls.message)(answer, side.store.lent(sizes.store), side.out.lent_mut(sizes.out))
        })?;
        same!(self, name, out, store);
        Ok(length)
    }

    /// How many, or 256 times the number of the refusal.
    pub fn groups(&mut self, bytes: &[u8]) -> Verdict<usize> {
        let (sizes, noise) = (self.sizes, self.next_noise());
        let name = || format!("groups of {}, {sizes:?}", hex(bytes));
        let count = self.both(name, |side| {
            side.groups.lent_mut(LARGEST.groups).fill(u32::from(noise) * 0x0101_0101);
            (side.calls.groups)(bytes, side.groups.lent_mut(sizes.groups))
        })?;
        same!(self, name, groups);
        self.tally.numbers[count >> 8] += 1;
        self.tally.groups += count as u64 & 0xFF;
        self.count_trailers(trailers::of_frame(bytes, (count >> 8) as u8));
        Ok(count)
    }

    /// The frame's length, or 256 times the number of the refusal.
    pub fn pack(&mut self, lists: &Lists) -> Verdict<usize> {
        let (sizes, noise) = (self.sizes, self.next_noise());
        let name = || format!("pack of {lists:?}, {sizes:?}");
        let lent = lists.clone();
        let length = self.both(name, |side| {
            side.out.lent_mut(LARGEST.out).fill(noise);
            let Lists { services, formats, pgns, lengths, trailer_lengths, data, trailers } = &lent;
            let out = side.out.lent_mut(sizes.out);
            (side.calls.pack)(services, formats, pgns, lengths, trailer_lengths, data, trailers, out)
        })?;
        same!(self, name, out);
        expect(lent == *lists, || format!("{}: wrote into a list", name()))?;
        self.tally.numbers[length >> 8] += 1;
        self.count_trailers(trailers::of_request(lists, sizes.out, (length >> 8) as u8));
        Ok(length)
    }
}

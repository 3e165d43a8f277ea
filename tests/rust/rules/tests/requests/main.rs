//! 02 E6, sentence by sentence through the calls. In session 3 the address 128 sends a message by RTS: what it does is written in steps,
//! and what it is told beside them, word by word.
//!
//! A step is `5` for segment 5, `e` for the EOMS as announced, `x` for one that is not, `r` for the RTS once more, `t750` for a reading of
//! 750. Told is `.` for a segment taken without CTS, `4+2` for a CTS of two segments from 4 on, `msg` for the message handed over with its
//! EOMA, `A21/5` for the Abort of a refusal with its wire reason, and the number of a refusal that changes nothing. A reading is told `.`
//! where nothing ended.

mod asking;
mod bounds;
mod broadcast;
mod bytes;
mod missing;
mod taking;

use rules::calls::{self, read_record, Code, ANSWERS_BYTES, ANSWER_BYTES, RECORD_BYTES};
use rules::receiver::{SLOT_BYTES, STORE_BYTES};

const OWN: u8 = 33;
/// From 128 to us.
const CONTROL: u32 = 0x1C4D_2180;
const DATA: u32 = 0x1C4E_2180;
/// The limits of the two waits.
const LIMITS: (u32, u32) = (1_250, 750);
/// What stands in the store before any segment, and behind a segment in its frame.
const FORMER: u8 = 0xEE;
const PADDING: u8 = 0x5C;
/// Slot 0 in the record, and in it last granted, the record of segments, the number missing and the requests made.
const SLOT: usize = 13;
const GRANTED: usize = SLOT + 22;
const TAKEN: usize = SLOT + 31;
const MISSING: usize = SLOT + 40;
const REQUESTS: usize = SLOT + 44;
const NEXT_SLOT: usize = SLOT + 45;

fn hex(text: &str) -> Vec<u8> {
    text.split_whitespace().map(|byte| u8::from_str_radix(byte, 16).expect("hex")).collect()
}

/// An RTS's transfer at a receiver: equal where every byte of the record and the store is.
#[derive(Clone, Debug, PartialEq, Eq)]
struct Bench {
    record: Vec<u8>,
    store: Vec<u8>,
    message: Vec<u8>,
    max: u8,
    /// The segments taken since the latest RTS, in order of arrival.
    taken: Vec<u32>,
}

impl Bench {
    /// So many segments, the last of them of one byte, and nothing announced yet.
    fn idle(segments: u32, max: u8) -> Bench {
        let mut record = vec![0x77; RECORD_BYTES];
        assert_eq!(calls::open(&mut record, OWN, LIMITS.0, LIMITS.1, 0), 0);
        let message = (0..60 * (segments - 1) + 1).map(|i| (i * 7 + i / 60) as u8).collect();
        Bench { record, store: vec![FORMER; STORE_BYTES], message, max, taken: vec![] }
    }

    /// The same with the RTS accepted.
    fn new(segments: u32, max: u8) -> Bench {
        let mut bench = Bench::idle(segments, max);
        let granted = segments.min(16).min(max.into());
        assert_eq!(bench.step("r"), format!("1+{granted}"));
        bench
    }

    /// The same after these steps, none of which is refused.
    fn after(segments: u32, max: u8, steps: &str) -> Bench {
        let mut bench = Bench::new(segments, max);
        for told in bench.steps(steps).split_whitespace() {
            assert!(told.parse::<u8>().is_err() && !told.starts_with('A'), "{steps}: {told}");
        }
        bench
    }

    fn segments(&self) -> u32 {
        self.message.len().div_ceil(60) as u32
    }

    fn control(&self, control: u8, byte8: u8) -> Vec<u8> {
        let [t, s] = [self.message.len() as u32, self.segments()].map(u32::to_le_bytes);
        [&[0x30 | control][..], &t[..3], &s[..3], &[byte8, 0], &[0xCA, 0xFE, 0]].concat()
    }

    /// A data frame of 64 bytes.
    fn segment(&self, n: u32) -> Vec<u8> {
        let due = self.message.chunks(60).nth(n.wrapping_sub(1) as usize).unwrap_or_default();
        let mut bytes = [&[0x30], &n.to_le_bytes()[..3], due].concat();
        bytes.resize(64, PADDING);
        bytes
    }

    fn frame(&mut self, id: u32, bytes: &[u8]) -> [u8; ANSWER_BYTES] {
        let mut answer = [0x77; ANSWER_BYTES];
        let number = calls::frame(&mut self.record, id, bytes, &mut self.store, &mut answer);
        assert_eq!(answer[0], number);
        answer
    }

    fn reading(&mut self, reading: u32) -> String {
        let mut answers = [0x77; ANSWERS_BYTES];
        assert_eq!(calls::reading(&mut self.record, reading, &self.store, &mut answers), 0);
        assert!(answers[ANSWER_BYTES..].iter().all(|&byte| byte == 0));
        if answers[1] == 0 {
            ".".into()
        } else {
            told(&answers[..ANSWER_BYTES])
        }
    }

    fn step(&mut self, step: &str) -> String {
        if let Some(reading) = step.strip_prefix('t') {
            return self.reading(reading.parse().expect("a reading"));
        }
        let (before, store) = (self.record.clone(), self.store.clone());
        let (id, bytes) = match step {
            "r" => (CONTROL, self.control(0, self.max)),
            "e" => (CONTROL, self.control(2, 0)),
            "x" => (CONTROL, [&self.control(2, 0)[..9], &[0xCB, 0xFE, 0]].concat()),
            number => (DATA, self.segment(number.parse().expect("a step"))),
        };
        let answer = self.frame(id, &bytes);
        self.follow(step, &answer, &store);
        if answer[1] == Code::Refused as u8 {
            assert_eq!(self.record, before, "{step}");
        }
        told(&answer)
    }

    /// What each call has to leave, by the bench's own account of what is in.
    fn follow(&mut self, step: &str, answer: &[u8; ANSWER_BYTES], before: &[u8]) {
        let mut due = before.to_vec();
        if step == "r" && answer[0] == 0 {
            self.taken.clear();
        } else if let (Ok(n), true) = (step.parse::<u32>(), answer[0] == 0) {
            let data = self.message.chunks(60).nth(n as usize - 1).expect("in the message");
            let place = 60 * (n as usize - 1);
            due[place..place + data.len()].copy_from_slice(data);
            self.taken.push(n);
        }
        assert!(self.store == due, "{step}: the store");
        let state = read_record(&self.record).expect("a record");
        assert!(state.in_bounds(), "{step}: {state:?}");
        let missing = calls::missing(&self.record, 128, OWN, 3);
        if self.record[SLOT] == 1 {
            assert_eq!(missing, self.segments() as usize - self.taken.len(), "{step}");
            let session = state.slots[0].expect("open");
            assert!((1..=self.segments()).all(|n| session.taken.has(n) == self.taken.contains(&n)), "{step}");
            assert_eq!((session.missing as usize, session.taken.count() as usize), (missing, self.taken.len()));
        } else {
            assert_eq!(missing, 256 * 16, "{step}");
            assert!(self.record[SLOT..].iter().all(|&byte| byte == 0), "{step}");
        }
        if answer[1] == Code::HandedOver as u8 {
            let mut out = [0; SLOT_BYTES];
            let length = calls::message(answer, &self.store, &mut out);
            assert_eq!(out[..length], self.message, "{step}");
        }
    }

    fn steps(&mut self, steps: &str) -> String {
        steps.split_whitespace().map(|step| self.step(step)).collect::<Vec<String>>().join(" ")
    }

    fn requests(&self) -> u8 {
        self.record[REQUESTS]
    }

    fn granted(&self) -> u32 {
        u32::from_le_bytes(self.record[GRANTED..GRANTED + 4].try_into().expect("four bytes"))
    }
}

/// The answer in short.
fn told(answer: &[u8]) -> String {
    let word = |at: usize| u32::from_le_bytes(answer[at..at + 4].try_into().expect("four bytes"));
    let is = |code: Code| answer[1] == code as u8;
    let control = if answer[19] == 1 { Some(answer[24] & 0xF) } else { None };
    if is(Code::Taken) {
        assert_eq!(control, None);
        ".".into()
    } else if is(Code::Grant) {
        assert_eq!((control, &answer[28..32]), (Some(1), &[answer[15], answer[16], answer[17], answer[6]][..]));
        format!("{}+{}", word(15), answer[6])
    } else if is(Code::HandedOver) {
        assert_eq!(control, Some(3));
        "msg".into()
    } else if is(Code::Ended) {
        // Spent requests are told by the wire reason and by the answer alike.
        assert_eq!((control, answer[6]), (Some(15), u8::from(answer[32] == 5)));
        format!("A{}/{}", answer[0], answer[32])
    } else {
        assert!(is(Code::Refused) && control.is_none(), "{answer:?}");
        answer[0].to_string()
    }
}

/// Segments, MAX SGMTS, the steps, and what they are told.
type Case = (u32, u8, &'static str, &'static str);

fn holds(cases: &[Case]) {
    for case in cases {
        let (segments, max, steps, due) = *case;
        assert_eq!(Bench::new(segments, max).steps(steps), due, "{case:?}");
    }
}

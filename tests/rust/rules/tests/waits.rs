//! 02 E4, case by case through the calls: which limit ends a session after what, what leaves its wait alone, and what is 23. In session 3
//! the address 128 sends 130 bytes in three segments, by BAM or by RTS. Its MAX SGMTS is 2: a CTS follows the RTS and segment 2, and an
//! EOMS while segments are missing (02 E6).

use rules::calls::{self, ANSWERS_BYTES, ANSWER_BYTES, RECORD_BYTES};
use rules::receiver::STORE_BYTES;
use rules::sender_calls::{node_frame, sender_open, SENDER_BYTES};
use Step::{Bam, Reading, Rts, Segment, Status, ToAll};

const OWN: u8 = 33;
/// From 128 to us and to all.
const CONTROL: u32 = 0x1C4D_2180;
const DATA: u32 = 0x1C4E_2180;
const CONTROL_TO_ALL: u32 = 0x1C4D_FF80;
const DATA_TO_ALL: u32 = 0x1C4E_FF80;
const RTS: &str = "30 82 00 00 03 00 00 02 00 CA FE 00";
const BAM: &str = "34 82 00 00 03 00 00 FF 00 CA FE 00";
const EOMS: &str = "32 82 00 00 03 00 00 00 00 CA FE 00";
/// Where slot 0 starts in a record, where its wait stands, and where slot 1 starts.
const SLOT_0: usize = 13;
const WAIT_0: usize = 43;
const SLOT_1: usize = 58;

#[derive(Clone, Copy, Debug, PartialEq, Eq)]
enum Step {
    Rts,
    Bam,
    Segment(u8),
    /// A segment of the broadcast.
    ToAll(u8),
    /// The RTS's EOMS.
    Status,
    Reading(u32),
}

fn hex(text: &str) -> Vec<u8> {
    text.split_whitespace().map(|byte| u8::from_str_radix(byte, 16).expect("hex")).collect()
}

/// A whole data frame, of this format indicator.
fn segment(indicator: u8, number: u8) -> Vec<u8> {
    [vec![0x30 | indicator, number, 0, 0], vec![number; 60]].concat()
}

/// Equal where every byte of the record and the store is.
#[derive(Clone, Debug, PartialEq, Eq)]
struct Bench {
    record: Vec<u8>,
    store: Vec<u8>,
}

impl Bench {
    fn open(first: u32, second: u32, reading: u32) -> Bench {
        let mut record = vec![0x77; RECORD_BYTES];
        assert_eq!(calls::open(&mut record, OWN, first, second, reading), 0);
        Bench { record, store: vec![0xEE; STORE_BYTES] }
    }

    /// The same, with these steps made and nothing refused or ended by them.
    fn after(first: u32, second: u32, reading: u32, steps: &[Step]) -> Bench {
        let mut bench = Bench::open(first, second, reading);
        for step in steps {
            match *step {
                Rts => assert_eq!(bench.frame(CONTROL, &hex(RTS)), 0, "{steps:?}"),
                Bam => assert_eq!(bench.frame(CONTROL_TO_ALL, &hex(BAM)), 0, "{steps:?}"),
                Segment(number) => assert_eq!(bench.frame(DATA, &segment(0, number)), 0, "{steps:?}"),
                ToAll(number) => assert_eq!(bench.frame(DATA_TO_ALL, &segment(0, number)), 0, "{steps:?}"),
                Status => assert_eq!(bench.frame(CONTROL, &hex(EOMS)), 0, "{steps:?}"),
                Reading(reading) => assert_eq!(bench.ended(reading), [], "{steps:?}"),
            }
        }
        bench
    }

    /// The number of the answer.
    fn frame(&mut self, id: u32, bytes: &[u8]) -> u8 {
        let mut answer = [0x77; ANSWER_BYTES];
        let number = calls::frame(&mut self.record, id, bytes, &mut self.store, &mut answer);
        assert_eq!(answer[0], number);
        number
    }

    fn answers(&mut self, reading: u32) -> Vec<Vec<u8>> {
        let mut answers = [0x77; ANSWERS_BYTES];
        assert_eq!(calls::reading(&mut self.record, reading, &self.store, &mut answers), 0);
        answers.chunks_exact(ANSWER_BYTES).map(|answer| answer.to_vec()).collect()
    }

    /// The slots whose sessions end at this reading.
    fn ended(&mut self, reading: u32) -> Vec<usize> {
        let answers = self.answers(reading);
        answers.iter().enumerate().filter(|(_, answer)| answer[0] == 22).map(|(slot, _)| slot).collect()
    }

    /// The session in slot 0 outlives the readings before this one, which ends it.
    fn ends_at(&mut self, reading: u32, told: &str) {
        assert_eq!(self.clone().ended(reading), [0], "{told}");
        assert_eq!(self.ended(reading.wrapping_sub(1)), [], "{told}");
        assert_eq!(self.ended(reading), [0], "{told}");
        assert!(self.record[SLOT_0..].iter().all(|&byte| byte == 0), "{told}");
    }

    /// Every call is 23, and nothing is changed by it.
    fn refuses_all(&mut self, told: &str) {
        let before = self.clone();
        let groups = hex("40 EA 00 03 CA FE 00");
        let mut sender = vec![0; SENDER_BYTES];
        assert_eq!(sender_open(&mut sender, OWN, 1_250, 0), 0);
        for (id, bytes) in [
            (CONTROL, hex(RTS)),
            (CONTROL_TO_ALL, hex(BAM)),
            (DATA, segment(0, 1)),
            (DATA_TO_ALL, segment(1, 2)),
            (0x1825_2180, groups),
            (0x3C4D_2180, vec![0; 13]),
        ] {
            assert_eq!(self.frame(id, &bytes), 23, "{told}");
            let mut answer = [0x77; ANSWER_BYTES];
            let number = node_frame(&mut self.record, id, &bytes, &mut self.store, &mut sender, &mut answer);
            assert_eq!((number, &answer[..2]), (23, &[23, 9][..]), "{told}");
        }
        for reading in [0, 1, 750, 100_000, u32::MAX] {
            let mut answers = [0x77; ANSWERS_BYTES];
            assert_eq!(calls::reading(&mut self.record, reading, &self.store, &mut answers), 23, "{told}");
            assert_eq!(answers, [0; ANSWERS_BYTES], "{told}");
        }
        assert!(*self == before, "{told}");
    }
}

/// First and second limit and the reading of the opening; what came then; the wait that the session is in, and the reading that ends it.
type Case = (u32, u32, u32, &'static [Step], u8, u32);

const CASES: [Case; 61] = [
    // The second limit is the shorter.
    (1_250, 750, 0, &[Rts], 1, 1_250),
    (1_250, 750, 0, &[Rts, Segment(1)], 2, 750),
    (1_250, 750, 0, &[Rts, Segment(1), Segment(2)], 1, 1_250),
    (1_250, 750, 0, &[Rts, Segment(1), Segment(2), Segment(3)], 2, 750),
    (1_250, 750, 0, &[Rts, Rts], 1, 1_250),
    (1_250, 750, 0, &[Rts, Segment(1), Rts], 1, 1_250),
    (1_250, 750, 0, &[Rts, Segment(1), Segment(2), Rts], 1, 1_250),
    (1_250, 750, 0, &[Rts, Segment(1), Segment(2), Segment(3), Rts], 1, 1_250),
    (1_250, 750, 0, &[Rts, Segment(1), Rts, Segment(1)], 2, 750),
    (1_250, 750, 0, &[Bam], 2, 750),
    (1_250, 750, 0, &[Bam, ToAll(1)], 2, 750),
    (1_250, 750, 0, &[Bam, ToAll(1), ToAll(2), ToAll(3)], 2, 750),
    // The second limit is the longer.
    (750, 1_250, 0, &[Rts], 1, 750),
    (750, 1_250, 0, &[Rts, Segment(1)], 2, 1_250),
    (750, 1_250, 0, &[Rts, Segment(1), Segment(2)], 1, 750),
    (750, 1_250, 0, &[Rts, Segment(1), Segment(2), Segment(3)], 2, 1_250),
    (750, 1_250, 0, &[Rts, Segment(1), Rts], 1, 750),
    (750, 1_250, 0, &[Rts, Segment(1), Segment(2), Segment(3), Rts], 1, 750),
    (750, 1_250, 0, &[Bam], 2, 1_250),
    (750, 1_250, 0, &[Bam, ToAll(1)], 2, 1_250),
    // Readings between: the silence counts from the one before the latest frame taken.
    (1_250, 750, 0, &[Rts, Reading(1_249), Segment(1)], 2, 1_999),
    (1_250, 750, 0, &[Rts, Segment(1), Reading(749), Segment(2)], 1, 1_999),
    (1_250, 750, 0, &[Rts, Segment(1), Segment(2), Reading(1_249), Segment(3)], 2, 1_999),
    (1_250, 750, 0, &[Rts, Segment(1), Reading(749), Rts], 1, 1_999),
    (1_250, 750, 0, &[Bam, Reading(749), ToAll(1)], 2, 1_499),
    (750, 1_250, 0, &[Rts, Reading(749), Segment(1)], 2, 1_999),
    (750, 1_250, 0, &[Rts, Segment(1), Reading(1_249), Segment(2)], 1, 1_999),
    (750, 1_250, 0, &[Rts, Segment(1), Reading(1_249), Rts], 1, 1_999),
    (750, 1_250, 0, &[Bam, Reading(1_249), ToAll(1)], 2, 2_499),
    // The clock runs round.
    (1_250, 750, 4_294_967_290, &[Rts], 1, 1_244),
    (1_250, 750, 4_294_967_290, &[Rts, Segment(1)], 2, 744),
    (1_250, 750, 4_294_967_290, &[Rts, Segment(1), Segment(2)], 1, 1_244),
    (1_250, 750, 4_294_967_290, &[Bam], 2, 744),
    (750, 1_250, 4_294_967_290, &[Rts], 1, 744),
    (750, 1_250, 4_294_967_290, &[Rts, Segment(1)], 2, 1_244),
    (1_250, 750, 4_294_966_046, &[Rts], 1, 0),
    (1_250, 750, 4_294_966_546, &[Rts, Segment(1)], 2, 0),
    (1_250, 750, 4_294_966_990, &[Rts, Reading(100), Segment(1)], 2, 850),
    // Segments in any order: only the last one granted brings a CTS, also for one that is in.
    (1_250, 750, 0, &[Rts, Segment(3)], 2, 750),
    (1_250, 750, 0, &[Rts, Segment(2)], 1, 1_250),
    (1_250, 750, 0, &[Rts, Segment(3), Segment(2)], 1, 1_250),
    (1_250, 750, 0, &[Rts, Segment(2), Segment(1)], 2, 750),
    (750, 1_250, 0, &[Rts, Segment(3)], 2, 1_250),
    (750, 1_250, 0, &[Rts, Segment(3), Segment(2)], 1, 750),
    // A request starts the first wait from its own mark; after it no segment brings a CTS.
    (1_250, 750, 0, &[Rts, Status], 1, 1_250),
    (1_250, 750, 0, &[Rts, Segment(1), Status], 1, 1_250),
    (1_250, 750, 0, &[Rts, Segment(1), Status, Status], 1, 1_250),
    (1_250, 750, 0, &[Rts, Segment(3), Status, Segment(2)], 2, 750),
    (1_250, 750, 0, &[Rts, Segment(1), Status, Rts], 1, 1_250),
    (1_250, 750, 0, &[Rts, Segment(1), Reading(749), Status], 1, 1_999),
    (1_250, 750, 0, &[Rts, Segment(1), Reading(749), Status, Reading(1_998), Segment(2)], 2, 2_748),
    (1_250, 750, 0, &[Rts, Reading(1_249), Status, Reading(2_498), Status], 1, 3_748),
    (1_250, 750, 4_294_967_290, &[Rts, Segment(3), Status], 1, 1_244),
    (750, 1_250, 0, &[Rts, Segment(1), Status], 1, 750),
    (750, 1_250, 0, &[Rts, Segment(3), Status, Segment(2)], 2, 1_250),
    (750, 1_250, 0, &[Rts, Segment(1), Reading(1_249), Status], 1, 1_999),
    // The least limit and the largest.
    (60_000, 1, 0, &[Rts], 1, 60_000),
    (60_000, 1, 0, &[Rts, Segment(1)], 2, 1),
    (60_000, 1, 0, &[Bam], 2, 1),
    (1, 60_000, 0, &[Rts], 1, 1),
    (1, 60_000, 0, &[Rts, Segment(1)], 2, 60_000),
];

#[test]
fn the_limit_in_force() {
    for case in CASES {
        let (first, second, start, steps, wait, ends) = case;
        let mut bench = Bench::after(first, second, start, steps);
        assert_eq!(bench.record[WAIT_0], wait, "{case:?}");
        bench.ends_at(ends, &format!("{case:?}"));
    }
}

/// Each way into a wait, with the first segment that is not in.
const WAYS: [(&[Step], u8, u8); 11] = [
    (&[Rts], 1, 1),
    (&[Rts, Segment(1)], 2, 2),
    (&[Rts, Segment(1), Segment(2)], 1, 3),
    (&[Rts, Segment(1), Segment(2), Segment(3)], 2, 4),
    (&[Rts, Segment(1), Rts], 1, 1),
    (&[Rts, Segment(3)], 2, 1),
    (&[Rts, Segment(1), Status], 1, 2),
    (&[Rts, Segment(3), Segment(1), Status, Segment(2)], 2, 4),
    (&[Bam], 2, 1),
    (&[Bam, ToAll(1)], 2, 2),
    (&[Bam, ToAll(1), ToAll(2), ToAll(3)], 2, 4),
];

fn limit_of(first: u32, second: u32, wait: u8) -> u32 {
    if wait == 1 {
        first
    } else {
        second
    }
}

#[test]
fn every_pair_of_limits() {
    const LIMITS: [u32; 8] = [1, 2, 749, 750, 751, 1_250, 59_999, 60_000];
    for first in LIMITS {
        for second in LIMITS {
            for start in [0, 1_000_000, 1 << 31, u32::MAX - 5, u32::MAX] {
                for (steps, wait, _) in WAYS {
                    let ends = start.wrapping_add(limit_of(first, second, wait));
                    let told = format!("{first} {second} {start} {steps:?}");
                    Bench::after(first, second, start, steps).ends_at(ends, &told);
                }
            }
        }
    }
}

/// By the same difference, whatever the limit.
#[test]
fn a_clock_set_back_ends_either_wait() {
    for (first, second) in [(1_250, 750), (750, 1_250), (60_000, 60_000)] {
        for (steps, _, _) in WAYS {
            let bench = Bench::after(first, second, 1_000, steps);
            assert_eq!(bench.clone().ended(1_000), [], "{steps:?}");
            assert_eq!(bench.clone().ended(999), [0], "{steps:?}");
            assert_eq!(bench.clone().ended(3_000_000_000), [0], "{steps:?}");
        }
    }
}

/// In slot 0 an RTS in the first wait, in slot 1 the broadcast, in slot 2 another RTS in the second wait.
#[test]
fn each_by_its_own_wait() {
    for (first, second, readings) in [
        (1_250, 750, [(749, vec![]), (750, vec![1, 2]), (1_249, vec![]), (1_250, vec![0])]),
        (750, 1_250, [(749, vec![]), (750, vec![0]), (1_249, vec![]), (1_250, vec![1, 2])]),
        (750, 750, [(748, vec![]), (749, vec![]), (750, vec![0, 1, 2]), (751, vec![])]),
    ] {
        let mut bench = Bench::after(first, second, 0, &[Rts, Bam]);
        let (mut other, mut data) = (hex(RTS), segment(0, 1));
        (other[0], data[0]) = (0x40, 0x40);
        assert_eq!((bench.frame(CONTROL, &other), bench.frame(DATA, &data)), (0, 0));
        for (reading, ended) in readings {
            assert_eq!(bench.ended(reading), ended, "{first} {second} {reading}");
        }
    }
}

#[test]
fn what_an_ending_says() {
    let rts =
        "16 07 80 21 03 01 00 CA FE 00 00 00 00 00 00 00 00 00 00 01 21 80 4D 1C 3F FF FF FF FF FF FF FD 03 CA FE 00";
    let bam = format!("16 07 80 FF 03 02 00 CA FE 00 00{}", " 00".repeat(25));
    for (first, second) in [(1_250, 750), (750, 1_250)] {
        for (steps, wait, _) in WAYS {
            let answers = Bench::after(first, second, 0, steps).answers(limit_of(first, second, wait));
            let due = if steps[0] == Bam { &bam } else { rts };
            assert_eq!(answers[0], hex(due), "{first} {second} {steps:?}");
            assert!(answers[1..].iter().flatten().all(|&byte| byte == 0));
        }
    }
}

/// Data frames for a session whose next segment is this one, each with the number that refuses it.
fn refused_segments(next: u8) -> Vec<(u8, Vec<u8>)> {
    let mut refused: Vec<(u8, Vec<u8>)> = (1..=15).map(|indicator| (17, segment(indicator, next))).collect();
    refused.extend((0..next).map(|number| (18, segment(0, number))));
    refused.extend((0..next).map(|number| (18, segment(0, number)[..5].to_vec())));
    if next <= 3 {
        refused.extend([5, 8, 12].map(|length| (20, segment(0, next)[..length].to_vec())));
    }
    refused
}

#[test]
fn a_refused_segment_changes_nothing() {
    for (first, second) in [(1_250, 750), (750, 1_250)] {
        for (steps, wait, next) in WAYS {
            let mut bench = Bench::after(first, second, 0, steps);
            assert_eq!(bench.ended(500), []);
            let before = bench.clone();
            let id = if steps[0] == Bam { DATA_TO_ALL } else { DATA };
            for (number, bytes) in refused_segments(next) {
                assert_eq!(bench.frame(id, &bytes), number, "{steps:?} {bytes:02X?}");
                assert!(bench == before, "{steps:?} {bytes:02X?}");
            }
            bench.ends_at(limit_of(first, second, wait), &format!("{first} {second} {steps:?}"));
        }
    }
}

/// Of another PGN, with segments that are not Total Bytes', with assurance data, with a PGN above 18 bits.
#[test]
fn a_refused_announcement_changes_nothing() {
    for (first, second) in [(1_250, 750), (750, 1_250)] {
        for (steps, wait, _) in WAYS {
            let mut bench = Bench::after(first, second, 0, steps);
            assert_eq!(bench.ended(500), []);
            let before = bench.clone();
            let (id, announced) = if steps[0] == Bam { (CONTROL_TO_ALL, hex(BAM)) } else { (CONTROL, hex(RTS)) };
            for (place, byte, number) in [(9, 0xCB, 14), (4, 4, 11), (8, 1, 13), (11, 4, 8)] {
                let mut again = announced.clone();
                again[place] = byte;
                assert_eq!(bench.frame(id, &again), number, "{steps:?} {again:02X?}");
                assert!(bench == before, "{steps:?} {again:02X?}");
            }
            bench.ends_at(limit_of(first, second, wait), &format!("{first} {second} {steps:?}"));
        }
    }
}

/// Head, and slot 0 up to its wait; the number missing is behind it, and zeros are in the other slots.
fn record_is(bench: &Bench, head: &str, slot: &str, taken: u8, missing: u8) {
    assert_eq!(bench.record.len(), RECORD_BYTES);
    assert_eq!(bench.record[..SLOT_0], hex(head));
    assert_eq!(bench.record[SLOT_0..=WAIT_0], hex(slot));
    let behind = [&[taken, 0, 0, 0, 0, 0, 0, 0, 0][..], &[missing, 0, 0, 0], &[0]].concat();
    assert_eq!(bench.record[WAIT_0 + 1..SLOT_1], behind);
    assert!(bench.record[SLOT_1..].iter().all(|&byte| byte == 0));
}

#[test]
fn the_records_bytes() {
    let head = "21 E2 04 00 00 EE 02 00 00 FA FF FF FF";
    for (steps, slot, taken, missing) in [
        (
            &[Rts][..],
            "01 01 80 21 03 82 00 00 00 03 00 00 00 02 CA FE 00 00 00 00 00 00 02 00 00 00 FA FF FF FF 01",
            0,
            3,
        ),
        (
            &[Rts, Segment(1)],
            "01 01 80 21 03 82 00 00 00 03 00 00 00 02 CA FE 00 00 00 00 00 00 02 00 00 00 FA FF FF FF 02",
            1,
            2,
        ),
        (&[Bam], "01 02 80 FF 03 82 00 00 00 03 00 00 00 FF CA FE 00 00 01 00 00 00 00 00 00 00 FA FF FF FF 02", 0, 0),
    ] {
        record_is(&Bench::after(1_250, 750, 4_294_967_290, steps), head, slot, taken, missing);
    }
    let later =
        Bench::after(60_000, 1, 0, &[Rts, Segment(1), Segment(2), Segment(3), Reading(0), Rts, Reading(59_999)]);
    let slot = "01 01 80 21 03 82 00 00 00 03 00 00 00 02 CA FE 00 00 00 00 00 00 02 00 00 00 00 00 00 00 01";
    record_is(&later, "21 60 EA 00 00 01 00 00 00 5F EA 00 00", slot, 0, 3);
}

#[test]
fn openings() {
    for (own, first, second, number) in [
        (OWN, 0, 750, 23),
        (OWN, 1_250, 0, 23),
        (OWN, 60_001, 750, 23),
        (OWN, 1_250, 60_001, 23),
        (OWN, 0, 0, 23),
        (OWN, 60_001, 60_001, 23),
        (OWN, u32::MAX, 750, 23),
        (OWN, 1_250, u32::MAX, 23),
        (OWN, 1_250, 65_536, 23),
        (254, 1_250, 750, 23),
        (255, 1_250, 750, 23),
        (OWN, 1, 1, 0),
        (OWN, 1, 60_000, 0),
        (OWN, 60_000, 1, 0),
        (OWN, 60_000, 60_000, 0),
        (0, 1_250, 750, 0),
        (253, 750, 1_250, 0),
    ] {
        let told = format!("{own} {first} {second}");
        let mut bench = Bench { record: vec![0x77; RECORD_BYTES], store: vec![0xEE; STORE_BYTES] };
        assert_eq!(calls::open(&mut bench.record, own, first, second, 5), number, "{told}");
        let head = [&[own][..], &first.to_le_bytes(), &second.to_le_bytes(), &[5, 0, 0, 0]].concat();
        assert_eq!(bench.record, [head, vec![0; RECORD_BYTES - SLOT_0]].concat(), "{told}");
        if number == 0 {
            assert_eq!(bench.ended(4), [], "{told}");
        } else {
            bench.refuses_all(&told);
        }
    }
}

#[test]
fn an_opening_of_other_lengths() {
    for length in [0, 1, 113, 261, RECORD_BYTES - 1, RECORD_BYTES + 1] {
        let mut record = vec![0x77; length];
        assert_eq!(calls::open(&mut record, OWN, 1_250, 750, 5), 23);
        assert_eq!(record, vec![0x77; length]);
    }
}

/// What a record of an RTS and a BAM session may have as its wait.
#[test]
fn the_byte_of_a_wait() {
    for (steps, _, _) in WAYS {
        for byte in 0..=255 {
            let mut bench = Bench::after(1_250, 750, 0, steps);
            bench.record[WAIT_0] = byte;
            let told = format!("{steps:?} {byte}");
            match (steps[0], byte) {
                (Rts, 1) | (_, 2) => {
                    assert_eq!((bench.clone().frame(CONTROL, &[0; 8]), bench.record[WAIT_0]), (9, byte), "{told}");
                    bench.ends_at(limit_of(1_250, 750, byte), &told);
                }
                _ => bench.refuses_all(&told),
            }
        }
    }
}

/// It has no meaning there, and stays until a session opens.
#[test]
fn the_byte_of_a_wait_in_a_free_slot() {
    for byte in 0..=255 {
        let mut bench = Bench::open(1_250, 750, 0);
        for slot in 0..8 {
            bench.record[WAIT_0 + 45 * slot] = byte;
        }
        assert_eq!(bench.ended(5), []);
        assert_eq!(bench.frame(CONTROL, &hex(RTS)), 0);
        assert_eq!(bench.record[WAIT_0], 1);
        assert!((1..8).all(|slot| bench.record[WAIT_0 + 45 * slot] == byte));
    }
}

/// A limit that a record has out of its bounds.
#[test]
fn a_limit_out_of_bounds() {
    for place in [1, 5] {
        for limit in [0_u32, 60_001, 65_536, u32::MAX] {
            for (steps, _, _) in WAYS {
                let mut bench = Bench::after(1_250, 750, 0, steps);
                bench.record[place..place + 4].copy_from_slice(&limit.to_le_bytes());
                bench.refuses_all(&format!("{place} {limit} {steps:?}"));
            }
        }
    }
}

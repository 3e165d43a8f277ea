//! "State bounds": what of a record is 23, and what is not.

use crate::{Bench, CONTROL, DATA, GRANTED, MISSING, REQUESTS, SLOT, TAKEN};
use rules::calls::{self, read_record, ANSWERS_BYTES};
use rules::sender_calls::{node_frame, sender_open, SENDER_BYTES};

impl Bench {
    fn put(&mut self, place: usize, number: u32) {
        self.record[place..place + 4].copy_from_slice(&number.to_le_bytes());
    }

    fn toggle(&mut self, n: u32) {
        self.record[TAKEN + (n as usize - 1) / 8] ^= 1 << ((n - 1) % 8);
    }

    /// Every call is 23, and none changes anything.
    fn is_out_of_bounds(&self, what: &str) {
        let mut bench = self.clone();
        let segment = bench.segment(1);
        let mut sender = vec![0; SENDER_BYTES];
        assert_eq!(sender_open(&mut sender, crate::OWN, 1_250, 0), 0);
        for (id, bytes) in [
            (DATA, segment),
            (CONTROL, bench.control(2, 0)),
            (CONTROL, bench.control(0, 255)),
            (0x1C4D_2144, bench.control(0, 255)),
            (0x1825_2180, vec![]),
            (0x3C4D_2180, vec![0; 13]),
        ] {
            assert_eq!(bench.frame(id, &bytes)[..2], [23, 9], "{what}");
            let mut answer = [0x77; calls::ANSWER_BYTES];
            let number = node_frame(&mut bench.record, id, &bytes, &mut bench.store, &mut sender, &mut answer);
            assert_eq!((number, &answer[..2]), (23, &[23, 9][..]), "{what}");
        }
        let mut answers = [0x77; ANSWERS_BYTES];
        assert_eq!(calls::reading(&mut bench.record, 5, &bench.store, &mut answers), 23, "{what}");
        assert_eq!(answers, [0; ANSWERS_BYTES], "{what}");
        assert_eq!(calls::missing(&bench.record, 128, crate::OWN, 3), 256 * 23, "{what}");
        assert!(bench == *self, "{what}");
    }

    fn is_in_bounds(&self, what: &str) {
        assert!(read_record(&self.record).is_some_and(|state| state.in_bounds()), "{what}");
        assert_ne!(self.clone().frame(0x1825_2180, &[])[0], 23, "{what}");
    }
}

/// A bit past the segment count, with the number missing as it was and as if the bit counted.
#[test]
fn nothing_past_the_segment_count() {
    for segments in [1, 7, 8, 9, 63, 64, 65, 68, 69] {
        for n in 1..=72 {
            let mut bench = Bench::new(segments, 255);
            bench.toggle(n);
            let what = format!("{segments}: {n}");
            bench.is_out_of_bounds(&what);
            bench.put(MISSING, segments - 1);
            if n <= segments {
                bench.is_in_bounds(&what);
            } else {
                bench.is_out_of_bounds(&what);
            }
        }
    }
}

#[test]
fn the_number_missing() {
    for (segments, steps) in [(1, ""), (1, "1"), (4, ""), (4, "1 3"), (4, "1 2 3 4"), (69, "65 69"), (69, "1 e")] {
        let bench = Bench::after(segments, 255, steps);
        let missing = segments - bench.taken.len() as u32;
        for number in [0, 1, missing.wrapping_sub(1), missing, missing + 1, segments, 69, 70, 0x100 | missing, u32::MAX]
        {
            let mut bench = bench.clone();
            bench.put(MISSING, number);
            let what = format!("{segments}, {steps}: {number}");
            if number == missing {
                bench.is_in_bounds(&what);
            } else {
                bench.is_out_of_bounds(&what);
            }
        }
    }
}

#[test]
fn at_most_five_requests() {
    for byte in 0..=255 {
        for steps in ["", "1 3", "1 2 3 4", "1 e"] {
            let mut bench = Bench::after(4, 255, steps);
            bench.record[REQUESTS] = byte;
            if byte <= 5 {
                bench.is_in_bounds(&format!("{steps}: {byte}"));
            } else {
                bench.is_out_of_bounds(&format!("{steps}: {byte}"));
            }
        }
    }
}

/// "From 1 to the segment count", whatever is in.
#[test]
fn the_last_granted() {
    for (segments, steps) in [(1, ""), (1, "1"), (4, ""), (4, "1 2 3 4"), (4, "4 2"), (69, ""), (69, "1 e")] {
        for granted in [0, 1, 2, 3, 4, 5, 68, 69, 70, 0x101, u32::MAX] {
            let mut bench = Bench::after(segments, 255, steps);
            bench.put(GRANTED, granted);
            let what = format!("{segments}, {steps}: {granted}");
            if (1..=segments).contains(&granted) {
                bench.is_in_bounds(&what);
            } else {
                bench.is_out_of_bounds(&what);
            }
        }
    }
}

/// Either wait goes with any segments and any requests, and what is in the place of next is not judged.
#[test]
fn what_is_free() {
    for steps in ["", "1 3", "1 2 3 4", "1 e", "e e e e e"] {
        for wait in [1, 2] {
            for next in [0, 1, 4, 5, 6, u32::MAX] {
                let mut bench = Bench::after(4, 255, steps);
                bench.record[SLOT + 30] = wait;
                bench.put(SLOT + 18, next);
                bench.is_in_bounds(&format!("{steps}: {wait}, {next}"));
            }
        }
    }
}

/// The record of a session that a repeated RTS makes shorter is emptied: nothing is left past the new end.
#[test]
fn a_shorter_restart() {
    let mut bench = Bench::after(69, 255, "69 65 64 9 8 e");
    bench.message.truncate(61);
    assert_eq!(bench.steps("r 2 1 e"), "1+2 . . msg");
}

/// As made by no call, yet in bounds: last granted at a hole, requests before any EOMS, a grant behind those that are in.
#[test]
fn from_records_made_up() {
    let mut bench = Bench::after(9, 2, "1 5 7");
    bench.put(GRANTED, 3);
    assert_eq!(bench.clone().steps("3"), "4+2");
    assert_eq!(bench.clone().steps("2 4 3"), ". . 4+2");
    bench.put(GRANTED, 9);
    assert_eq!(bench.clone().steps("9"), ".");
    bench.put(GRANTED, 8);
    assert_eq!(bench.clone().steps("8"), "9+1");
    bench.record[REQUESTS] = 1;
    assert_eq!(bench.clone().steps("8 9"), ". .");
    bench.record[REQUESTS] = 5;
    assert_eq!(bench.clone().steps("e"), "A21/5");
    bench.record[REQUESTS] = 4;
    assert_eq!(bench.steps("e e"), "2+2 A21/5");
}

//! "The number still missing is kept for the fitter": the call that tells it.

use crate::{hex, Bench, CONTROL, OWN};
use rules::calls::{self, missing, RECORD_BYTES};

const NOT_OPEN: usize = 256 * 16;
const OUT_OF_BOUNDS: usize = 256 * 23;

fn of(bench: &Bench) -> usize {
    missing(&bench.record, 128, OWN, 3)
}

#[test]
fn of_an_rts() {
    let mut bench = Bench::new(4, 255);
    for (step, due) in [
        ("3", 3),
        ("3", 3),
        ("e", 3),
        ("1", 2),
        ("0", 2),
        ("t5", 2),
        ("e", 2),
        ("4", 1),
        ("2", 0),
        ("r", 4),
        ("2", 3),
        ("e", 3),
        ("x", NOT_OPEN),
    ] {
        bench.step(step);
        assert_eq!(of(&bench), due, "{step}");
    }
    assert_eq!(of(&Bench::new(69, 255)), 69);
    assert_eq!(of(&Bench::after(4, 255, "1 2 3 4 e")), NOT_OPEN);
}

/// Beside the RTS, under the same sender and session number.
#[test]
fn of_a_broadcast() {
    let mut bench = Bench::after(4, 255, "1 3");
    let bam = hex("34 82 00 00 03 00 00 FF 00 CA FE 00");
    assert_eq!(missing(&bench.record, 128, 255, 3), NOT_OPEN);
    assert_eq!(bench.frame(0x1C4D_FF80, &bam)[..2], [0, 2]);
    for n in 1..=4 {
        assert_eq!((missing(&bench.record, 128, 255, 3), of(&bench)), (4 - n as usize, 2));
        let segment = [vec![0x30, n, 0, 0], vec![0; 60]].concat();
        bench.frame(0x1C4E_FF80, &segment);
    }
    assert_eq!((missing(&bench.record, 128, 255, 3), of(&bench)), (NOT_OPEN, 2));
}

/// Every key but those that are open, also such as no session can have.
#[test]
fn of_no_session_is_16() {
    let mut bench = Bench::after(4, 255, "1 3");
    let other = [&[0x50], &bench.control(0, 255)[1..]].concat();
    assert_eq!(bench.frame(CONTROL, &other)[0], 0);
    for sa in 0..=255 {
        for da in 0..=255 {
            for session in [0, 2, 3, 4, 5, 15, 16, 0x13, 0x33, 255] {
                let due = match (sa, da, session) {
                    (128, OWN, 3) => 2,
                    (128, OWN, 5) => 4,
                    _ => NOT_OPEN,
                };
                assert_eq!(missing(&bench.record, sa, da, session), due, "{sa} {da} {session}");
            }
        }
    }
}

/// 23 comes before 16.
#[test]
fn of_no_record_is_23() {
    let bench = Bench::after(4, 255, "1 3");
    for length in [0, 1, 261, RECORD_BYTES - 1] {
        assert_eq!(missing(&bench.record[..length], 128, OWN, 3), OUT_OF_BOUNDS);
        assert_eq!(missing(&bench.record[..length], 0, 0, 0), OUT_OF_BOUNDS);
    }
    assert_eq!(missing(&[&bench.record[..], &[0]].concat(), 128, OWN, 3), OUT_OF_BOUNDS);
    let mut refused = vec![0; RECORD_BYTES];
    assert_eq!(calls::open(&mut refused, OWN, 0, 750, 0), 23);
    assert_eq!(missing(&refused, 128, OWN, 3), OUT_OF_BOUNDS);
    // Another slot out of bounds is enough.
    let mut bench = bench;
    bench.record[crate::NEXT_SLOT] = 1;
    assert_eq!(of(&bench), OUT_OF_BOUNDS);
    bench.record[crate::NEXT_SLOT] = 2;
    assert_eq!(of(&bench), OUT_OF_BOUNDS);
}

#[test]
fn nothing_open() {
    let bench = Bench::idle(4, 255);
    assert_eq!(of(&bench), NOT_OPEN);
}

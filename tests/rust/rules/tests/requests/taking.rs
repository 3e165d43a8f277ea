//! "Accept them in any order within the message", and which segment brings a CTS before the first request.

use crate::{holds, told, Bench, CONTROL, DATA, TAKEN};
use rules::receiver::STORE_BYTES;

#[test]
fn in_any_order() {
    holds(&[
        (4, 255, "1 2 3 4 e", ". . . . msg"),
        (4, 255, "4 3 2 1 e", ". . . . msg"),
        (4, 255, "2 4 1 3 e", ". . . . msg"),
        // 01's step (d), and what comes after it.
        (2, 255, "2", "."),
        (2, 255, "2 1 e", ". . msg"),
        // The last segment first, within the grant or past it.
        (3, 255, "3 1 2 e", ". . . msg"),
        (69, 1, "69", "."),
        (69, 255, "69 68 17", ". . ."),
    ]);
}

/// Every order of up to five segments.
#[test]
fn in_every_order() {
    fn each_order(left: &[u32], order: &mut Vec<u32>, tell: &mut impl FnMut(&[u32])) {
        if left.is_empty() {
            return tell(order);
        }
        for (i, &n) in left.iter().enumerate() {
            order.push(n);
            each_order(&[&left[..i], &left[i + 1..]].concat(), order, tell);
            order.pop();
        }
    }
    for segments in 1..=5 {
        let mut orders = 0;
        let all: Vec<u32> = (1..=segments).collect();
        each_order(&all, &mut Vec::new(), &mut |order| {
            orders += 1;
            let mut bench = Bench::new(segments, 255);
            for n in order {
                assert_eq!(bench.step(&n.to_string()), ".", "{order:?}");
            }
            assert_eq!(bench.step("e"), "msg", "{order:?}");
        });
        assert_eq!(orders, (1..=segments).product::<u32>());
    }
}

/// All 69, one step of so many segments after the other; the bench keeps its own account of the grants.
#[test]
fn the_largest_in_many_orders() {
    for by in 1..69 {
        // 69 is 3 times 23: only steps with no such factor come to every segment.
        if by % 3 == 0 || by % 23 == 0 {
            continue;
        }
        for max in [1, 5, 16, 255] {
            let most = u32::from(max).min(16);
            let (mut bench, mut granted) = (Bench::new(69, max), most);
            for i in 0..69 {
                let n = i * by % 69 + 1;
                let due = if n == granted && n < 69 {
                    let count = most.min(69 - n);
                    granted += count;
                    format!("{}+{count}", n + 1)
                } else {
                    ".".into()
                };
                assert_eq!(bench.step(&n.to_string()), due, "by {by}, MAX {max}, segment {n}");
                assert_eq!(bench.granted(), granted);
            }
            assert_eq!(bench.step("e"), "msg", "by {by}, MAX {max}");
        }
    }
}

#[test]
fn past_the_last_granted_but_in_the_message() {
    holds(&[
        (5, 2, "3 4 5", ". . ."),
        (5, 2, "5 1 2 3 4 e", ". . 3+2 . 5+1 msg"),
        (69, 255, "17 69 65 64", ". . . ."),
        (69, 1, "2 1", ". 2+1"),
    ]);
}

/// "Taking the last granted segment brings the next CTS, for the segments after it, in or not."
#[test]
fn the_last_granted_brings_the_cts() {
    holds(&[
        // By itself, with those before it missing.
        (5, 2, "2", "3+2"),
        (5, 2, "2 4", "3+2 5+1"),
        (5, 2, "2 4 5", "3+2 5+1 ."),
        // For segments that are in.
        (6, 2, "3 4 2", ". . 3+2"),
        (6, 2, "1 2 3 4 5 6 e", ". 3+2 . 5+2 . . msg"),
        (7, 3, "4 5 6 7 1 2 3", ". . . . . . 4+3"),
        // By the old rule: MAX SGMTS, 16, and what is left.
        (40, 255, "16 32 40", "17+16 33+8 ."),
        (40, 17, "16", "17+16"),
        (40, 9, "9 18 27 36", "10+9 19+9 28+9 37+4"),
        (69, 255, "16 32 48 64 69", "17+16 33+16 49+16 65+5 ."),
        (3, 1, "1 2 3", "2+1 3+1 ."),
        // Not by another one, and not where no segments are after it.
        (5, 2, "1 3 4 5", ". . . ."),
        (2, 2, "2 1", ". ."),
        (1, 255, "1 e", ". msg"),
    ]);
}

/// Where the last granted was in when it was granted, no segment brings the next CTS.
#[test]
fn a_granted_segment_that_is_in() {
    holds(&[
        (6, 2, "4 2 3 4 5 6", ". 3+2 . 18 . ."),
        (6, 2, "4 2 3 1 5 6 e", ". 3+2 . . . . msg"),
        (6, 2, "4 2 1 3 e 5 6 e", ". 3+2 . . 5+2 . . msg"),
        // One of the others that were in does not matter.
        (6, 2, "3 2 1 4 5 6 e", ". 3+2 . 5+2 . . msg"),
    ]);
}

#[test]
fn number_0_and_those_in_are_18() {
    holds(&[
        (4, 255, "0", "18"),
        (4, 255, "1 1", ". 18"),
        (4, 255, "4 4 0 3 4 2 2 1", ". 18 18 . 18 . 18 ."),
        (4, 255, "1 2 3 4 1 2 3 4 0 e", ". . . . 18 18 18 18 18 msg"),
        (69, 255, "65 64 69 65 64 69", ". . . 18 18 18"),
        // The last granted taken before brings no CTS again.
        (5, 2, "2 2", "3+2 18"),
        // Asked for, but already in again.
        (3, 255, "1 3 e 2 2 1 e", ". . 2+1 . 18 18 msg"),
    ]);
}

#[test]
fn past_the_last_is_19() {
    for n in [5_u32, 6, 69, 70, 128, 129, 1_000, 0x100, 0x104, 0x1_0001, 0xFF_FFFF] {
        for steps in ["", "1", "4", "1 2 3 4", "4 e", "e e e e e"] {
            let mut bench = Bench::after(4, 255, steps);
            assert_eq!(bench.step(&n.to_string()), "A19/7", "{steps}, {n}");
            assert_eq!(bench.steps("1 e 5"), "16 16 16", "{steps}, {n}");
        }
    }
    holds(&[(69, 255, "70", "A19/7"), (1, 255, "2", "A19/7"), (69, 255, "69 1 73", ". . A19/7")]);
}

/// Of a frame too short for the data due nothing is kept, wherever the segment stands.
#[test]
fn too_short_is_20() {
    for (steps, n) in [("", 3), ("", 1), ("4", 2), ("2 4", 1), ("1 e", 2)] {
        let mut bench = Bench::after(4, 255, steps);
        let before = bench.clone();
        for length in [5, 8, 12, 48] {
            let bytes = bench.segment(n)[..length].to_vec();
            assert_eq!(told(&bench.frame(DATA, &bytes)), "20", "{steps}, {n}, {length}");
            assert!(bench == before);
        }
        // The last has one byte, and five make its frame.
        let bytes = bench.segment(4)[..5].to_vec();
        let due = if steps.contains('4') { "18" } else { "." };
        assert_eq!(told(&bench.frame(DATA, &bytes)), due);
    }
}

/// 17, 16, 18, 19, 20: each has the faults of those after it too.
#[test]
fn in_their_order() {
    let bench = Bench::after(4, 255, "2");
    let tell = |bytes: &[u8]| told(&bench.clone().frame(DATA, bytes));
    assert_eq!(tell(&[0x41, 0, 0, 0, 0]), "17");
    assert_eq!(tell(&[0x40, 0, 0, 0, 0]), "16");
    assert_eq!(tell(&[0x30, 0, 0, 0, 0]), "18");
    assert_eq!(tell(&[0x30, 2, 0, 0, 0]), "18");
    assert_eq!(tell(&[0x30, 5, 0, 0, 0]), "A19/7");
    assert_eq!(tell(&[0x30, 3, 0, 0, 0]), "20");
}

/// A segment of another session, or of the broadcast under the same numbers, is not in here.
#[test]
fn by_key() {
    let mut bench = Bench::after(4, 255, "1 3");
    let before = bench.clone();
    for id in [0x1C4E_2181, 0x1C4E_FF80] {
        let bytes = bench.segment(2);
        assert_eq!(told(&bench.frame(id, &bytes)), "16");
    }
    let mut bytes = bench.segment(2);
    bytes[0] = 0x20;
    assert_eq!(told(&bench.frame(DATA, &bytes)), "16");
    assert!(bench == before);
}

/// A short message after a long one of the same slot: nothing of the former is handed over, nor counted as in.
#[test]
fn nothing_is_left_of_the_former() {
    let mut first = Bench::after(69, 255, "69 65 1 2 3 4 5");
    assert_eq!(told_aborted(&mut first), 0);
    let mut bench = Bench { record: first.record, store: first.store, taken: vec![], ..Bench::idle(3, 255) };
    assert_eq!(bench.steps("r 3 e 1 2 e"), "1+3 . 1+2 . . msg");
    assert_eq!(bench.store.len(), STORE_BYTES);
    assert_eq!(bench.record[TAKEN..TAKEN + 9], [0; 9]);
}

/// The number of the answer to an Abort by the originator.
fn told_aborted(bench: &mut Bench) -> u8 {
    let mut abort = bench.control(15, 0xFC);
    abort[8] = 250;
    bench.frame(CONTROL, &abort)[0]
}

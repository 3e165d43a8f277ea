//! What an EOMS brings: the request for the first missing run, five of them, and 21.

use crate::{holds, told, Bench, CONTROL, SLOT};

/// "For the first missing run, at most 16 and at most MAX SGMTS."
#[test]
fn the_first_missing_run() {
    holds(&[
        // Up to a segment that is in.
        (9, 255, "1 2 5 e", ". . . 3+2"),
        (9, 255, "2 3 4 5 6 7 8 9 e", ". . . . . . . . 1+1"),
        (9, 255, "1 9 e", ". . 2+7"),
        // Up to the end of the message.
        (9, 255, "1 2 3 4 e", ". . . . 5+5"),
        (9, 255, "1 2 3 4 5 6 7 8 e", ". . . . . . . . 9+1"),
        // All of it.
        (9, 255, "e", "1+9"),
        (1, 255, "e", "1+1"),
        // The later runs are left for later requests.
        (9, 255, "2 4 6 8 e 1 e 3 e 5 e 7 e 9 e", ". . . . 1+1 . 3+1 . 5+1 . 7+1 . 9+1 . msg"),
        (9, 255, "3 4 7 8 e 1 2 e 5 6 e 9 e", ". . . . 1+2 . . 5+2 . . 9+1 . msg"),
    ]);
}

#[test]
fn at_most_16() {
    holds(&[
        (15, 255, "e", "1+15"),
        (16, 255, "e", "1+16"),
        (17, 255, "e", "1+16"),
        (18, 255, "1 18 e", ". . 2+16"),
        (19, 255, "1 19 e", ". . 2+16"),
        (69, 255, "e", "1+16"),
        (69, 17, "69 e", ". 1+16"),
        (69, 255, "54 e", ". 1+16"),
        (69, 16, "1 2 20 e", ". . . 3+16"),
    ]);
}

#[test]
fn at_most_max_sgmts() {
    holds(&[
        (9, 1, "e", "1+1"),
        (9, 2, "e", "1+2"),
        (9, 8, "e", "1+8"),
        (9, 9, "e", "1+9"),
        (9, 10, "e", "1+9"),
        (9, 3, "1 5 e", ". . 2+3"),
        (9, 3, "1 4 e", ". . 2+2"),
        (9, 2, "9 e 1 2 e 3 e", ". 1+2 . . 3+2 . 4+2"),
        (69, 15, "e", "1+15"),
    ]);
}

/// The run may stand on both sides of where the record's first number ends.
#[test]
fn across_segment_64() {
    for (first, last) in [(64, 64), (65, 65), (64, 65), (63, 66), (69, 69), (60, 69), (65, 69), (54, 69), (53, 69)] {
        let mut bench = Bench::new(69, 255);
        for n in (1..=69).filter(|n| !(first..=last).contains(n)) {
            bench.step(&n.to_string());
        }
        let count = (last - first + 1).min(16);
        assert_eq!(bench.step("e"), format!("{first}+{count}"));
        assert_eq!(bench.granted(), first + count - 1);
        for n in first..=last {
            assert_eq!(bench.step(&n.to_string()), ".", "{first} to {last}");
        }
        assert_eq!(bench.step("e"), "msg", "{first} to {last}");
    }
}

/// Each EOMS spends one, also right after another.
#[test]
fn five_requests() {
    holds(&[
        (4, 255, "1 e e e e e e", ". 2+3 2+3 2+3 2+3 2+3 A21/5"),
        (4, 255, "e e e e e e", "1+4 1+4 1+4 1+4 1+4 A21/5"),
        (4, 255, "e 1 e 2 e 3 e e e", "1+4 . 2+3 . 3+2 . 4+1 4+1 A21/5"),
        (6, 1, "e 1 e 2 e 3 e 4 e 5 e", "1+1 . 2+1 . 3+1 . 4+1 . 5+1 . A21/5"),
        // With all in, the sixth EOMS hands over.
        (4, 255, "1 2 3 e e e e e 4 e", ". . . 4+1 4+1 4+1 4+1 4+1 . msg"),
        (5, 1, "e 1 e 2 e 3 e 4 e 5 e", "1+1 . 2+1 . 3+1 . 4+1 . 5+1 . msg"),
        // It is over then.
        (4, 255, "1 e e e e e e e 2", ". 2+3 2+3 2+3 2+3 2+3 A21/5 16 16"),
    ]);
}

#[test]
fn requests_are_counted() {
    let mut bench = Bench::new(4, 255);
    for made in 1..=5 {
        let before = bench.clone();
        assert_eq!(bench.step("e"), "1+4");
        assert_eq!(bench.requests(), made);
        // Nothing else has moved: the mark and the grant were so before.
        bench.record[crate::REQUESTS] = made - 1;
        assert!(bench == before, "{made}");
        bench.record[crate::REQUESTS] = made;
    }
    // Neither a segment nor a refusal counts.
    assert_eq!(bench.steps("1 1 0"), ". 18 18");
    assert_eq!(bench.requests(), 5);
}

/// "From then on no segment brings one": neither the last one asked for nor the last of a former grant.
#[test]
fn no_cts_after_the_first_request() {
    holds(&[
        (8, 2, "1 e 2 3 4 5 6 7 8 e", ". 2+2 . . . . . . . msg"),
        (8, 2, "e 2 4 6 8", "1+2 . . . ."),
        (8, 2, "1 2 e 4", ". 3+2 3+2 ."),
        (40, 255, "e 16 32 40", "1+16 . . ."),
        (40, 255, "16 e 32", "17+16 1+15 ."),
        (40, 255, "16 e 15 1 32 33", "17+16 1+15 . . . ."),
        // The last one granted before was 2, the one asked for last is 1: it is in by then, or comes.
        (8, 2, "2 4 e 1", "3+2 5+2 1+1 ."),
    ]);
}

/// "Last granted" is the last segment asked for.
#[test]
fn the_last_granted_of_a_request() {
    for (segments, max, steps, granted) in [
        (8, 2, "e", 2),
        (8, 2, "1 2 3 e", 5),
        (8, 255, "1 3 e", 2),
        (8, 255, "1 e", 8),
        (40, 255, "16 e", 15),
        (40, 255, "16 32 e", 15),
        (69, 255, "e", 16),
    ] {
        assert_eq!(Bench::after(segments, max, steps).granted(), granted, "{segments} {max} {steps}");
    }
}

/// "Each request renews the mark and starts the first wait": 1,250 from the request on, and after a segment 750.
#[test]
fn the_mark_and_the_wait() {
    holds(&[
        (4, 255, "1 t749 e t1998 t1999", ". . 2+3 . A22/3"),
        (4, 255, "1 t749 e t1998 2 t2747 t2748", ". . 2+3 . . . A22/3"),
        (4, 255, "t1249 e t2498 e t3747 t3748", ". 1+4 . 1+4 . A22/3"),
        (4, 255, "1 e t1249 t1250", ". 2+3 . A22/3"),
        (4, 255, "1 t100 e t849 t850 t1349 t1350", ". . 2+3 . . . A22/3"),
        // A refused segment after it moves neither.
        (4, 255, "1 e t700 1 0 t1249 t1250", ". 2+3 . 18 18 . A22/3"),
        // The last one asked for starts the second.
        (4, 255, "1 2 3 e 4 t749 t750", ". . . 4+1 . . A22/3"),
        // The silence ends it, whatever requests are left.
        (4, 255, "e e t1250 e", "1+4 1+4 A22/3 16"),
    ]);
}

/// At once, whatever is missing and however many requests are left; it is no request that was spent.
#[test]
fn not_as_announced_is_21_at_once() {
    holds(&[
        (4, 255, "x", "A21/250"),
        (4, 255, "1 2 x e", ". . A21/250 16"),
        (4, 255, "1 2 3 4 x", ". . . . A21/250"),
        (4, 255, "1 e x", ". 2+3 A21/250"),
        (4, 255, "e e e e e x", "1+4 1+4 1+4 1+4 1+4 A21/250"),
        (4, 255, "e e e e e 1 2 3 4 x", "1+4 1+4 1+4 1+4 1+4 . . . . A21/250"),
    ]);
}

/// Each of the fields that are compared, by one bit; byte 8 is not one of them.
#[test]
fn what_is_as_announced() {
    for steps in ["", "1 2 3 4", "1 3", "1 e e", "e e e e e"] {
        for place in [1, 2, 3, 4, 5, 6, 8, 9, 10, 11] {
            for bit in 0..8 {
                let mut bench = Bench::after(4, 255, steps);
                let mut status = bench.control(2, 0);
                status[place] ^= 1 << bit;
                assert_eq!(told(&bench.frame(CONTROL, &status)), "A21/250", "{steps}: byte {place}, bit {bit}");
                assert!(bench.record[SLOT..].iter().all(|&byte| byte == 0));
            }
        }
        let mut bench = Bench::after(4, 255, steps);
        let due = bench.clone().step("e");
        let status = bench.control(2, 0xFF);
        assert_eq!(told(&bench.frame(CONTROL, &status)), due, "{steps}");
    }
}

/// "Anew after E1's restart."
#[test]
fn a_restart_gives_five_anew() {
    holds(&[
        (4, 255, "1 e e e e e r e e e e e e", ". 2+3 2+3 2+3 2+3 2+3 1+4 1+4 1+4 1+4 1+4 1+4 A21/5"),
        (4, 255, "e e r 1 2 3 4 e", "1+4 1+4 1+4 . . . . msg"),
        // And the last one granted brings a CTS again.
        (6, 2, "e 2 4 r 2 4", "1+2 . . 1+2 3+2 5+2"),
        (6, 2, "1 2 3 4 5 6 r e", ". 3+2 . 5+2 . . 1+2 1+2"),
    ]);
    let mut bench = Bench::after(4, 255, "1 2 e e e r");
    assert_eq!((bench.requests(), bench.granted()), (0, 4));
    assert!(bench == Bench { store: bench.store.clone(), ..Bench::new(4, 255) });
    assert_eq!(bench.steps("t749 e t1998 r t3247 t3248"), ". 1+4 . 1+4 . A22/3");
}

/// A restart that is refused leaves the requests as they were.
#[test]
fn a_refused_restart_gives_none() {
    let mut bench = Bench::after(4, 255, "1 e e e e e");
    let before = bench.clone();
    let mut rts = bench.control(0, 0);
    assert_eq!(bench.frame(CONTROL, &rts)[..2], [11, 8]);
    rts[7] = 255;
    rts[9] = 0xCB;
    assert_eq!(bench.frame(CONTROL, &rts)[..2], [14, 8]);
    assert!(bench == before);
    assert_eq!(bench.step("e"), "A21/5");
}

/// The EOMS of another key, or of a role, asks for nothing here.
#[test]
fn by_key() {
    let mut bench = Bench::after(4, 255, "1 3");
    let before = bench.clone();
    let mut status = bench.control(2, 0);
    for id in [0x1C4D_2181, 0x1C4D_FF80] {
        assert_eq!(told(&bench.frame(id, &status)), "16");
    }
    status[0] = 0x22;
    assert_eq!(told(&bench.frame(CONTROL, &status)), "16");
    assert!(bench == before);
}

/// Two sessions with holes, each with requests of its own.
#[test]
fn each_session_has_its_own() {
    let mut bench = Bench::after(4, 255, "1 3 e e");
    let other = |bytes: Vec<u8>| [&[bytes[0] ^ 0x70][..], &bytes[1..]].concat();
    let (rts, status, segment) = (other(bench.control(0, 255)), other(bench.control(2, 0)), other(bench.segment(4)));
    assert_eq!(told(&bench.frame(CONTROL, &rts)), "1+4");
    assert_eq!(told(&bench.frame(crate::DATA, &segment)), ".");
    let first = bench.record[..crate::NEXT_SLOT].to_vec();
    for _ in 0..5 {
        assert_eq!(told(&bench.frame(CONTROL, &status)), "1+3");
    }
    assert_eq!(told(&bench.frame(CONTROL, &status)), "A21/5");
    assert_eq!(bench.record[..crate::NEXT_SLOT], first);
    assert_eq!(bench.requests(), 2);
}

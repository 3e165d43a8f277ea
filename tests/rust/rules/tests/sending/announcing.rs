//! Announcements: the bytes of RTS and BAM, 3, 8, 26, 14, 25 and their order.

use crate::{told, Bench, ALL, OWN, PGN, TO};
use rules::sending::Event;

#[test]
fn rts() {
    let mut bench = Bench::new();
    let answer = bench.announce(TO, 3, PGN, 61);
    assert_eq!((answer.event, answer.number()), (Event::Announced, 0));
    // MAX SGMTS is the number of segments.
    assert_eq!(told(&answer.frame), "1C4D2180: 30 3D 00 00 02 00 00 02 00 CA FE 00");
    let transfer = bench.transfer();
    assert_eq!((transfer.next, transfer.granted), (1, 0));
}

#[test]
fn bam() {
    let mut bench = Bench::new();
    let answer = bench.announce(ALL, 2, PGN, 61);
    assert_eq!(answer.event, Event::Announced);
    assert_eq!(told(&answer.frame), "1C4DFF80: 24 3D 00 00 02 00 00 FF 00 CA FE 00");
    let transfer = bench.transfer();
    assert_eq!((transfer.next, transfer.granted), (1, 2));
}

#[test]
fn edges_of_length_session_and_pgn() {
    let cases = [
        (0, 0, 0x00_0000, 1, "1C4D0080: 00 01 00 00 01 00 00 01 00 00 00 00"),
        (253, 15, 0x03_FFFF, 4_096, "1C4DFD80: F0 00 10 00 45 00 00 45 00 FF FF 03"),
        (127, 8, 0x00_EF00, 60, "1C4D7F80: 80 3C 00 00 01 00 00 01 00 00 EF 00"),
        (129, 1, 0x01_F001, 960, "1C4D8180: 10 C0 03 00 10 00 00 10 00 01 F0 01"),
        (TO, 7, 0x02_0000, 961, "1C4D2180: 70 C1 03 00 11 00 00 11 00 00 00 02"),
        (ALL, 15, 0x03_FFFF, 4_096, "1C4DFF80: F4 00 10 00 45 00 00 FF 00 FF FF 03"),
        (ALL, 0, 0x00_FECA, 1, "1C4DFF80: 04 01 00 00 01 00 00 FF 00 CA FE 00"),
    ];
    for (destination, session, pgn, bytes, frame) in cases {
        let mut bench = Bench::new();
        assert_eq!(told(&bench.announce(destination, session, pgn, bytes).frame), frame);
        assert_eq!(bench.open(), 1);
    }
}

#[test]
fn destination_or_session_is_3() {
    let mut bench = Bench::new();
    for (destination, session) in [(254, 3), (OWN, 3), (TO, 16), (TO, 255), (ALL, 16), (254, 16)] {
        bench.refuses(3, |bench| bench.announce(destination, session, PGN, 61));
    }
}

#[test]
fn pgn_is_8() {
    let mut bench = Bench::new();
    for pgn in [0x04_0000, 0x04_FECA, 0x00_EF01, 0x03_00FF, 0xFFFF_FFFF, 0x0100_FECA] {
        bench.refuses(8, |bench| bench.announce(TO, 3, pgn, 61));
        bench.refuses(8, |bench| bench.announce(ALL, 3, pgn, 61));
    }
}

#[test]
fn message_length_is_26() {
    let mut bench = Bench::new();
    for bytes in [0, 4_097, 8_192, 65_536 + 61] {
        bench.refuses(26, |bench| bench.announce(TO, 3, PGN, bytes));
        bench.refuses(26, |bench| bench.announce(ALL, 3, PGN, bytes));
    }
}

#[test]
fn already_sending_is_14() {
    for destination in [TO, ALL] {
        let mut bench = Bench::new();
        assert_eq!(bench.announce(destination, 3, PGN, 61).number(), 0);
        for (pgn, bytes) in [(PGN, 61), (PGN, 62), (PGN + 1, 61), (0, 1)] {
            bench.refuses(14, |bench| bench.announce(destination, 3, pgn, bytes));
        }
        // Another session, another destination: not the same transfer.
        let other = if destination == TO { ALL } else { TO };
        for (destination, session) in [(destination, 4), (other, 3), (34, 3)] {
            assert_eq!(bench.announce(destination, session, PGN, 61).number(), 0);
        }
    }
}

#[test]
fn the_fifth_is_25() {
    let mut bench = Bench::new();
    for (destination, session) in [(TO, 3), (TO, 4), (ALL, 3), (34, 3)] {
        assert_eq!(bench.announce(destination, session, PGN, 1).event, Event::Announced);
    }
    for destination in [TO, ALL] {
        bench.refuses(25, |bench| bench.announce(destination, 5, PGN, 1));
    }
    // What ends gives its place back: here the broadcast, by its EOMS.
    assert_eq!(bench.ask(ALL, 3, 1).event, Event::Segment(1));
    bench.refuses(25, |bench| bench.announce(TO, 5, PGN, 1));
    assert_eq!(bench.ask(ALL, 3, 1).event, Event::EndedWell);
    assert_eq!(bench.announce(TO, 5, PGN, 1).event, Event::Announced);
    bench.refuses(25, |bench| bench.announce(ALL, 3, PGN, 1));
}

/// From the first call, which has every fault, to the last, one fault less each time.
#[test]
fn order() {
    let mut full = Bench::new();
    for session in 3..7 {
        assert_eq!(full.announce(TO, session, PGN, 61).number(), 0);
    }
    let mut broken = full.clone();
    broken.sender.limit = 0;
    broken.refuses(23, |bench| bench.announce(254, 3, 0xEF01, 0));
    full.refuses(3, |bench| bench.announce(254, 3, 0xEF01, 0));
    full.refuses(3, |bench| bench.announce(TO, 16, 0xEF01, 4_097));
    full.refuses(8, |bench| bench.announce(TO, 3, 0xEF01, 0));
    full.refuses(26, |bench| bench.announce(TO, 3, PGN, 0));
    full.refuses(14, |bench| bench.announce(TO, 3, PGN, 61));
    full.refuses(25, |bench| bench.announce(TO, 7, PGN, 61));
}

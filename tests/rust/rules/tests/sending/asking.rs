//! Asking for the next frame: data frames and EOMS in bytes, what is due when, 16 and 26.

use crate::{hex, message, segments, told, Bench, ALL, PGN, TO};
use rules::sending::Event;

#[test]
fn nothing_before_a_cts() {
    let mut bench = Bench::rts(61);
    let before = bench.clone();
    for _ in 0..3 {
        let answer = bench.ask(TO, 3, 61);
        assert_eq!((answer.event, answer.number(), answer.frame), (Event::NothingDue, 0, None));
    }
    assert_eq!(bench, before);
}

/// A whole transfer by RTS of 61 bytes, the frames of both ends written out.
#[test]
fn whole_rts() {
    let mut bench = Bench::new();
    let rts = bench.announce(TO, 3, PGN, 61);
    assert_eq!(told(&rts.frame), "1C4D2180: 30 3D 00 00 02 00 00 02 00 CA FE 00");
    let answer = bench.reply("31 FF FF FF 01 00 00 02 00 CA FE 00");
    assert_eq!((answer.event, answer.frame), (Event::Granted { next: 1, count: 2 }, None));
    let first = bench.ask(TO, 3, 61);
    assert_eq!(first.event, Event::Segment(1));
    assert_eq!(
        told(&first.frame),
        "1C4E2180: 30 01 00 00 \
         00 01 02 03 04 05 06 07 08 09 0A 0B 0C 0D 0E 0F 10 11 12 13 14 15 16 17 18 19 1A 1B 1C 1D \
         1E 1F 20 21 22 23 24 25 26 27 28 29 2A 2B 2C 2D 2E 2F 30 31 32 33 34 35 36 37 38 39 3A 3B"
    );
    let second = bench.ask(TO, 3, 61);
    assert_eq!((second.event, told(&second.frame)), (Event::Segment(2), "1C4E2180: 30 02 00 00 3C".into()));
    let status = bench.ask(TO, 3, 61);
    assert_eq!(status.event, Event::Status);
    assert_eq!(told(&status.frame), "1C4D2180: 32 3D 00 00 02 00 00 00 00 CA FE 00");
    assert_eq!(bench.ask(TO, 3, 61).event, Event::NothingDue);
    let answer = bench.reply("33 3D 00 00 02 00 00 FF FF CA FE 00");
    assert_eq!((answer.event, answer.number(), answer.frame), (Event::EndedWell, 0, None));
    assert_eq!(bench.sender, Bench::new().sender);
    bench.refuses(16, |bench| bench.ask(TO, 3, 61));
}

/// And one by BAM, which no reply moves.
#[test]
fn whole_bam() {
    let mut bench = Bench::new();
    let bam = bench.announce(ALL, 3, PGN, 63);
    assert_eq!(told(&bam.frame), "1C4DFF80: 34 3F 00 00 02 00 00 FF 00 CA FE 00");
    assert_eq!(told(&bench.ask(ALL, 3, 63).frame)[..23], *"1C4EFF80: 30 01 00 00 0");
    let second = bench.ask(ALL, 3, 63);
    assert_eq!((second.event, told(&second.frame)), (Event::Segment(2), "1C4EFF80: 30 02 00 00 3C 3D 3E".into()));
    assert_eq!(bench.open(), 1);
    let status = bench.ask(ALL, 3, 63);
    assert_eq!((status.event, status.number()), (Event::EndedWell, 0));
    assert_eq!(told(&status.frame), "1C4DFF80: 32 3F 00 00 02 00 00 00 00 CA FE 00");
    assert_eq!(bench.sender, Bench::new().sender);
    bench.refuses(16, |bench| bench.ask(ALL, 3, 63));
}

#[test]
fn padding() {
    let cases = [
        (1, "1C4E2180: 30 01 00 00 00"),
        (4, "1C4E2180: 30 01 00 00 00 01 02 03"),
        (5, "1C4E2180: 30 01 00 00 00 01 02 03 04 AA AA AA"),
        (8, "1C4E2180: 30 01 00 00 00 01 02 03 04 05 06 07"),
        (9, "1C4E2180: 30 01 00 00 00 01 02 03 04 05 06 07 08 AA AA AA"),
        (15, "1C4E2180: 30 01 00 00 00 01 02 03 04 05 06 07 08 09 0A 0B 0C 0D 0E AA"),
    ];
    for (bytes, frame) in cases {
        let mut bench = Bench::after(bytes, &["31 FF FF FF 01 00 00 01 00 CA FE 00"]);
        assert_eq!(told(&bench.ask(TO, 3, bytes).frame), frame);
    }
    // Data bytes in the last segment, and the length of its frame.
    let lengths = [(12, 16), (13, 20), (16, 20), (17, 24), (20, 24), (21, 32), (28, 32), (29, 48), (44, 48), (45, 64)];
    for (data, length) in lengths {
        let mut bench = Bench::after(60 + data, &["31 FF FF FF 02 00 00 01 00 CA FE 00"]);
        let frame = bench.ask(TO, 3, 60 + data).frame.expect("a segment");
        assert_eq!((frame.bytes.len(), &frame.bytes[..4]), (length, &hex("30 02 00 00")[..]));
        assert_eq!(frame.bytes[4..4 + data], message(60 + data)[60..]);
        assert_eq!(frame.bytes[4 + data..], vec![0xAA; length - 4 - data]);
    }
}

#[test]
fn the_last_of_the_longest() {
    let mut bench = Bench::after(4_096, &["31 FF FF FF 45 00 00 01 00 CA FE 00"]);
    let answer = bench.ask(TO, 3, 4_096);
    assert_eq!(answer.event, Event::Segment(69));
    assert_eq!(told(&answer.frame), "1C4E2180: 30 45 00 00 F0 F1 F2 F3 F4 F5 F6 F7 F8 F9 FA FB FC FD FE FF");
}

#[test]
fn only_what_is_granted() {
    let mut bench = Bench::rts(300);
    for (cts, due) in [
        ("31 FF FF FF 01 00 00 01 00 CA FE 00", segments(1, 1)),
        ("31 FF FF FF 02 00 00 03 00 CA FE 00", segments(2, 4)),
        ("31 FF FF FF 05 00 00 01 00 CA FE 00", [segments(5, 5), vec![Event::Status]].concat()),
    ] {
        assert_eq!(bench.reply(cts).number(), 0);
        assert_eq!(bench.events(), due);
    }
    assert_eq!(bench.events(), []);
}

/// The EOMS waits for the end of the grant, comes once, and again after every grant that is spent once the last segment is out.
#[test]
fn eoms_after_each_grant_spent() {
    let mut bench = Bench::after(180, &["31 FF FF FF 03 00 00 01 00 CA FE 00"]);
    assert_eq!(bench.events(), [Event::Segment(3), Event::Status]);
    assert_eq!(bench.reply("31 FF FF FF 01 00 00 02 00 CA FE 00").number(), 0);
    assert_eq!(bench.events(), [Event::Segment(1), Event::Segment(2), Event::Status]);
    assert_eq!(bench.reply("31 FF FF FF 02 00 00 01 00 CA FE 00").number(), 0);
    assert_eq!(bench.ask(TO, 3, 180).event, Event::Segment(2));
    let again = bench.ask(TO, 3, 180);
    assert_eq!(again.event, Event::Status);
    assert_eq!(told(&again.frame), "1C4D2180: 32 B4 00 00 03 00 00 00 00 CA FE 00");
    assert_eq!(bench.events(), []);
}

#[test]
fn not_open_is_16() {
    let mut bench = Bench::rts(61);
    for (destination, session) in [(TO, 4), (34, 3), (ALL, 3), (TO, 19), (254, 3)] {
        bench.refuses(16, |bench| bench.ask(destination, session, 61));
    }
    Bench::new().refuses(16, |bench| bench.ask(TO, 3, 61));
}

/// 16 first, then 26; the transfer goes on with the right message.
#[test]
fn another_length_is_26() {
    for mut bench in [Bench::rts(61), Bench::after(61, &["31 FF FF FF 01 00 00 02 00 CA FE 00"]), Bench::bam(61)] {
        let destination = bench.transfer().destination;
        for bytes in [0, 1, 60, 62, 120, 4_096, 65_536 + 61] {
            bench.refuses(26, |bench| bench.ask(destination, 3, bytes));
            bench.refuses(16, |bench| bench.ask(destination, 4, bytes));
        }
        let mut broken = bench.clone();
        broken.sender.own = 254;
        broken.refuses(23, |bench| bench.ask(destination, 4, 60));
        assert_eq!(bench.ask(destination, 3, 61).number(), 0);
    }
    // Also where only the EOMS is left, and where nothing is due.
    let mut bench = Bench::after(61, &["31 FF FF FF 01 00 00 02 00 CA FE 00"]);
    for event in [Event::Segment(1), Event::Segment(2), Event::Status, Event::NothingDue] {
        bench.refuses(26, |bench| bench.ask(TO, 3, 62));
        assert_eq!(bench.ask(TO, 3, 61).event, event);
    }
}

#[test]
fn two_sessions_to_one_destination() {
    let mut bench = Bench::new();
    let first = bench.announce(TO, 3, PGN, 61);
    let second = bench.announce(TO, 12, PGN, 121);
    assert_eq!(told(&first.frame), "1C4D2180: 30 3D 00 00 02 00 00 02 00 CA FE 00");
    assert_eq!(told(&second.frame), "1C4D2180: C0 79 00 00 03 00 00 03 00 CA FE 00");
    assert_eq!(bench.reply("C1 FF FF FF 01 00 00 03 00 CA FE 00").number(), 0);
    assert_eq!(bench.ask(TO, 3, 61).event, Event::NothingDue);
    assert_eq!(told(&bench.ask(TO, 12, 121).frame)[..23], *"1C4E2180: C0 01 00 00 0");
    assert_eq!(bench.reply("31 FF FF FF 01 00 00 02 00 CA FE 00").number(), 0);
    assert_eq!(told(&bench.ask(TO, 3, 61).frame)[..23], *"1C4E2180: 30 01 00 00 0");
    assert_eq!(told(&bench.ask(TO, 12, 121).frame)[..24], *"1C4E2180: C0 02 00 00 3C");
    assert_eq!(told(&bench.ask(TO, 3, 61).frame), "1C4E2180: 30 02 00 00 3C");
    assert_eq!(told(&bench.ask(TO, 12, 121).frame), "1C4E2180: C0 03 00 00 78");
    assert_eq!(told(&bench.ask(TO, 12, 121).frame), "1C4D2180: C2 79 00 00 03 00 00 00 00 CA FE 00");
    // Session 3 is not touched by what ends session 12.
    assert_eq!(bench.reply("C3 79 00 00 03 00 00 FF FF CA FE 00").event, Event::EndedWell);
    bench.refuses(16, |bench| bench.ask(TO, 12, 121));
    assert_eq!(told(&bench.ask(TO, 3, 61).frame), "1C4D2180: 32 3D 00 00 02 00 00 00 00 CA FE 00");
    assert_eq!(bench.reply("33 3D 00 00 02 00 00 FF FF CA FE 00").event, Event::EndedWell);
}

/// An RTS and a BAM with one session number are two transfers.
#[test]
fn a_broadcast_beside_it() {
    let mut bench = Bench::new();
    assert_eq!(bench.announce(TO, 3, PGN, 61).number(), 0);
    assert_eq!(bench.announce(ALL, 3, PGN, 61).number(), 0);
    for event in [Event::Segment(1), Event::Segment(2), Event::EndedWell] {
        assert_eq!(bench.ask(TO, 3, 61).event, Event::NothingDue);
        assert_eq!(bench.ask(ALL, 3, 61).event, event);
    }
    assert_eq!(bench.reply("31 FF FF FF 01 00 00 02 00 CA FE 00").number(), 0);
    assert_eq!(bench.events(), [Event::Segment(1), Event::Segment(2), Event::Status]);
}

/// A record in bounds may say that an EOMS is owed though a grant is open, which no run of calls gives: the EOMS goes first.
#[test]
fn an_eoms_owed_beside_an_open_grant() {
    let mut bench = Bench::after(180, &["31 FF FF FF 01 00 00 03 00 CA FE 00"]);
    bench.sender.transfers[0].as_mut().expect("open").status_owed = true;
    let status = bench.ask(TO, 3, 180);
    assert_eq!(status.event, Event::Status);
    assert_eq!(told(&status.frame), "1C4D2180: 32 B4 00 00 03 00 00 00 00 CA FE 00");
    let transfer = bench.transfer();
    assert_eq!((transfer.status_out, transfer.status_owed, transfer.next, transfer.granted), (true, false, 1, 3));
    assert_eq!(bench.events(), [segments(1, 3), vec![Event::Status]].concat());
    // A broadcast ends with it.
    let mut bench = Bench::bam(180);
    bench.sender.transfers[0].as_mut().expect("open").status_owed = true;
    assert_eq!(bench.ask(ALL, 3, 180).event, Event::EndedWell);
    assert_eq!(bench.open(), 0);
}

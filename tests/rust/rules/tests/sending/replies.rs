//! Control frames of a responder: CTS, EOMA, Abort; 2, 1, 3, 9, 10, 16 and 27.

use crate::{hex, segments, Bench, ALL, ID, PGN, TO};
use rules::sending::Event;

const CTS: &str = "31 FF FF FF 01 00 00 02 00 CA FE 00";
const EOMA: &str = "33 3D 00 00 02 00 00 FF FF CA FE 00";
const ABORT: &str = "3F FF FF FF FF FF FF FD FA CA FE 00";

/// 61 bytes to the responder in session 3, with the EOMS out, so that each of the three replies would be taken.
fn waiting() -> Bench {
    let mut bench = Bench::after(61, &[CTS]);
    assert_eq!(bench.events(), [Event::Segment(1), Event::Segment(2), Event::Status]);
    bench
}

#[test]
fn each_of_them_is_taken() {
    assert_eq!(waiting().reply(CTS).event, Event::Granted { next: 1, count: 2 });
    assert_eq!(waiting().reply(EOMA).event, Event::EndedWell);
    assert_eq!(waiting().reply(ABORT).event, Event::Aborted);
    // Priority is not judged.
    for id in [0x004D_8021, 0x184D_8021] {
        assert_eq!(waiting().sender.control_frame(id, &hex(EOMA)).event, Event::EndedWell);
    }
}

#[test]
fn identifier_above_29_bits_is_2() {
    for id in [0x3C4D_8021, 0x2000_0000, 0xFFFF_FFFF] {
        waiting().refuses(2, |bench| bench.sender.control_frame(id, &hex(EOMA)));
    }
}

#[test]
fn no_can_length_is_1() {
    for length in (9..12).chain(13..16).chain([17, 63, 65, 100]) {
        let mut bytes = hex(EOMA);
        bytes.resize(length, 0);
        waiting().refuses(1, |bench| bench.sender.control_frame(ID, &bytes));
    }
}

#[test]
fn not_taken_here_is_3() {
    let ids = [
        0x1C25_8021, // PF 37
        0x1C4E_8021, // PF 78
        0x1C4C_8021,
        0x1CEC_8021,
        0x1D4D_8021, // a page bit
        0x1E4D_8021,
        0x1C4D_8121, // DA 129
        0x1C4D_2121,
        0x1C4D_FE21,
        0x1C4D_80FE, // SA 254, 255, our own
        0x1C4D_80FF,
        0x1C4D_8080,
    ];
    for id in ids {
        waiting().refuses(3, |bench| bench.sender.control_frame(id, &hex(EOMA)));
    }
}

#[test]
fn not_12_bytes_is_9() {
    for length in [0, 1, 5, 8, 16, 64] {
        let mut bytes = hex(EOMA);
        bytes.resize(length, 0);
        waiting().refuses(9, |bench| bench.sender.control_frame(ID, &bytes));
    }
}

#[test]
fn not_a_responders_is_10() {
    for control in [0u8, 2, 4, 5, 6, 7, 8, 9, 10, 11, 12, 13, 14] {
        let mut bytes = hex(EOMA);
        bytes[0] = 0x30 | control;
        waiting().refuses(10, |bench| bench.sender.control_frame(ID, &bytes));
    }
    // Roles 00, 10 and 11, whatever is above them.
    for role in ["00", "FC", "FE", "02", "FF", "03"] {
        waiting().refuses_reply(10, &format!("3F FF FF FF FF FF FF {role} FA CA FE 00"));
    }
}

/// From the first call, which has every fault, to the last, one fault less each time.
#[test]
fn order() {
    let mut bench = waiting();
    let mut broken = bench.clone();
    broken.sender.transfers[3] = broken.sender.transfers[0];
    let eoms = hex("42 3D 00 00 02 00 00 00 00 CA FE 00");
    let (long, longer) = ([eoms.clone(), vec![0; 4]].concat(), [eoms.clone(), vec![0; 5]].concat());
    broken.refuses(23, |bench| bench.sender.control_frame(0x3C4E_FF21, &longer));
    bench.refuses(2, |bench| bench.sender.control_frame(0x3C4E_FF21, &longer));
    bench.refuses(1, |bench| bench.sender.control_frame(0x1C4E_FF21, &longer));
    // Also a data frame of under 5 bytes.
    bench.refuses(3, |bench| bench.sender.control_frame(0x1C4E_FF21, &long));
    bench.refuses(3, |bench| bench.sender.control_frame(0x1C4E_8021, &long[..4]));
    bench.refuses(9, |bench| bench.sender.control_frame(0x1C4D_FF21, &long));
    bench.refuses(10, |bench| bench.sender.control_frame(0x1C4D_FF21, &eoms));
    // A CTS with a segment that is not in the message, to all, of another session, then of another PGN.
    bench.refuses(16, |bench| bench.sender.control_frame(0x1C4D_FF21, &hex("31 FF FF FF 00 00 00 02 00 CA FE 00")));
    bench.refuses_reply(16, "41 FF FF FF 00 00 00 02 00 CA FE 00");
    bench.refuses_reply(16, "31 FF FF FF 00 00 00 02 00 CB FE 00");
    bench.ends_by_27("31 FF FF FF 00 00 00 02 00 CA FE 00");
}

#[test]
fn to_all_is_16() {
    for text in [CTS, EOMA, ABORT, "31 FF FF FF 01 00 00 00 00 CA FE 00", "31 FF FF FF FF FF FF FF 01 CA FE 00"] {
        waiting().refuses(16, |bench| bench.sender.control_frame(0x1C4D_FF21, &hex(text)));
    }
}

#[test]
fn no_such_transfer_is_16() {
    for text in [CTS, EOMA, ABORT] {
        Bench::new().refuses_reply(16, text);
        // From 34; of sessions 2 and 11; of other PGNs, of which one has the same 18 bits.
        waiting().refuses(16, |bench| bench.sender.control_frame(0x1C4D_8022, &hex(text)));
        for session in [0x20, 0xB0] {
            let mut bytes = hex(text);
            bytes[0] = bytes[0] & 0xF | session;
            waiting().refuses(16, |bench| bench.sender.control_frame(ID, &bytes));
        }
        for pgn in ["CB FE 00", "CA FF 00", "CA FE 01", "CA FE 04", "CA FE 80", "00 00 00"] {
            waiting().refuses_reply(16, &format!("{} {pgn}", &text[..26]));
        }
    }
}

/// No reply meets a broadcast, from whom and to whom it may come.
#[test]
fn for_a_broadcast_is_16() {
    for asked in 0..=2 {
        let mut bench = Bench::bam(61);
        for _ in 0..asked {
            assert_eq!(bench.ask(ALL, 3, 61).number(), 0);
        }
        for text in [CTS, EOMA, ABORT] {
            bench.refuses_reply(16, text);
            bench.refuses(16, |bench| bench.sender.control_frame(0x1C4D_FF21, &hex(text)));
            bench.refuses(3, |bench| bench.sender.control_frame(0x1C4D_80FF, &hex(text)));
        }
    }
}

#[test]
fn cts_for_a_segment_not_in_the_message_is_27() {
    let bad = [
        "31 FF FF FF 00 00 00 01 00 CA FE 00", // segment 0
        "31 FF FF FF 00 00 00 05 00 CA FE 00",
        "31 FF FF FF 06 00 00 01 00 CA FE 00", // past the end
        "31 FF FF FF 05 00 00 02 00 CA FE 00",
        "31 FF FF FF 01 00 00 06 00 CA FE 00",
        "31 FF FF FF 01 00 00 FF 00 CA FE 00", // count 255
        "31 FF FF FF 05 01 00 01 00 CA FE 00", // segments 261 and 65,541
        "31 FF FF FF 05 00 01 01 00 CA FE 00",
        "31 FF FF FF FF FF FF 01 00 CA FE 00",
        "31 FF FF FF FF FF FF FF 00 CA FE 00",
        "31 FF FF FF 00 00 00 FF FF CA FE 00",
    ];
    for text in bad {
        Bench::rts(300).ends_by_27(text);
        let mut granted = Bench::after(300, &["31 FF FF FF 01 00 00 05 00 CA FE 00"]);
        granted.clone().ends_by_27(text);
        assert_eq!(granted.events(), [segments(1, 5), vec![Event::Status]].concat());
        granted.ends_by_27(text);
    }
    // Only that transfer ends.
    let mut two = Bench::rts(300);
    assert_eq!(two.announce(TO, 4, PGN, 300).number(), 0);
    let other = two.sender.transfers[1];
    two.ends_by_27(bad[0]);
    assert_eq!(two.sender.transfers, [None, other, None, None]);
}

#[test]
fn cts_up_to_the_last_segment() {
    let good = [
        ("31 FF FF FF 01 00 00 05 00 CA FE 00", 1, 5),
        ("31 FF FF FF 05 00 00 01 00 CA FE 00", 5, 1),
        ("31 00 12 34 02 00 00 03 00 CA FE 00", 2, 3), // the reserved bytes are not judged
    ];
    for (text, next, count) in good {
        let mut bench = Bench::rts(300);
        let answer = bench.reply(text);
        assert_eq!((answer.event, answer.number(), answer.frame), (Event::Granted { next, count }, 0, None));
        let last = next + u32::from(count) - 1;
        let status = if last == 5 { vec![Event::Status] } else { vec![] };
        assert_eq!(bench.events(), [segments(next, last), status].concat());
    }
    let mut long = Bench::after(4_096, &["31 FF FF FF 01 00 00 45 00 CA FE 00"]);
    assert_eq!(long.events(), [segments(1, 69), vec![Event::Status]].concat());
    Bench::rts(4_096).ends_by_27("31 FF FF FF 01 00 00 46 00 CA FE 00");
}

/// A CTS for segments takes the place of the grant before it.
#[test]
fn cts_replaces_the_grant() {
    let cases = [
        ("31 FF FF FF 01 00 00 02 00 CA FE 00", segments(1, 2)), // from the start
        ("31 FF FF FF 03 00 00 01 00 CA FE 00", segments(3, 3)), // shorter
        ("31 FF FF FF 03 00 00 07 00 CA FE 00", segments(3, 9)), // longer
        ("31 FF FF FF 08 00 00 02 00 CA FE 00", segments(8, 9)), // further on
    ];
    for (text, due) in cases {
        let mut bench = Bench::after(600, &["31 FF FF FF 01 00 00 06 00 CA FE 00"]);
        for n in 1..=2 {
            assert_eq!(bench.ask(TO, 3, 600).event, Event::Segment(n));
        }
        assert_eq!(bench.reply(text).number(), 0);
        assert_eq!(bench.events(), due, "{text}");
    }
}

/// Count 0: nothing more goes out until the next CTS, whatever the next segment and the request code say.
#[test]
fn cts_for_none() {
    for none in [
        "31 FF FF FF FF FF FF 00 FF CA FE 00",
        "31 FF FF FF 00 00 00 00 00 CA FE 00",
        "31 FF FF FF 01 00 00 00 01 CA FE 00",
        "31 FF FF FF 63 00 00 00 00 CA FE 00",
    ] {
        let mut bench = Bench::rts(600);
        for _ in 0..2 {
            let answer = bench.reply(none);
            assert_eq!((answer.event, answer.number(), answer.frame), (Event::Held, 0, None), "{none}");
            assert_eq!(bench.events(), []);
        }
        assert_eq!(bench.reply("31 FF FF FF 01 00 00 06 00 CA FE 00").number(), 0);
        assert_eq!(bench.ask(TO, 3, 600).event, Event::Segment(1));
        assert_eq!(bench.reply(none).event, Event::Held);
        let transfer = bench.transfer();
        assert_eq!((transfer.next, transfer.granted), (2, 1));
        assert_eq!(bench.events(), []);
        assert_eq!(bench.reply("31 FF FF FF 02 00 00 09 00 CA FE 00").number(), 0);
        assert_eq!(bench.events(), [segments(2, 10), vec![Event::Status]].concat());
    }
}

/// An EOMS that is owed stays owed.
#[test]
fn cts_for_none_before_the_eoms() {
    let mut bench = Bench::after(61, &[CTS]);
    for n in 1..=2 {
        assert_eq!(bench.ask(TO, 3, 61).event, Event::Segment(n));
    }
    assert_eq!(bench.reply("31 FF FF FF FF FF FF 00 FF CA FE 00").event, Event::Held);
    assert_eq!(bench.events(), [Event::Status]);
    assert_eq!(bench.reply("31 FF FF FF FF FF FF 00 FF CA FE 00").event, Event::Held);
    assert_eq!(bench.events(), []);
}

/// One that is owed waits for the segments that are asked for again.
#[test]
fn cts_for_segments_before_the_eoms() {
    let mut bench = Bench::after(61, &[CTS]);
    for n in 1..=2 {
        assert_eq!(bench.ask(TO, 3, 61).event, Event::Segment(n));
    }
    assert_eq!(bench.reply("31 FF FF FF 01 00 00 01 00 CA FE 00").number(), 0);
    assert_eq!(bench.events(), [Event::Segment(1), Event::Status]);
    // It is not owed again when what was asked for is withdrawn.
    let mut bench = Bench::after(61, &[CTS]);
    for n in 1..=2 {
        assert_eq!(bench.ask(TO, 3, 61).event, Event::Segment(n));
    }
    assert_eq!(bench.reply("31 FF FF FF 01 00 00 01 00 CA FE 00").number(), 0);
    assert_eq!(bench.reply("31 FF FF FF FF FF FF 00 FF CA FE 00").event, Event::Held);
    assert_eq!(bench.events(), []);
}

#[test]
fn request_before_the_last_segment_is_ignored() {
    let mut bench = Bench::rts(180);
    assert_eq!(bench.reply("31 FF FF FF 01 00 00 02 01 CA FE 00").event, Event::Granted { next: 1, count: 2 });
    assert_eq!(bench.events(), segments(1, 2));
    assert_eq!(bench.reply("31 FF FF FF 03 00 00 00 01 CA FE 00").event, Event::Held);
    assert_eq!(bench.events(), []);
    assert_eq!(bench.reply("31 FF FF FF 03 00 00 01 01 CA FE 00").event, Event::Granted { next: 3, count: 1 });
    bench.clone().ends_by_27("31 FF FF FF FF FF FF 05 01 CA FE 00");
    assert_eq!(bench.events(), [Event::Segment(3), Event::Status]);
}

#[test]
fn request_after_the_last_segment() {
    for text in [
        "31 FF FF FF FF FF FF FF 01 CA FE 00",
        "31 FF FF FF FF FF FF 00 01 CA FE 00",
        "31 FF FF FF 01 00 00 02 01 CA FE 00",
        "31 FF FF FF 00 00 00 05 01 CA FE 00",
    ] {
        let mut bench = waiting();
        for _ in 0..3 {
            let answer = bench.reply(text);
            assert_eq!((answer.event, answer.number(), answer.frame), (Event::StatusAsked, 0, None), "{text}");
            assert_eq!(bench.events(), [Event::Status], "{text}");
        }
        // Asked for twice, or while one is owed, it goes out once.
        for _ in 0..2 {
            assert_eq!(bench.reply(text).event, Event::StatusAsked);
        }
        assert_eq!(bench.events(), [Event::Status]);
        // The rest of a grant is dropped.
        assert_eq!(bench.reply(CTS).number(), 0);
        assert_eq!(bench.ask(TO, 3, 61).event, Event::Segment(1));
        assert_eq!(bench.reply(text).event, Event::StatusAsked);
        assert_eq!(bench.events(), [Event::Status]);
        assert_eq!(bench.reply(EOMA).event, Event::EndedWell);
    }
    // A CTS for segments takes the request back.
    let mut bench = waiting();
    assert_eq!(bench.reply("31 FF FF FF FF FF FF FF 01 CA FE 00").event, Event::StatusAsked);
    assert_eq!(bench.reply(CTS).event, Event::Granted { next: 1, count: 2 });
    assert_eq!(bench.reply("31 FF FF FF FF FF FF 00 FF CA FE 00").event, Event::Held);
    assert_eq!(bench.events(), []);
}

/// Only 1 asks for the EOMS.
#[test]
fn other_request_codes() {
    for code in ["00", "02", "03", "81", "FF"] {
        let mut bench = waiting();
        let cts = bench.reply(&format!("31 FF FF FF 02 00 00 01 {code} CA FE 00"));
        assert_eq!(cts.event, Event::Granted { next: 2, count: 1 });
        assert_eq!(bench.events(), [Event::Segment(2), Event::Status]);
        assert_eq!(bench.reply(&format!("31 FF FF FF FF FF FF 00 {code} CA FE 00")).event, Event::Held);
        assert_eq!(bench.events(), []);
        bench.ends_by_27(&format!("31 FF FF FF FF FF FF FF {code} CA FE 00"));
    }
}

#[test]
fn eoma_before_the_first_eoms_is_16() {
    let mut bench = Bench::rts(61);
    bench.refuses_reply(16, EOMA);
    assert_eq!(bench.reply(CTS).number(), 0);
    for event in [Event::Segment(1), Event::Segment(2), Event::Status] {
        bench.refuses_reply(16, EOMA);
        assert_eq!(bench.ask(TO, 3, 61).event, event);
    }
    assert_eq!(bench.reply(EOMA).event, Event::EndedWell);
    assert_eq!(bench.open(), 0);
    bench.refuses_reply(16, EOMA);
}

/// After the first EOMS it ends the transfer, also where segments were asked for again.
#[test]
fn eoma_in_a_later_grant() {
    let mut bench = waiting();
    assert_eq!(bench.reply(CTS).number(), 0);
    assert_eq!(bench.ask(TO, 3, 61).event, Event::Segment(1));
    assert_eq!(bench.reply(EOMA).event, Event::EndedWell);
    assert_eq!(bench.open(), 0);
}

#[test]
fn eoma_with_other_totals_is_16() {
    for text in [
        "33 3C 00 00 02 00 00 FF FF CA FE 00",
        "33 3D 01 00 02 00 00 FF FF CA FE 00",
        "33 3D 00 01 02 00 00 FF FF CA FE 00",
        "33 3D 00 00 01 00 00 FF FF CA FE 00",
        "33 3D 00 00 02 01 00 FF FF CA FE 00",
        "33 3D 00 00 02 00 01 FF FF CA FE 00",
        "33 00 00 00 00 00 00 FF FF CA FE 00",
    ] {
        waiting().refuses_reply(16, text);
    }
    // Reserved bytes are not judged.
    assert_eq!(waiting().reply("33 3D 00 00 02 00 00 00 12 CA FE 00").event, Event::EndedWell);
}

#[test]
fn abort_by_the_responder() {
    let started = || Bench::after(61, &[CTS]);
    for mut bench in [Bench::rts(61), started(), waiting()] {
        // Of another PGN: the transfer stays.
        bench.refuses_reply(16, "3F FF FF FF FF FF FF FD FA CB FE 00");
        bench.refuses(16, |bench| bench.sender.control_frame(0x1C4D_FF21, &hex(ABORT)));
        let answer = bench.reply(ABORT);
        assert_eq!((answer.event, answer.number(), answer.frame), (Event::Aborted, 0, None));
        assert_eq!(bench.open(), 0);
        bench.refuses_reply(16, ABORT);
        bench.refuses(16, |bench| bench.ask(TO, 3, 61));
    }
    // Reserved bits and the reason are not judged.
    for text in ["3F 00 00 00 00 00 00 01 00 CA FE 00", "3F 12 34 56 78 9A BC A5 07 CA FE 00"] {
        assert_eq!(started().reply(text).event, Event::Aborted);
    }
}

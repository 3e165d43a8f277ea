//! The reader.

use super::{call_groups, hex, read, read_whole, whole, Whole, FORMER, PAIRS, PGN, TABLE_9};
use rules::calls::{self, GROUPS_WORDS};
use rules::groups::{walk, Group};
use rules::receiver::{Answer, Limits, Receiver, STORE_BYTES};
use rules::Refusal;

/// Service type and trailer format above the two top bits of a PGN that are 0.
fn first_byte(service: u8, format: u8) -> u8 {
    service << 5 | format << 2
}

/// What a first place has to bring that has `room` bytes behind its header: the group, or the refusal.
fn due(service: u8, format: u8, counted: usize, room: usize) -> Result<Group, u8> {
    let trailer = TABLE_9[usize::from(service) - 1][usize::from(format)]?;
    if counted > room || counted < trailer {
        return Err(5);
    }
    Ok(Group { pgn: PGN, service, format, start: 4, length: counted - trailer, trailer })
}

/// Every service type, every trailer format, every length byte up to 70, in frames of every length; zeros behind.
#[test]
fn every_header() {
    for service in 1..8 {
        for format in 0..8 {
            for counted in 0..=70 {
                for room in 0..=60 {
                    let mut frame = vec![first_byte(service, format), 0xFE, 0xCA, counted as u8];
                    frame.resize(4 + room.min(counted), 0xD7);
                    frame.resize(4 + room, 0);
                    let due = due(service, format, counted, room).map(|group| vec![group]);
                    assert_eq!(read(&frame), due, "{frame:02X?}");
                }
            }
        }
    }
}

#[test]
fn the_largest_length_bytes() {
    for (service, format, _) in PAIRS {
        for counted in [61, 127, 128, 252, 253, 254, 255] {
            let mut frame = vec![0xD7; 64];
            frame[..4].copy_from_slice(&[first_byte(service, format), 0xFE, 0xCA, counted]);
            assert_eq!(read(&frame), Err(5), "{frame:02X?}");
        }
    }
}

/// Whatever the format's bits and the bytes behind are, and however few.
#[test]
fn service_type_0_ends_the_frame() {
    for first in 0..0x20 {
        for length in 1..=64 {
            for fill in [0x00, 0xAA, 0xFF, first] {
                let mut frame = vec![fill; length];
                frame[0] = first;
                assert_eq!(read(&frame), Ok(vec![]), "{frame:02X?}");
                let behind = [hex("24 FE CA 05 D1 A1 A2 A3 A4"), frame].concat();
                assert_eq!(read_whole(&behind), Ok(vec![whole(1, 1, PGN, "D1", "A1 A2 A3 A4")]), "{behind:02X?}");
            }
        }
    }
}

#[test]
fn a_trailer_longer_than_the_length_byte() {
    for text in [
        // The frame has room for it.
        "24 FE CA 03 A1 A2 A3 A4",
        "24 FE CA 00 A1 A2 A3 A4",
        "28 FE CA 01 A1 00 00 00 00 00 00 00",
        "2C FE CA 07 A1 A2 A3 A4 A5 A6 A7 A8",
        "2C FE CA 04 A1 A2 A3 A4 A5 A6 A7 A8",
        "34 FE CA 07 A1 A2 A3 A4 A5 A6 A7 A8 00 00 00 00",
        "38 FE CA 00 A1 A2 A3 A4 A5 A6 A7 A8 40 FE CA 00",
        // The frame ends where the length byte says.
        "24 FE CA 03 A1 A2 A3",
        "28 FE CA 00",
        "2C FE CA 04 A1 A2 A3 A4",
        "34 FE CA 07 A1 A2 A3 A4 A5 A6 A7",
        "38 FE CA 03 A1 A2 A3",
        // It ends between that place and the trailer's end.
        "24 FE CA 01 A1 A2 A3",
        "34 FE CA 03 A1 A2 A3 A4 A5",
    ] {
        assert_eq!(read(&hex(text)), Err(5), "{text}");
        let behind = format!("28 FE CA 05 D1 A1 A2 A3 A4 {text}");
        assert_eq!(read(&hex(&behind)), Err(5), "{behind}");
    }
}

/// Counted with the trailer, the length passes the frame's end by one; one less, and it is good.
#[test]
fn past_the_end_by_one() {
    for (service, format, trailer) in PAIRS {
        for data in 0..=60 - trailer {
            let counted = data + trailer;
            let mut frame = vec![first_byte(service, format), 0xFE, 0xCA, counted + 1];
            frame.resize(4 + usize::from(counted), 0xD7);
            assert_eq!(read(&frame), Err(5), "{frame:02X?}");
            frame[3] = counted;
            let group = Group { pgn: PGN, service, format, start: 4, length: data.into(), trailer: trailer.into() };
            assert_eq!(read(&frame), Ok(vec![group]), "{frame:02X?}");
        }
    }
}

/// A trailer with no data before it.
#[test]
fn a_trailer_alone() {
    for (service, format, trailer) in &PAIRS[1..] {
        let trailer = &"A1 A2 A3 A4 A5 A6 A7 A8"[..3 * usize::from(*trailer) - 1];
        let counted = hex(trailer).len() as u8;
        let frame = [vec![first_byte(*service, *format), 0xFE, 0xCA, counted], hex(trailer)].concat();
        assert_eq!(read_whole(&frame), Ok(vec![whole(*service, *format, PGN, "", trailer)]));
    }
}

/// Trailers that look like padding, like headers, like anything: what comes behind is found.
#[test]
fn what_a_trailer_holds_is_not_judged() {
    for trailer in ["00 00 00 00", "FF FF FF FF", "AA AA AA AA", "40 FE CA 00", "24 EA 21 04", "60 00 00 FF"] {
        for format in [1, 2] {
            let first = first_byte(1, format);
            let text = format!("{first:02X} FE CA 06 D1 D2 {trailer} 40 EA 00 03 CA FE 00");
            let groups = vec![whole(1, format, PGN, "D1 D2", trailer), whole(2, 0, 59_904, "CA FE 00", "")];
            assert_eq!(read_whole(&hex(&text)), Ok(groups), "{text}");
        }
        for format in [3, 5, 6] {
            let first = first_byte(1, format);
            let text = format!("{first:02X} FE CA 0A D1 D2 {trailer} {trailer} 40 EA 00 03 CA FE 00");
            let long = format!("{trailer} {trailer}");
            let groups = vec![whole(1, format, PGN, "D1 D2", &long), whole(2, 0, 59_904, "CA FE 00", "")];
            assert_eq!(read_whole(&hex(&text)), Ok(groups), "{text}");
        }
    }
}

/// One place, two faults or more: the number that it has to bring, and those that it must not.
const ORDERS: [(u8, &[u8], &str); 34] = [
    (4, &[6], "60"),
    (4, &[6], "E0 FE"),
    (4, &[6], "FC FE CA"),
    (4, &[7], "20"),
    (4, &[7], "3C FE"),
    (4, &[7], "30 FE CA"),
    (4, &[7], "44 FE CA"),
    (4, &[8], "40 EA 21"),
    (4, &[8], "24 EA 21"),
    (4, &[6, 8], "60 EA 21"),
    (4, &[7, 8], "20 EA 21"),
    (6, &[7], "64 FE CA 00"),
    (6, &[7], "FC FE CA 04 A1 A2 A3 A4"),
    (6, &[8], "60 EA 21 00"),
    (6, &[8], "84 EA 21 04 A1 A2 A3 A4"),
    (6, &[5], "60 FE CA 01"),
    (6, &[5], "A4 FE CA 03 A1 A2 A3 A4"),
    (6, &[8, 5], "C8 EA 21 FF"),
    (7, &[8], "20 EA 21 00"),
    (7, &[8], "30 EA 21 08 A1 A2 A3 A4 A5 A6 A7 A8"),
    (7, &[8], "3C EA 21 08 A1 A2 A3 A4 A5 A6 A7 A8"),
    (7, &[8], "44 EA 21 04 A1 A2 A3 A4"),
    (7, &[5], "20 FE CA 01"),
    (7, &[5], "30 FE CA 09 A1 A2 A3 A4 A5 A6 A7 A8"),
    (7, &[5], "3C FE CA 05 A1 A2 A3 A4"),
    (7, &[5], "54 FE CA 01"),
    (7, &[8, 5], "20 EA 21 FF"),
    (8, &[5], "40 EA 21 01"),
    (8, &[5], "24 EA 21 05 A1 A2 A3 A4"),
    (8, &[5], "24 EA 21 03 A1 A2 A3 A4"),
    (8, &[5], "28 EA 21 00"),
    (8, &[5], "2C EA 21 07 A1 A2 A3 A4 A5 A6 A7"),
    (8, &[5], "36 00 01 00 A1 A2 A3 A4 A5 A6 A7 A8"),
    (8, &[5], "3B EF FF 09 A1 A2 A3 A4 A5 A6 A7 A8"),
];

/// Good groups of every sort to stand before a fault.
const BEFORE: [&str; 7] = [
    "",
    "40 EA 00 03 CA FE 00",
    "24 FE CA 05 D1 A1 A2 A3 A4",
    "28 FE CA 04 A1 A2 A3 A4",
    "2C EA 00 0A D1 D2 A1 A2 A3 A4 A5 A6 A7 A8",
    "34 FE CA 08 A1 A2 A3 A4 A5 A6 A7 A8",
    "38 FE CA 09 D1 A1 A2 A3 A4 A5 A6 A7 A8",
];

#[test]
fn orders_at_one_place() {
    for (number, others, text) in ORDERS {
        assert!(!others.contains(&number));
        for before in BEFORE {
            let frame = hex(&format!("{before} {text}"));
            assert_eq!(read(&frame), Err(number), "{before} {text}, not {others:?}");
        }
    }
}

/// Each fault by itself, with the groups before it.
#[test]
fn each_fault_behind_good_groups() {
    for (number, text) in [
        (4, "40 FE CA"),
        (4, "24"),
        (6, "64 FE CA 04 A1 A2 A3 A4"),
        (7, "20 FE CA 04 A1 A2 A3 A4"),
        (7, "30 FE CA 08 A1 A2 A3 A4 A5 A6 A7 A8"),
        (7, "44 FE CA 04 A1 A2 A3 A4"),
        (8, "24 EA 21 04 A1 A2 A3 A4"),
        (8, "40 EA 21 00"),
        (5, "24 FE CA 05 A1 A2 A3 A4"),
        (5, "2C FE CA 07 A1 A2 A3 A4 A5 A6 A7 A8"),
        (5, "40 FE CA 01"),
    ] {
        for before in BEFORE {
            let frame = hex(&format!("{before} {text}"));
            assert_eq!(read(&frame), Err(number), "{before} {text}");
            let (groups, refusal) = walk(&frame);
            assert_eq!((groups.len(), refusal.map(Refusal::number)), (usize::from(!before.is_empty()), Some(number)));
        }
    }
}

/// Two places with a fault each: the earlier one decides, whatever the numbers are.
#[test]
fn the_first_place_decides() {
    let faults = [
        (6, "64 FE CA 04 A1 A2 A3 A4"),
        (7, "30 FE CA 04 A1 A2 A3 A4"),
        (8, "24 EA 21 04 A1 A2 A3 A4"),
        (5, "34 FE CA 04 A1 A2 A3 A4"),
    ];
    for (number, first) in faults {
        for (_, second) in faults.into_iter().chain([(4, "40")]) {
            let frame = hex(&format!("24 FE CA 04 A1 A2 A3 A4 {first} {second}"));
            assert_eq!(read(&frame), Err(number), "{first} {second}");
        }
    }
}

/// The two top bits of the PGN stand beside the trailer format.
#[test]
fn every_pgns_top_bits() {
    for (service, format, trailer) in PAIRS {
        for (top, middle, low) in [(0, 0xFE, 0xCA), (1, 0xF0, 0x00), (2, 0xEF, 0x00), (3, 0xFF, 0xFF)] {
            let mut frame = vec![first_byte(service, format) | top, middle, low, trailer];
            frame.resize(4 + usize::from(trailer), 0xA5);
            let pgn = u32::from_be_bytes([0, top, middle, low]);
            let group: Whole = (service, format, pgn, vec![], vec![0xA5; trailer.into()]);
            assert_eq!(read_whole(&frame), Ok(vec![group]));
        }
    }
}

/// As many as a frame can hold: all 96 numbers are written.
#[test]
fn sixteen_groups_and_eight() {
    let sixteen = read(&hex(&"40 FE CA 00 ".repeat(16))).unwrap();
    assert_eq!((sixteen.len(), sixteen[15].start), (16, 64));
    let eight = read(&hex(&"24 FE CA 04 A1 A2 A3 A4 ".repeat(8))).unwrap();
    let last = Group { pgn: PGN, service: 1, format: 1, start: 60, length: 0, trailer: 4 };
    assert_eq!((eight.len(), eight[7]), (8, last));
}

#[test]
fn the_six_numbers() {
    let frame = hex("40 EA 00 03 CA FE 00 2C FE CA 09 D1 A1 A2 A3 A4 A5 A6 A7 A8 00 00 00 AA");
    let former = u32::from(FORMER);
    let mut words = [former; GROUPS_WORDS];
    assert_eq!(calls::groups(&frame, &mut words), 2);
    assert_eq!(words[..12], [59_904, 2, 0, 4, 3, 0, 65_226, 1, 3, 11, 1, 8]);
    assert_eq!(words[12..], [former; 84]);
    for length in [0, 6, 12, 48, 95, 97, 102] {
        let mut words = vec![former; length];
        assert_eq!(calls::groups(&frame, &mut words), 256 * 23);
        assert_eq!(words, vec![former; length]);
    }
    assert_eq!(call_groups(&frame[..9]), Err(1));
}

/// Refused or not, it changes nothing at the receiver.
#[test]
fn the_receiver_says_the_same() {
    let mut receiver = Receiver::open(33, Limits::both(1_250), 0).0;
    let mut store = vec![FORMER; STORE_BYTES];
    let before = receiver.clone();
    for (number, text) in [
        (0, "28 64 00 0C 67 20 79 E0 FF FF FF FF AF 03 87 EF"),
        (0, "34 FE CA 08 A1 A2 A3 A4 A5 A6 A7 A8"),
        (4, "24 FE CA"),
        (5, "24 FE CA 03 A1 A2 A3 A4"),
        (5, "24 FE CA 05 A1 A2 A3 A4"),
        (6, "64 FE CA 04 A1 A2 A3 A4"),
        (7, "30 FE CA 04 A1 A2 A3 A4"),
        (8, "24 EA 21 04 A1 A2 A3 A4"),
    ] {
        for id in [0x1825_2180, 0x1825_FF80] {
            let answer = receiver.frame(id, &hex(text), &mut store);
            assert_eq!(answer.number(), number, "{text}");
            assert_eq!(answer == Answer::Groups, number == 0, "{text}");
            assert!(receiver == before && store == vec![FORMER; STORE_BYTES], "{text}");
        }
    }
}

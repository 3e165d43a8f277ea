//! The examples of 001, read and packed.

use super::{hex, read, read_whole, whole, Lists, Whole};
use rules::groups::Group;

/// The groups pack to this frame, and it is read as these groups.
fn both_ways(groups: &[Whole], frame: &str) {
    let frame = hex(frame);
    assert_eq!(Lists::of(groups).pack(), Ok(frame.clone()));
    assert_eq!(read_whole(&frame), Ok(groups.to_vec()));
}

#[test]
fn figure_17() {
    let text = "28 64 00 0C 67 20 79 E0 FF FF FF FF AF 03 87 EF";
    let group = Group { pgn: 25_600, service: 1, format: 2, start: 4, length: 8, trailer: 4 };
    assert_eq!(read(&hex(text)), Ok(vec![group]));
    both_ways(&[whole(1, 2, 25_600, "67 20 79 E0 FF FF FF FF", "AF 03 87 EF")], text);
}

#[test]
fn figure_18() {
    let text = "40 F0 17 08 67 20 79 E0 FA EF 00 FF";
    let group = Group { pgn: 61_463, service: 2, format: 0, start: 4, length: 8, trailer: 0 };
    assert_eq!(read(&hex(text)), Ok(vec![group]));
    both_ways(&[whole(2, 0, 61_463, "67 20 79 E0 FA EF 00 FF", "")], text);
}

/// The text has lengths, PGNs and the request's three bytes; the others are ours.
#[test]
fn figure_26() {
    let trip = "01 02 03 04 05 06 07 08 09 0A 0B 0C 0D 0E 0F 10 11 12 13 14";
    let turbo = "21 22 23 24 25 26 27 28";
    let dm1 = "31 32 33 34 35 36 37 38 39 3A";
    let groups = [
        whole(2, 0, 59_904, "00 EE 00", ""),
        whole(1, 1, 65_200, trip, "C1 C2 C3 C4"),
        whole(2, 0, 64_210, turbo, ""),
        whole(2, 0, 65_226, dm1, ""),
    ];
    let first_two = format!("40 EA 00 03 00 EE 00 24 FE B0 18 {trip} C1 C2 C3 C4");
    both_ways(&groups, &format!("{first_two} 40 FA D2 08 {turbo} 40 FE CA 0A {dm1} 00 00 00"));
    let starts: Vec<usize> =
        Lists::of(&groups).pack().and_then(|frame| read(&frame)).unwrap().iter().map(|group| group.start).collect();
    assert_eq!(starts, [4, 11, 39, 51]);
}

/// DM5, DM21, DM26 and DM29 are asked for.
#[test]
fn figure_27() {
    let trailer = "A1 A2 A3 A4 A5 A6 A7 A8";
    let groups = [
        whole(2, 0, 59_904, "CE FE 00", ""),
        whole(1, 5, 59_904, "00 C1 00", trailer),
        whole(2, 0, 59_904, "B8 FD 00", ""),
        whole(2, 0, 59_904, "00 9E 00", ""),
    ];
    let first_two = format!("40 EA 00 03 CE FE 00 34 EA 00 0B 00 C1 00 {trailer}");
    let padding = "00 00 00 AA AA AA AA AA AA AA AA AA";
    both_ways(&groups, &format!("{first_two} 40 EA 00 03 B8 FD 00 40 EA 00 03 00 9E 00 {padding}"));
    let frame = Lists::of(&groups).pack().unwrap();
    assert_eq!((frame.len(), frame[35], &frame[36..39]), (48, 0, &[0; 3][..]));
}

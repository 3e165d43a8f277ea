//! E6 in bytes: the record before and after each call, the answers, and what goes out.

use crate::{hex, Bench, CONTROL, DATA, MISSING, NEXT_SLOT, SLOT, TAKEN};

/// 130 bytes in three segments, MAX SGMTS 2, where the bench has 121: the same as in the traces of E4.
fn three() -> Bench {
    let mut bench = Bench::idle(3, 2);
    bench.message.resize(130, 0x11);
    assert_eq!(bench.step("r"), "1+2");
    bench
}

/// Slot 0 of three segments: the bytes up to the PGN stay.
fn slot(behind: &str) -> Vec<u8> {
    hex(&format!("01 01 80 21 03 82 00 00 00 03 00 00 00 02 CA FE 00 00 {behind}"))
}

/// Next, last granted, mark, wait, the record of segments, the number missing, the requests.
#[test]
fn the_record() {
    let mut bench = three();
    for (step, due) in [
        ("t7", "00 00 00 00 02 00 00 00 00 00 00 00 01 00 00 00 00 00 00 00 00 00 03 00 00 00 00"),
        ("3", "00 00 00 00 02 00 00 00 07 00 00 00 02 04 00 00 00 00 00 00 00 00 02 00 00 00 00"),
        ("t8", "00 00 00 00 02 00 00 00 07 00 00 00 02 04 00 00 00 00 00 00 00 00 02 00 00 00 00"),
        ("e", "00 00 00 00 02 00 00 00 08 00 00 00 01 04 00 00 00 00 00 00 00 00 02 00 00 00 01"),
        ("1", "00 00 00 00 02 00 00 00 08 00 00 00 02 05 00 00 00 00 00 00 00 00 01 00 00 00 01"),
        ("t9", "00 00 00 00 02 00 00 00 08 00 00 00 02 05 00 00 00 00 00 00 00 00 01 00 00 00 01"),
        ("e", "00 00 00 00 02 00 00 00 09 00 00 00 01 05 00 00 00 00 00 00 00 00 01 00 00 00 02"),
        ("2", "00 00 00 00 02 00 00 00 09 00 00 00 02 07 00 00 00 00 00 00 00 00 00 00 00 00 02"),
        ("r", "00 00 00 00 02 00 00 00 09 00 00 00 01 00 00 00 00 00 00 00 00 00 03 00 00 00 00"),
        ("2", "00 00 00 00 03 00 00 00 09 00 00 00 01 02 00 00 00 00 00 00 00 00 02 00 00 00 00"),
    ] {
        bench.step(step);
        assert_eq!(bench.record[SLOT..NEXT_SLOT], slot(due), "{step}");
        assert!(bench.record[NEXT_SLOT..].iter().all(|&byte| byte == 0));
    }
}

/// Where each of the 69 segments stands in the record.
#[test]
fn each_segments_bit() {
    for n in 1..=69_u32 {
        let mut bench = Bench::new(69, 255);
        bench.step(&n.to_string());
        let mut due = [0; 9];
        let (first_64, behind) = if n <= 64 { (1_u64 << (n - 1), 0) } else { (0, 1_u8 << (n - 65)) };
        due[..8].copy_from_slice(&first_64.to_le_bytes());
        due[8] = behind;
        assert_eq!(bench.record[TAKEN..TAKEN + 9], due, "{n}");
        assert_eq!(bench.record[MISSING..MISSING + 4], [68, 0, 0, 0]);
    }
    let mut bench = Bench::new(69, 255);
    (1..=69).for_each(|n: u32| drop(bench.step(&n.to_string())));
    assert_eq!(bench.record[TAKEN..NEXT_SLOT], hex("FF FF FF FF FF FF FF FF 1F 00 00 00 00 00"));
}

#[test]
fn a_request_as_answer_and_frame() {
    let mut bench = three();
    bench.step("3");
    let status = bench.control(2, 0);
    let due =
        "00 04 80 21 03 01 02 CA FE 00 00 00 00 00 00 01 00 00 00 01 21 80 4D 1C 31 FF FF FF 01 00 00 02 00 CA FE 00";
    assert_eq!(bench.frame(CONTROL, &status), hex(due)[..]);
    bench.step("1");
    let due =
        "00 04 80 21 03 01 01 CA FE 00 00 00 00 00 00 02 00 00 00 01 21 80 4D 1C 31 FF FF FF 02 00 00 01 00 CA FE 00";
    assert_eq!(bench.frame(CONTROL, &status), hex(due)[..]);
}

/// As `DWB_ENDED` with byte 6 set, and wire reason 5; not as announced, byte 6 is 0, and the reason 250.
#[test]
fn both_causes_of_21() {
    let mut bench = three();
    bench.steps("1 e e e e e");
    let status = bench.control(2, 0);
    let spent =
        "15 07 80 21 03 01 01 CA FE 00 00 00 00 00 00 00 00 00 00 01 21 80 4D 1C 3F FF FF FF FF FF FF FD 05 CA FE 00";
    assert_eq!(bench.clone().frame(CONTROL, &status), hex(spent)[..]);
    let not_announced =
        "15 07 80 21 03 01 00 CA FE 00 00 00 00 00 00 00 00 00 00 01 21 80 4D 1C 3F FF FF FF FF FF FF FD FA CA FE 00";
    let other = [&status[..11], &[1]].concat();
    assert_eq!(bench.frame(CONTROL, &other), hex(not_announced)[..]);
}

#[test]
fn a_segment_as_answer() {
    let mut bench = three();
    let segment = bench.segment(3);
    let taken = "00 03 80 21 03 00 00 00 00 00 00 00 00 00 00 03 00 00 00";
    let answer = bench.frame(DATA, &segment);
    assert_eq!(answer[..19], hex(taken));
    assert!(answer[19..].iter().all(|&byte| byte == 0));
    let past = [&[0x30, 4], &segment[2..]].concat();
    let ended =
        "13 07 80 21 03 01 00 CA FE 00 00 00 00 00 00 00 00 00 00 01 21 80 4D 1C 3F FF FF FF FF FF FF FD 07 CA FE 00";
    assert_eq!(bench.frame(DATA, &past), hex(ended)[..]);
}

/// The next segment of an RTS is not judged; an announcement writes 0 there, and nothing else writes it.
#[test]
fn an_rts_keeps_what_is_in_the_place_of_next() {
    for next in [1_u32, 4, 5, 70, u32::MAX] {
        let mut bench = three();
        bench.record[SLOT + 18..SLOT + 22].copy_from_slice(&next.to_le_bytes());
        for step in ["3", "e", "1", "1", "t9", "e"] {
            bench.step(step);
            assert_eq!(bench.record[SLOT + 18..SLOT + 22], next.to_le_bytes(), "{step}");
        }
        assert_eq!(bench.clone().steps("2 e"), ". msg");
        bench.step("r");
        assert_eq!(bench.record[SLOT + 18..SLOT + 22], [0; 4]);
    }
}

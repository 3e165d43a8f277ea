//! The sender's calls on bytes: the record, each code of the answer with its fields, the frame in its own buffer.

use crate::{hex, message, ALL, ID, OWN, PGN, TO};
use rules::sender_calls::{self as calls, read_sender, SENDER_BYTES, TRANSFER_ANSWERS_BYTES};

/// What a call writes over.
const NOISE: u8 = 0x77;
const NO_IDENTIFIER: &str = "00 00 00 00";
const NO_DATA: &str = "00 00 00 00 00 00 00 00 00 00 00 00";

struct Lent {
    sender: Vec<u8>,
    frame: Vec<u8>,
    answer: Vec<u8>,
    answers: Vec<u8>,
}

impl Lent {
    /// Limit 1,250 (E2 04 hex), reading 5.
    fn new() -> Lent {
        let mut sender = vec![NOISE; SENDER_BYTES];
        assert_eq!(calls::sender_open(&mut sender, OWN, 1_250, 5), 0);
        let (frame, answer, answers) = (vec![NOISE; 64], vec![NOISE; 36], vec![NOISE; TRANSFER_ANSWERS_BYTES]);
        Lent { sender, frame, answer, answers }
    }

    fn announce(&mut self, da: u8, session: u8, pgn: u32, bytes: usize) -> u8 {
        let message = message(bytes);
        calls::announce(&mut self.sender, da, session, pgn, &message, &mut self.frame, &mut self.answer)
    }

    fn ask(&mut self, da: u8, session: u8, bytes: usize) -> u8 {
        self.frame.fill(NOISE);
        calls::next_frame(&mut self.sender, da, session, &message(bytes), &mut self.frame, &mut self.answer)
    }

    fn reply(&mut self, text: &str) -> u8 {
        calls::sender_frame(&mut self.sender, ID, &hex(text), &mut self.answer)
    }

    fn reading(&mut self, reading: u32) -> u8 {
        calls::sender_reading(&mut self.sender, reading, &mut self.answers)
    }

    /// The fields up to the segment number, then the identifier and the data of what is sent.
    fn is(&self, fields: &str, identifier: &str, data: &str) {
        let sends = if identifier == NO_IDENTIFIER { "00" } else { "01" };
        assert_eq!(self.answer, hex(&format!("{fields} {sends} {identifier} {data}")), "{fields}");
    }

    /// The front of the frame buffer, and noise behind it.
    fn frame_is(&self, text: &str) {
        let bytes = hex(text);
        assert_eq!(self.frame[..bytes.len()], bytes);
        assert!(self.frame[bytes.len()..].iter().all(|&byte| byte == NOISE));
    }

    /// Transfer `i`, 26 bytes.
    fn transfer(&self, i: usize) -> &[u8] {
        &self.sender[9 + 26 * i..35 + 26 * i]
    }
}

#[test]
fn an_opening() {
    let lent = Lent::new();
    assert_eq!(lent.sender[..9], hex("80 E2 04 00 00 05 00 00 00"));
    assert!(lent.sender[9..].iter().all(|&byte| byte == 0));
}

#[test]
fn refused_opening() {
    let mut sender = vec![NOISE; SENDER_BYTES];
    assert_eq!(calls::sender_open(&mut sender, 254, 1_250, 5), 23);
    assert_eq!(sender[..9], hex("FE E2 04 00 00 05 00 00 00"));
    for length in [0, 112, 114, 249] {
        let mut other = vec![NOISE; length];
        assert_eq!(calls::sender_open(&mut other, OWN, 1_250, 5), 23);
        assert!(other.iter().all(|&byte| byte == NOISE));
    }
}

/// Codes 10 to 15 of one transfer by RTS, and its bytes in the record on the way.
#[test]
fn an_rts_from_end_to_end() {
    let mut lent = Lent::new();
    assert_eq!(lent.announce(TO, 3, PGN, 61), 0);
    lent.is("00 0A 80 21 03 01 0C CA FE 00 00 3D 00 00 00 02 00 00 00", "80 21 4D 1C", NO_DATA);
    lent.frame_is("30 3D 00 00 02 00 00 02 00 CA FE 00");
    let announced = "01 21 03 3D 00 00 00 CA FE 00 00 00 00 00 01 00 00 00 00 00 00 00 05 00 00 00";
    assert_eq!(lent.transfer(0), hex(announced));
    assert_eq!(lent.ask(TO, 3, 61), 0);
    lent.is(&format!("00 0D{}", " 00".repeat(17)), NO_IDENTIFIER, NO_DATA);
    lent.frame_is("");
    assert_eq!(lent.reply("31 FF FF FF 02 00 00 01 00 CA FE 00"), 0);
    lent.is(&format!("00 0E{}", " 00".repeat(17)), NO_IDENTIFIER, NO_DATA);
    assert_eq!(lent.transfer(0)[11..22], hex("00 00 00 02 00 00 00 02 00 00 00"));
    assert_eq!(lent.reading(6), 0);
    assert_eq!(lent.ask(TO, 3, 61), 0);
    lent.is("00 0B 00 00 00 00 05 00 00 00 00 00 00 00 00 02 00 00 00", "80 21 4E 1C", NO_DATA);
    lent.frame_is("30 02 00 00 3C");
    assert_eq!(lent.transfer(0)[11..], hex("01 00 01 03 00 00 00 02 00 00 00 06 00 00 00"));
    assert_eq!(lent.ask(TO, 3, 61), 0);
    lent.is("00 0C 80 21 03 01 0C CA FE 00 00 3D 00 00 00 02 00 00 00", "80 21 4D 1C", NO_DATA);
    lent.frame_is("32 3D 00 00 02 00 00 00 00 CA FE 00");
    assert_eq!(lent.transfer(0)[11..14], [1, 1, 0]);
    assert_eq!(lent.reply("33 3D 00 00 02 00 00 FF FF CA FE 00"), 0);
    lent.is(&format!("00 0F 80 21 03{}", " 00".repeat(14)), NO_IDENTIFIER, NO_DATA);
    assert_eq!(lent.transfer(0)[0], 0);
}

#[test]
fn a_bam_from_end_to_end() {
    let mut lent = Lent::new();
    assert_eq!(lent.announce(ALL, 15, 0x03_FFFF, 1), 0);
    lent.is("00 0A 80 FF 0F 02 0C FF FF 03 00 01 00 00 00 01 00 00 00", "80 FF 4D 1C", NO_DATA);
    lent.frame_is("F4 01 00 00 01 00 00 FF 00 FF FF 03");
    assert_eq!(lent.transfer(0)[14..22], hex("01 00 00 00 01 00 00 00"));
    assert_eq!(lent.ask(ALL, 15, 1), 0);
    lent.is("00 0B 00 00 00 00 05 00 00 00 00 00 00 00 00 01 00 00 00", "80 FF 4E 1C", NO_DATA);
    assert_eq!(lent.ask(ALL, 15, 1), 0);
    lent.is("00 0C 80 FF 0F 02 0C FF FF 03 00 01 00 00 00 01 00 00 00", "80 FF 4D 1C", NO_DATA);
    lent.frame_is("F2 01 00 00 01 00 00 00 00 FF FF 03");
    assert!(read_sender(&lent.sender).is_some_and(|sender| sender.transfers == [None; 4]));
}

/// Codes 16 and 17: the Abort of 27 stands in the answer.
#[test]
fn ended_by_a_reply() {
    let mut lent = Lent::new();
    for session in [3, 4] {
        assert_eq!(lent.announce(TO, session, PGN, 300), 0);
    }
    assert_eq!(lent.reply("3F FF FF FF FF FF FF FD FA CA FE 00"), 0);
    lent.is(&format!("00 10 80 21 03{}", " 00".repeat(14)), NO_IDENTIFIER, NO_DATA);
    assert_eq!(lent.reply("41 FF FF FF 06 00 00 01 00 CA FE 00"), 27);
    let abort = "4F FF FF FF FF FF FF FC 07 CA FE 00";
    lent.is("1B 11 80 21 04 01 00 CA FE 00 00 00 00 00 00 00 00 00 00", "80 21 4D 1C", abort);
}

#[test]
fn ended_by_silence() {
    let mut lent = Lent::new();
    assert_eq!(lent.announce(TO, 3, PGN, 300), 0);
    assert_eq!(lent.announce(ALL, 3, PGN, 300), 0);
    assert_eq!(lent.reading(1_254), 0);
    assert!(lent.answers.iter().all(|&byte| byte == 0));
    assert_eq!(lent.announce(TO, 4, PGN, 300), 0);
    assert_eq!(lent.reading(1_255), 0);
    let rts = "16 11 80 21 03 01 00 CA FE 00 00 00 00 00 00 00 00 00 00 01 80 21 4D 1C \
               3F FF FF FF FF FF FF FC 03 CA FE 00";
    let bam = format!("16 11 80 FF 03 02 00 CA FE{}", " 00".repeat(27));
    assert_eq!(lent.answers, [hex(rts), hex(&bam), vec![0; 72]].concat());
    assert_eq!((lent.transfer(0)[0], lent.transfer(1)[0], lent.transfer(2)[0]), (0, 0, 1));
}

/// Code 18: the number alone; record and frame stay.
#[test]
fn refusals() {
    let mut lent = Lent::new();
    assert_eq!(lent.announce(TO, 3, PGN, 61), 0);
    lent.frame.fill(NOISE);
    let before = lent.sender.clone();
    let refused = |lent: &mut Lent, number: u8, given: u8| {
        assert_eq!(given, number);
        lent.is(&format!("{number:02X} 12{}", " 00".repeat(17)), NO_IDENTIFIER, NO_DATA);
        lent.frame_is("");
        assert_eq!(lent.sender, before);
        lent.answer.fill(NOISE);
    };
    for (number, da, session, pgn, bytes) in [
        (3, 254, 3, PGN, 61),
        (8, TO, 4, 0xEF01, 61),
        (26, TO, 4, PGN, 4_097),
        (26, TO, 4, PGN, 0),
        (14, TO, 3, PGN, 61),
    ] {
        let given = lent.announce(da, session, pgn, bytes);
        refused(&mut lent, number, given);
    }
    for (number, session, bytes) in [(16, 4, 61), (26, 3, 62)] {
        let given = lent.ask(TO, session, bytes);
        refused(&mut lent, number, given);
    }
    for (number, text) in [(16, "33 3D 00 00 02 00 00 FF FF CA FE 00"), (10, "32 3D 00 00 02 00 00 00 00 CA FE 00")] {
        let given = lent.reply(text);
        refused(&mut lent, number, given);
    }
    lent.sender[1..5].fill(0);
    let before = lent.sender.clone();
    assert_eq!((lent.announce(TO, 4, PGN, 61), lent.ask(TO, 3, 61)), (23, 23));
    lent.is(&format!("17 12{}", " 00".repeat(17)), NO_IDENTIFIER, NO_DATA);
    assert_eq!((lent.reading(7), lent.sender), (23, before));
    assert!(lent.answers.iter().all(|&byte| byte == 0));
}

/// Each buffer of another length is 23, and nothing is written but the answer, where that is as long as it must be.
#[test]
fn buffers_of_other_lengths() {
    let mut lent = Lent::new();
    assert_eq!(lent.announce(TO, 3, PGN, 61), 0);
    let before = lent.sender.clone();
    for length in [0, 12, 63, 65] {
        lent.frame = vec![NOISE; length];
        lent.answer.fill(NOISE);
        assert_eq!(lent.ask(TO, 3, 61), 23);
        lent.is(&format!("17 12{}", " 00".repeat(17)), NO_IDENTIFIER, NO_DATA);
        assert_eq!(lent.announce(TO, 4, PGN, 61), 23);
        assert!(lent.frame.iter().all(|&byte| byte == NOISE) && lent.sender == before);
    }
    lent.frame = vec![NOISE; 64];
    for length in [0, 35, 37] {
        lent.answer = vec![NOISE; length];
        let reply = lent.reply("31 FF FF FF 01 00 00 02 00 CA FE 00");
        assert_eq!((lent.announce(TO, 4, PGN, 61), lent.ask(TO, 3, 61), reply), (23, 23, 23));
        assert!(lent.answer.iter().chain(&lent.frame).all(|&byte| byte == NOISE) && lent.sender == before);
    }
    for length in [0, 36, 143, 145] {
        lent.answers = vec![NOISE; length];
        assert_eq!(lent.reading(7), 23);
        assert!(lent.answers.iter().all(|&byte| byte == NOISE) && lent.sender == before);
    }
    lent.answer = vec![NOISE; 36];
    for length in [0, 112, 114] {
        lent.sender = vec![1; length];
        assert_eq!((lent.announce(TO, 4, PGN, 61), lent.ask(TO, 3, 61)), (23, 23));
        lent.is(&format!("17 12{}", " 00".repeat(17)), NO_IDENTIFIER, NO_DATA);
        assert!(lent.sender.iter().all(|&byte| byte == 1));
    }
}

/// Only 1 is open, and only 1 is yes.
#[test]
fn bytes_that_are_neither_0_nor_1() {
    let mut lent = Lent::new();
    assert_eq!(lent.announce(TO, 3, PGN, 61), 0);
    for byte in [2, 128, 255] {
        lent.sender[9 + 11..9 + 14].fill(byte);
        let transfer = read_sender(&lent.sender).and_then(|sender| sender.transfers[0]).expect("open");
        assert!(!transfer.last_out && !transfer.status_out && !transfer.status_owed);
        // A CTS writes them anew, also one for none that moves nothing.
        assert_eq!(lent.reply("31 FF FF FF FF FF FF 00 FF CA FE 00"), 0);
        assert_eq!(lent.transfer(0)[11..14], [0, 0, 0]);
        lent.sender[9 + 26] = byte;
        assert!(read_sender(&lent.sender).is_some_and(|sender| sender.transfers[1].is_none()));
    }
}

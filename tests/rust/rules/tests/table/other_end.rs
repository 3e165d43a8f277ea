//! 02 E2 at a receiver by itself: what is meant for a sender finds no transfer and is 16; 10 is for what neither end takes.

use crate::{opened, rts, CONTROL_ID, PGN};
use rules::receiver::{Answer, Limits, Receiver, STORE_BYTES};
use rules::Refusal;

/// The same to 255.
const TO_ALL_ID: u32 = 0x1C4D_FF80;

/// With session 3 of 128 open, and one segment of it in.
fn busy() -> (Receiver, Vec<u8>) {
    let (mut receiver, mut store) = opened();
    assert_eq!(receiver.frame(CONTROL_ID, &rts(61, 2, 255), &mut store).number(), 0);
    let mut segment = vec![0x11; 64];
    segment[..4].copy_from_slice(&[0x30, 1, 0, 0]);
    assert_eq!(receiver.frame(0x1C4E_2180, &segment, &mut store).number(), 0);
    (receiver, store)
}

/// The frame is refused with this number, and nothing is changed.
fn refuses(number: u8, id: u32, bytes: &[u8]) {
    for (mut receiver, mut store) in [opened(), busy()] {
        let before = (receiver.clone(), store.clone());
        let answer = receiver.frame(id, bytes, &mut store);
        assert!(matches!(answer, Answer::Refused(_)), "{id:08X} {bytes:02X?}: {answer:?}");
        assert_eq!(answer.number(), number, "{id:08X} {bytes:02X?}");
        assert!((receiver, store) == before, "{id:08X} {bytes:02X?}");
    }
}

/// A control frame of some session, all its other bytes the same but for the PGN.
fn control(first: u8, fill: u8, byte8: u8, pgn: u32) -> Vec<u8> {
    let mut bytes = vec![fill; 12];
    bytes[0] = first;
    bytes[7] = byte8;
    bytes[9..].copy_from_slice(&pgn.to_le_bytes()[..3]);
    bytes
}

#[test]
fn a_senders_frames_are_16() {
    for id in [CONTROL_ID, TO_ALL_ID, 0x004D_2180, 0x1C4D_2100] {
        for first in [0x31, 0x33, 0x01, 0x03, 0xF1, 0xF3] {
            for (fill, byte8) in [(0, 0), (0xFF, 0xFF), (0xFF, 16), (1, 2), (0x5A, 3)] {
                for pgn in [PGN, PGN + 1, 0, 0xFF_FFFF, 0x00_EF01] {
                    refuses(16, id, &control(first, fill, byte8, pgn));
                }
            }
        }
    }
}

#[test]
fn a_responders_abort_is_16() {
    for id in [CONTROL_ID, TO_ALL_ID] {
        for first in [0x3F, 0x0F, 0xFF] {
            for byte8 in [0xFD, 0x01, 0x05, 0x81] {
                for pgn in [PGN, PGN + 1, 0xFF_FFFF] {
                    refuses(16, id, &control(first, 0xFF, byte8, pgn));
                    refuses(16, id, &control(first, 0, byte8, pgn));
                }
            }
        }
    }
}

#[test]
fn what_neither_end_takes_is_10() {
    for id in [CONTROL_ID, TO_ALL_ID] {
        for number in [5, 6, 7, 8, 9, 10, 11, 12, 13, 14] {
            for byte8 in [0, 1, 0xFD, 0xFF] {
                refuses(10, id, &control(0x30 | number, 0xFF, byte8, PGN));
            }
        }
        for byte8 in [0xFE, 0xFF, 0x02, 0x03] {
            refuses(10, id, &control(0x3F, 0xFF, byte8, PGN));
        }
    }
}

/// Each has the faults of those after it too.
#[test]
fn after_2_1_3_and_9() {
    for first in [0x31, 0x33, 0x3F] {
        let bytes = [control(first, 0xFF, 0xFD, PGN), vec![0xFD; 8]].concat();
        refuses(2, 0x3D4D_2180, &bytes[..11]);
        refuses(1, 0x1D4D_2180, &bytes[..11]);
        refuses(3, 0x1D4D_2180, &bytes[..8]);
        refuses(3, 0x1C4D_2280, &bytes[..12]);
        refuses(3, 0x1C4D_2121, &bytes[..12]);
        refuses(9, CONTROL_ID, &bytes[..8]);
        refuses(9, CONTROL_ID, &bytes[..16]);
        refuses(16, CONTROL_ID, &bytes[..12]);
    }
}

#[test]
fn after_23() {
    let bytes = control(0x31, 0xFF, 1, PGN);
    let (mut receiver, mut store) = opened();
    let refused = Answer::Refused(Refusal::OutOfBounds);
    assert_eq!(receiver.frame(CONTROL_ID, &bytes, &mut store[..STORE_BYTES - 1]), refused);
    for limits in [Limits { first: 0, second: 1_250 }, Limits { first: 1_250, second: 0 }] {
        receiver.limits = limits;
        assert_eq!(receiver.frame(CONTROL_ID, &bytes, &mut store), refused);
    }
}

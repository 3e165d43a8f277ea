//! 01's table, P12 as E4 of 02 has it, and its whole case as E6 has it; in `restart` what E1 asks for and in `other_end` what E2 asks of a receiver by
//! itself, so that the rules stand on the papers before anything is held against them.

mod other_end;
mod restart;

use rules::groups::{read, Group, Request};
use rules::receiver::{Answer, Ending, Key, Kind, Limits, Receiver, STORE_BYTES};
use rules::{sent, Refusal};

const KEY: Key = Key { sa: 128, da: 33, session: 3 };
const CONTROL_ID: u32 = 0x1C4D_2180;
const DATA_ID: u32 = 0x1C4E_2180;
const PGN: u32 = 65_226;

fn rts(total: u32, segments: u32, max: u8) -> Vec<u8> {
    let (t, s, p) = (total.to_le_bytes(), segments.to_le_bytes(), PGN.to_le_bytes());
    vec![0x30, t[0], t[1], t[2], s[0], s[1], s[2], max, 0, p[0], p[1], p[2]]
}

fn opened() -> (Receiver, Vec<u8>) {
    (Receiver::open(33, Limits::both(1_250), 0).0, vec![0; STORE_BYTES])
}

fn refused_rts(refusal: Refusal) -> Answer {
    Answer::RefusedRts { key: KEY, pgn: PGN, refusal }
}

#[test]
fn p1_to_p5() {
    let one = Group { pgn: 59_904, service: 2, format: 0, start: 4, length: 3, trailer: 0 };
    assert_eq!(read(&[0x40, 0xEA, 0x00, 0x03, 0xCA, 0xFE, 0x00]), Ok(vec![one]));
    assert_eq!(read(&[]), Ok(vec![]));
    assert_eq!(read(&[0x40, 0xFE, 0xCA]), Err(Refusal::GroupHeaderCut));
    assert_eq!(read(&[0x40, 0xFE, 0xCA, 0x01]), Err(Refusal::GroupDataCut));
    assert_eq!(read(&[0x40, 0xEA, 0x21, 0x00]), Err(Refusal::WrongPgn));
}

/// One plain group of this data, packed.
fn packed(data: &[u8]) -> Vec<u8> {
    let (services, formats, pgns, lengths) = (&[2], &[0], &[PGN], &[data.len() as u8]);
    let request = Request { services, formats, pgns, lengths, trailer_lengths: &[0], data, trailers: &[] };
    request.pack(64).unwrap()
}

#[test]
fn p6_and_p7() {
    assert_eq!(packed(&[1; 5]), [0x40, 0xFE, 0xCA, 5, 1, 1, 1, 1, 1, 0, 0, 0]);
    let p7 = packed(&[1; 21]);
    assert_eq!((p7.len(), &p7[25..]), (32, &[0, 0, 0, 0xAA, 0xAA, 0xAA, 0xAA][..]));
}

#[test]
fn p8_p9_p11() {
    let (mut receiver, mut store) = opened();
    let answer = receiver.frame(CONTROL_ID, &rts(61, 1, 255), &mut store);
    assert_eq!(answer, refused_rts(Refusal::AnnouncementNumbers));
    let answer = receiver.frame(CONTROL_ID, &rts(4_097, 69, 255), &mut store);
    assert_eq!(answer, refused_rts(Refusal::MessageTooLarge));
    let answer = receiver.frame(CONTROL_ID, &rts(61, 2, 255), &mut store);
    assert_eq!(answer, Answer::Grant { key: KEY, pgn: PGN, next: 1, count: 2 });
}

#[test]
fn p10() {
    let (mut receiver, mut store) = opened();
    let mut grants = Vec::new();
    let mut note = |answer| {
        if let Answer::Grant { count, .. } = answer {
            grants.push(count);
        }
    };
    note(receiver.frame(CONTROL_ID, &rts(4_096, 69, 255), &mut store));
    for n in 1..=69 {
        let mut segment = vec![n; 64];
        segment[..4].copy_from_slice(&[0x30, n, 0, 0]);
        note(receiver.frame(DATA_ID, &segment, &mut store));
    }
    assert_eq!(grants, [16, 16, 16, 16, 5]);
    assert_eq!((store[4_019], store[4_020], store[4_095], store[4_096]), (67, 68, 69, 0));
}

/// In either wait, each with its own limit: after the RTS the first, with one segment of two in the second.
#[test]
fn p12() {
    for (taken, stays, ends) in [(0, 1_243, 1_244), (1, 743, 744)] {
        let limits = Limits { first: 1_250, second: 750 };
        let (mut receiver, mut store) = (Receiver::open(33, limits, 4_294_967_290).0, vec![0; STORE_BYTES]);
        receiver.frame(CONTROL_ID, &rts(61, 2, 255), &mut store);
        for n in 1..=taken {
            let segment = [vec![0x30, n, 0, 0], vec![0x11; 60]].concat();
            assert_eq!(receiver.frame(DATA_ID, &segment, &mut store), Answer::Taken { key: KEY, segment: n.into() });
        }
        assert_eq!(receiver.reading(stays, &store), Ok([None; 8]));
        let ending = Ending { key: KEY, kind: Kind::Rts, pgn: PGN, refusal: Refusal::Silence, is_spent: false };
        assert_eq!(receiver.reading(ends, &store).unwrap()[0], Some(ending));
    }
}

#[test]
fn whole_case() {
    let (mut receiver, mut store) = opened();
    assert_eq!(receiver.reading(0, &store), Ok([None; 8]));
    let groups = [0x40, 0xEA, 0x00, 0x03, 0xCA, 0xFE, 0x00];
    assert_eq!(receiver.frame(0x1825_2180, &groups, &mut store), Answer::Groups);
    let cts = sent::of_answer(&receiver.frame(CONTROL_ID, &rts(61, 2, 255), &mut store)).unwrap();
    assert_eq!(cts.id, 0x1C4D_8021);
    assert_eq!(cts.bytes, [0x31, 0xFF, 0xFF, 0xFF, 1, 0, 0, 2, 0, 0xCA, 0xFE, 0]);
    let answer = receiver.frame(DATA_ID, &[0x30, 2, 0, 0, 0x11], &mut store);
    assert_eq!(answer, Answer::Taken { key: KEY, segment: 2 });
    let mut due = vec![0; STORE_BYTES];
    due[60] = 0x11;
    assert!(store == due && receiver.missing(KEY) == Ok(1));
}

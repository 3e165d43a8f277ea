//! 23: openings, states out of bounds, and that no call leads out of them.

use crate::{hex, message, Bench, ALL, ID, OWN, PGN, TO};
use rules::sending::{Sender, Transfer, TRANSFERS};
use rules::Refusal;

/// 130 bytes in 3 segments, two of them granted and one out.
const GOOD: Transfer = Transfer {
    destination: TO,
    session: 3,
    pgn: PGN,
    total_bytes: 130,
    next: 2,
    granted: 2,
    last_out: false,
    status_out: false,
    status_owed: false,
    mark: 0,
};
const BROADCAST: Transfer = Transfer { destination: ALL, granted: 3, ..GOOD };

fn with(transfers: &[Transfer]) -> Bench {
    let mut bench = Bench::new();
    for (place, transfer) in bench.sender.transfers.iter_mut().zip(transfers) {
        *place = Some(*transfer);
    }
    bench
}

/// Every call is 23 and changes nothing.
fn is_dead(mut bench: Bench) {
    bench.refuses(23, |bench| bench.announce(TO, 9, PGN, 61));
    bench.refuses(23, |bench| bench.ask(TO, 3, 130));
    bench.refuses(23, |bench| bench.reply("31 FF FF FF 01 00 00 01 00 CA FE 00"));
    let before = bench.clone();
    assert_eq!(bench.sender.reading(0), Err(Refusal::OutOfBounds));
    assert_eq!(bench.sender.reading(100_000), Err(Refusal::OutOfBounds));
    assert_eq!(bench, before);
}

#[test]
fn openings() {
    for (own, limit) in [(254, 1_250), (255, 1_250), (OWN, 0), (OWN, 60_001), (OWN, u32::MAX)] {
        let (sender, verdict) = Sender::open(own, limit, 7);
        assert_eq!(verdict, Err(Refusal::OutOfBounds));
        assert_eq!((sender.own, sender.limit, sender.last_reading), (own, limit, 7));
        is_dead(Bench { sender });
    }
    for (own, limit) in [(0, 1), (253, 60_000)] {
        let (sender, verdict) = Sender::open(own, limit, u32::MAX);
        assert_eq!(verdict, Ok(()));
        assert_eq!(sender.transfers, [None; TRANSFERS]);
        assert!(sender.in_bounds());
    }
}

#[test]
fn out_of_bounds() {
    let bad = [
        Transfer { next: 4, ..GOOD }, // past last granted + 1
        Transfer { next: 0, ..GOOD },
        Transfer { next: 2, granted: 0, ..GOOD },
        Transfer { next: u32::MAX, ..GOOD },
        Transfer { granted: 4, ..GOOD },
        Transfer { granted: u32::MAX, ..GOOD },
        Transfer { destination: 254, ..GOOD },
        Transfer { destination: OWN, ..GOOD },
        Transfer { session: 16, ..GOOD },
        Transfer { pgn: 0x04_FECA, ..GOOD },
        Transfer { pgn: 0x00_EFCA, ..GOOD },
        Transfer { total_bytes: 0, next: 1, granted: 0, ..GOOD },
        Transfer { total_bytes: 4_097, ..GOOD },
        Transfer { total_bytes: u32::MAX, ..GOOD },
        Transfer { granted: 2, ..BROADCAST },
        Transfer { granted: 4, ..BROADCAST },
        Transfer { granted: 0, next: 1, ..BROADCAST },
        Transfer { next: 5, ..BROADCAST },
        Transfer { next: 0, ..BROADCAST },
        Transfer { session: 16, ..BROADCAST },
    ];
    for transfer in bad {
        is_dead(with(&[transfer]));
        let good = Transfer { session: 4, ..GOOD };
        is_dead(with(&[good, Transfer { session: 5, ..good }, Transfer { session: 6, ..good }, transfer]));
    }
}

#[test]
fn two_of_one_destination_and_session() {
    for transfer in [GOOD, BROADCAST] {
        let mut bench = with(&[transfer]);
        bench.sender.transfers[3] = Some(Transfer { pgn: 0, total_bytes: 180, ..transfer });
        is_dead(bench);
        is_dead(with(&[Transfer { session: 1, ..transfer }, transfer, transfer]));
    }
    assert!(with(&[GOOD, BROADCAST, Transfer { session: 4, ..GOOD }, Transfer { destination: 34, ..GOOD }])
        .sender
        .in_bounds());
}

#[test]
fn in_bounds() {
    let good = [
        GOOD,
        Transfer { next: 1, granted: 0, ..GOOD },
        Transfer { next: 3, ..GOOD },
        Transfer { next: 4, granted: 3, ..GOOD },
        Transfer { next: 1, granted: 3, ..GOOD },
        BROADCAST,
        Transfer { next: 4, ..BROADCAST },
        Transfer { next: 1, ..BROADCAST },
        Transfer { mark: u32::MAX, ..GOOD },
        Transfer { last_out: true, status_out: true, status_owed: true, ..GOOD },
        Transfer { destination: 0, session: 15, pgn: 0x03_FFFF, total_bytes: 4_096, next: 70, granted: 69, ..GOOD },
    ];
    for transfer in good {
        assert!(with(&[transfer]).sender.in_bounds(), "{transfer:?}");
    }
}

/// All states in bounds of one transfer of three segments, with its record of what has gone out or is owed free.
fn states() -> Vec<Transfer> {
    let mut states = Vec::new();
    for kind in [GOOD, BROADCAST] {
        for granted in if kind.destination == ALL { 3..=3 } else { 0..=3 } {
            for next in 1..=granted + 1 {
                for flags in 0..8 {
                    let (last_out, status_out, status_owed) = (flags & 1 != 0, flags & 2 != 0, flags & 4 != 0);
                    states.push(Transfer { next, granted, last_out, status_out, status_owed, ..kind });
                }
            }
        }
    }
    states
}

#[test]
fn every_call_stays_in_bounds() {
    let mut replies = vec![
        hex("33 82 00 00 03 00 00 FF FF CA FE 00"),
        hex("33 82 00 00 02 00 00 FF FF CA FE 00"),
        hex("3F FF FF FF FF FF FF FD FA CA FE 00"),
        hex("3F FF FF FF FF FF FF FC FA CA FE 00"),
    ];
    for next in [0, 1, 2, 3, 4, 0xFF] {
        for count in [0, 1, 2, 3, 4, 0xFF] {
            for request in [0, 1, 2, 0xFF] {
                replies.push(vec![0x31, 0xFF, 0xFF, 0xFF, next, 0, 0, count, request, 0xCA, 0xFE, 0]);
            }
        }
    }
    for transfer in states() {
        let bench = with(&[transfer]);
        let stays = |call: &dyn Fn(&mut Sender)| {
            let mut after = bench.sender.clone();
            call(&mut after);
            assert!(after.in_bounds(), "{transfer:?} gives {after:?}");
            assert_eq!((after.own, after.limit), (bench.sender.own, bench.sender.limit));
        };
        for reply in &replies {
            stays(&|sender| drop(sender.control_frame(ID, reply)));
        }
        for bytes in [129, 130] {
            stays(&|sender| drop(sender.next_frame(transfer.destination, 3, &message(bytes))));
        }
        for destination in [TO, ALL, 34] {
            stays(&|sender| drop(sender.announce(destination, 3, PGN, &message(61))));
        }
        for reading in [0, 1_249, 1_250] {
            stays(&|sender| assert!(sender.reading(reading).is_ok()));
        }
    }
}

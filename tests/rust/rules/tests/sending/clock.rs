//! Readings: what ends with 22, what goes out with it, and what renews a mark.

use crate::{told, Bench, ALL, PGN, TO};
use rules::sending::{Event, Transfer};

const CTS: &str = "31 FF FF FF 01 00 00 02 00 CA FE 00";

/// The clock runs round between mark and reading.
#[test]
fn silence_of_an_rts() {
    let mut bench = Bench::at(4_294_967_290);
    assert_eq!(bench.announce(TO, 3, PGN, 61).number(), 0);
    for reading in [4_294_967_290, 4_294_967_295, 0, 1_243] {
        assert_eq!(bench.endings(reading), []);
    }
    let transfer = bench.transfer();
    let endings = bench.endings(1_244);
    assert_eq!(endings.len(), 1);
    assert_eq!(endings[0].transfer, transfer);
    assert_eq!(told(&endings[0].frame), "1C4D2180: 3F FF FF FF FF FF FF FC 03 CA FE 00");
    assert_eq!((bench.open(), bench.sender.last_reading), (0, 1_244));
    assert_eq!(bench.endings(2_000), []);
    bench.refuses(16, |bench| bench.ask(TO, 3, 61));
}

#[test]
fn silence_of_a_broadcast() {
    let mut bench = Bench::at(4_294_967_290);
    assert_eq!(bench.announce(ALL, 3, PGN, 61).number(), 0);
    assert_eq!(bench.ask(ALL, 3, 61).event, Event::Segment(1));
    assert_eq!(bench.endings(1_243), []);
    let endings = bench.endings(1_244);
    assert_eq!(endings.len(), 1);
    assert_eq!((endings[0].transfer.destination, &endings[0].frame), (ALL, &None));
    assert_eq!(bench.open(), 0);
    bench.refuses(16, |bench| bench.ask(ALL, 3, 61));
}

/// A jump of more than half the clock's range forward is a silence, and so is a clock set back.
#[test]
fn the_difference_is_wrapped() {
    for (first, reading, ends) in
        [(0, 1_249, false), (0, 1_250, true), (0, 3_000_000_000, true), (1_000, 999, true), (u32::MAX, 1_248, false)]
    {
        let mut bench = Bench::at(first);
        assert_eq!(bench.announce(TO, 3, PGN, 61).number(), 0);
        assert_eq!(bench.endings(reading).len(), usize::from(ends), "{first} {reading}");
        assert_eq!(bench.sender.last_reading, reading);
    }
}

#[test]
fn only_the_silent_end() {
    let mut bench = Bench::new();
    assert_eq!(bench.announce(TO, 3, PGN, 61).number(), 0);
    assert_eq!(bench.announce(ALL, 3, PGN, 61).number(), 0);
    assert_eq!(bench.endings(1_000), []);
    assert_eq!(bench.announce(TO, 4, PGN, 61).number(), 0);
    assert_eq!(bench.ask(ALL, 3, 61).event, Event::Segment(1));
    let kept: Vec<Transfer> = bench.sender.transfers.into_iter().flatten().skip(1).collect();
    let ended: Vec<u8> = bench.endings(1_250).iter().map(|ending| ending.transfer.session).collect();
    assert_eq!(ended, [3]);
    assert_eq!(bench.sender.transfers.into_iter().flatten().collect::<Vec<Transfer>>(), kept);
    let frames: Vec<String> = bench.endings(2_250).iter().map(|ending| told(&ending.frame)).collect();
    assert_eq!(frames, ["nothing", "1C4D2180: 4F FF FF FF FF FF FF FC 03 CA FE 00"]);
}

/// After these calls at reading 1,249 the transfer outlives reading 1,250, and ends at 2,499.
fn renews(mut bench: Bench, call: impl FnOnce(&mut Bench)) {
    assert_eq!(bench.endings(1_249), []);
    call(&mut bench);
    assert_eq!(bench.transfer().mark, 1_249);
    for reading in [1_250, 2_498] {
        assert_eq!(bench.endings(reading), []);
    }
    assert_eq!(bench.endings(2_499).len(), 1);
}

#[test]
fn what_renews_the_mark() {
    let granted = || Bench::after(61, &[CTS]);
    let waiting = || {
        let mut bench = granted();
        assert_eq!(bench.events().len(), 3);
        bench
    };
    // What it sends: a segment, an EOMS, a broadcast's segment.
    renews(granted(), |bench| assert_eq!(bench.ask(TO, 3, 61).event, Event::Segment(1)));
    let mut all_out = granted();
    for n in 1..=2 {
        assert_eq!(all_out.ask(TO, 3, 61).event, Event::Segment(n));
    }
    renews(all_out, |bench| assert_eq!(bench.ask(TO, 3, 61).event, Event::Status));
    renews(Bench::bam(61), |bench| assert_eq!(bench.ask(ALL, 3, 61).event, Event::Segment(1)));
    // What it takes: a CTS for segments, for none, for the EOMS.
    for bench in [Bench::rts(61), granted(), waiting()] {
        renews(bench.clone(), |bench| assert_eq!(bench.reply(CTS).number(), 0));
        renews(bench, |bench| assert_eq!(bench.reply("31 FF FF FF FF FF FF 00 FF CA FE 00").event, Event::Held));
    }
    let request = "31 FF FF FF FF FF FF FF 01 CA FE 00";
    renews(waiting(), |bench| assert_eq!(bench.reply(request).event, Event::StatusAsked));
    // The announcement.
    let mut bench = Bench::new();
    assert_eq!(bench.endings(1_249), []);
    assert_eq!(bench.announce(TO, 3, PGN, 61).number(), 0);
    assert_eq!(bench.endings(2_498), []);
    assert_eq!(bench.endings(2_499).len(), 1);
}

#[test]
fn what_does_not() {
    let mut bench = Bench::rts(61);
    assert_eq!(bench.endings(1_249), []);
    assert_eq!(bench.ask(TO, 3, 61).event, Event::NothingDue);
    bench.refuses(26, |bench| bench.ask(TO, 3, 60));
    bench.refuses(14, |bench| bench.announce(TO, 3, PGN, 61));
    bench.refuses_reply(16, "31 FF FF FF 01 00 00 02 00 CB FE 00");
    bench.refuses_reply(16, "33 3D 00 00 02 00 00 FF FF CA FE 00");
    bench.refuses_reply(10, "3F FF FF FF FF FF FF FC FA CA FE 00");
    assert_eq!(bench.announce(TO, 4, PGN, 61).number(), 0);
    let ended: Vec<u8> = bench.endings(1_250).iter().map(|ending| ending.transfer.session).collect();
    assert_eq!(ended, [3]);
}

/// A mark is the last reading and not the present time: without readings nothing ends.
#[test]
fn the_first_mark_is_the_openings() {
    let mut bench = Bench::at(500);
    assert_eq!(bench.announce(TO, 3, PGN, 61).number(), 0);
    assert_eq!(bench.transfer().mark, 500);
    assert_eq!(bench.endings(1_749), []);
    assert_eq!(bench.endings(1_750).len(), 1);
}

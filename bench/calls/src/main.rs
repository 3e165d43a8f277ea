//! The calls for C beside plain Rust, on the same frames in one process. See docs/SPEED.md; bench/speed runs it.
//!
//!     calls equal                     compares the answers of both sides
//!     calls time                      case, operations' frames, ns an operation: ours, checked, unchecked
//!     calls cases                     the names of the cases
//!     calls run CASE SIDE ROUNDS      one side of one case, for counting its instructions

mod equal;
mod frames;
mod ours;
mod sending;

use frames::{Frame, Request, Sender, Sending, LIMITS, OWN};
use ours::{Ours, STORE_BYTES};
use plain::receiver::{Answer, Receiver};
use std::hint::black_box;
use std::time::Instant;

const ROUNDS: usize = 100;
/// The least time of a sample.
const SAMPLE_NS: u128 = 100_000;

/// One side of a case: runs the operation so many times.
type Side = Box<dyn FnMut(usize)>;

struct Case {
    name: &'static str,
    /// Calls of one operation.
    calls: usize,
    ours: Side,
    /// Plain Rust that does all that is promised: checks the whole record, judges the whole frame before it writes.
    checked: Side,
    /// Plain Rust that trusts its record, or writes groups as it reads them; none for packing.
    unchecked: Option<Side>,
}

/// Uses a result as a caller would. A black box over the whole of it would read back in one piece what was written in two, and wait.
#[inline(always)]
fn consume(result: Result<usize, plain::Refusal>) {
    match result {
        Ok(count) => black_box(count),
        Err(refusal) => black_box(usize::from(refusal)),
    };
}

fn ours_frames(open: &[Sender], frames: &[Frame]) -> Side {
    let mut ours = Ours::open(OWN, LIMITS, 7);
    for s in open {
        let frame = s.announcement();
        assert_eq!(ours.frame(frame.id, frame.bytes()), 0);
    }
    let frames = frames.to_vec();
    Box::new(move |rounds| {
        for _ in 0..rounds {
            for frame in black_box(&frames[..]) {
                black_box(ours.frame(frame.id, frame.bytes()));
                black_box(&ours.answer);
            }
        }
    })
}

fn opened<const CHECKED: bool>(open: &[Sender], store: &mut [u8]) -> Receiver<CHECKED> {
    let mut receiver = Receiver::open(OWN, LIMITS, 7);
    for s in open {
        let frame = s.announcement();
        let answer = receiver.frame(frame.id, frame.bytes(), store);
        assert!(matches!(answer, Answer::Opened(_) | Answer::Grant { .. }));
    }
    receiver
}

fn plain_frames<const CHECKED: bool>(open: &[Sender], frames: &[Frame]) -> Side {
    let mut store = vec![0; STORE_BYTES];
    let mut receiver = opened::<CHECKED>(open, &mut store);
    let frames = frames.to_vec();
    Box::new(move |rounds| {
        for _ in 0..rounds {
            for frame in black_box(&frames[..]) {
                black_box(&receiver.frame(frame.id, frame.bytes(), &mut store));
            }
        }
    })
}

/// How many segments are missing, asked of each session of a record in turn.
fn missing_case(name: &'static str, open: &[Sender]) -> Case {
    fn plain_questions<const CHECKED: bool>(open: &[Sender], keys: Vec<(u8, u8, u8)>) -> Side {
        let mut store = vec![0; STORE_BYTES];
        let mut receiver = Receiver::<CHECKED>::open(OWN, LIMITS, 7);
        for frame in frames::begun(open) {
            receiver.frame(frame.id, frame.bytes(), &mut store);
        }
        Box::new(move |rounds| {
            for _ in 0..rounds {
                for &(sa, da, number) in black_box(&keys[..]) {
                    consume(black_box(&receiver).missing(sa, da, number).map(|count| count as usize));
                }
            }
        })
    }
    let keys: Vec<_> = open.iter().map(Sender::key).collect();
    let mut ours = Ours::open(OWN, LIMITS, 7);
    for frame in frames::begun(open) {
        assert_eq!(ours.frame(frame.id, frame.bytes()), 0);
    }
    Case {
        name,
        calls: keys.len(),
        checked: plain_questions::<true>(open, keys.clone()),
        unchecked: Some(plain_questions::<false>(open, keys.clone())),
        ours: Box::new(move |rounds| {
            for _ in 0..rounds {
                for &(sa, da, number) in black_box(&keys[..]) {
                    black_box(black_box(&ours).missing(sa, da, number));
                }
            }
        }),
    }
}

/// Frames through the frame call alone.
fn frame_case(name: &'static str, open: &[Sender], frames: &[Frame]) -> Case {
    Case {
        name,
        calls: frames.len(),
        ours: ours_frames(open, frames),
        checked: plain_frames::<true>(open, frames),
        unchecked: Some(plain_frames::<false>(open, frames)),
    }
}

mod with_groups {
    use super::*;
    use ours::GROUPS_WORDS;
    use plain::{Group, MOST_GROUPS};

    fn ours_groups(frames: &[Frame]) -> Side {
        let frames = frames.to_vec();
        let mut words = [0; GROUPS_WORDS];
        Box::new(move |rounds| {
            for _ in 0..rounds {
                for frame in black_box(&frames[..]) {
                    black_box(boundary::groups(frame.bytes(), &mut words));
                    black_box(&words);
                }
            }
        })
    }

    type Unpack = for<'a> fn(&'a [u8], &mut [Group<'a>; MOST_GROUPS]) -> Result<usize, plain::Refusal>;

    fn plain_groups(frames: &[Frame], unpack: Unpack) -> Side {
        let frames = frames.to_vec();
        Box::new(move |rounds| {
            let mut groups = [Group::default(); MOST_GROUPS];
            for _ in 0..rounds {
                for frame in black_box(&frames[..]) {
                    consume(unpack(frame.bytes(), &mut groups));
                    black_box(&groups);
                }
            }
        })
    }

    /// Whole frames unpacked.
    pub fn unpack_case(name: &'static str, frames: &[Frame]) -> Case {
        Case {
            name,
            calls: frames.len(),
            ours: ours_groups(frames),
            checked: plain_groups(frames, plain::unpack),
            unchecked: Some(plain_groups(frames, plain::unpack_as_read)),
        }
    }

    fn ours_stream(open: &[Sender], frames: &[Frame]) -> Side {
        let mut ours = Ours::open(OWN, LIMITS, 7);
        for s in open {
            let frame = s.announcement();
            assert_eq!(ours.frame(frame.id, frame.bytes()), 0);
        }
        let frames = frames.to_vec();
        let mut words = [0; GROUPS_WORDS];
        Box::new(move |rounds| {
            for _ in 0..rounds {
                for frame in black_box(&frames[..]) {
                    black_box(ours.frame(frame.id, frame.bytes()));
                    black_box(&ours.answer);
                    black_box(boundary::groups(frame.bytes(), &mut words));
                    black_box(&words);
                }
            }
        })
    }

    fn plain_stream<const CHECKED: bool>(open: &[Sender], frames: &[Frame]) -> Side {
        let mut store = vec![0; STORE_BYTES];
        let mut receiver = opened::<CHECKED>(open, &mut store);
        let frames = frames.to_vec();
        Box::new(move |rounds| {
            for _ in 0..rounds {
                for frame in black_box(&frames[..]) {
                    if let Answer::Groups(groups) = receiver.frame(frame.id, frame.bytes(), &mut store) {
                        for group in groups {
                            black_box(&group);
                        }
                    }
                }
            }
        })
    }

    /// Multi-PG frames through the frame call, and their groups.
    pub fn stream_case(name: &'static str, open: &[Sender], frames: &[Frame]) -> Case {
        Case {
            name,
            calls: frames.len(),
            ours: ours_stream(open, frames),
            checked: plain_stream::<true>(open, frames),
            unchecked: Some(plain_stream::<false>(open, frames)),
        }
    }
}

fn pack_case(name: &'static str, requests: Vec<Request>) -> Case {
    let (ours, plain) = (requests.clone(), requests);
    Case {
        name,
        calls: ours.len(),
        ours: Box::new(move |rounds| {
            let mut out = [0; 64];
            for _ in 0..rounds {
                for r in black_box(&ours[..]) {
                    black_box(ours::pack(r, &mut out));
                    black_box(&out);
                }
            }
        }),
        checked: Box::new(move |rounds| {
            let mut out = [0; 64];
            for _ in 0..rounds {
                for r in black_box(&plain[..]) {
                    consume(r.pack(&mut out));
                    black_box(&out);
                }
            }
        }),
        unchecked: None,
    }
}

/// The name of a case, how many groups a frame of it has, and how many of them have a trailer.
type Groups = (&'static str, usize, usize);

const UNPACKED: [Groups; 7] = [
    ("unpack-1", 1, 0),
    ("unpack-4", 4, 0),
    ("unpack-15", 15, 0),
    ("unpack-1-trailer", 1, 1),
    ("unpack-4-trailers", 4, 4),
    ("unpack-8-trailers", 8, 8),
    ("unpack-15-one-trailer", 15, 1),
];

const PACKED: [Groups; 4] = [("pack-1", 1, 0), ("pack-4", 4, 0), ("pack-15", 15, 0), ("pack-4-trailers", 4, 4)];

fn cases() -> Vec<Case> {
    let eight: Vec<Sender> = (0..8).map(Sender::nth).collect();
    let four_sent: Vec<Sending> = (0..4).map(Sending::nth).collect();
    let stream = frames::stream();
    let mut cases = Vec::new();
    for (name, groups, trailers) in UNPACKED {
        cases.push(with_groups::unpack_case(name, &frames::packed(&frames::requests(groups, trailers))));
    }
    for (name, groups, trailers) in PACKED {
        cases.push(pack_case(name, frames::requests(groups, trailers)));
    }
    cases.push(frame_case("transfer-rts", &[], &frames::transfers(&eight[..1])));
    cases.push(frame_case("transfer-rts-lost", &[], &frames::lossy_transfer(&eight[0])));
    cases.push(frame_case("transfer-rts-reversed", &[], &frames::reversed_transfer(&eight[0])));
    cases.push(frame_case("transfers-8", &[], &frames::transfers(&eight)));
    cases.push(missing_case("missing-8-open", &eight));
    {
        cases.push(with_groups::stream_case("stream-0-open", &[], &stream));
        cases.push(with_groups::stream_case("stream-4-open", &eight[..4], &stream));
    }
    cases.push(frame_case("judge-0-open", &[], &stream));
    cases.push(frame_case("judge-4-open", &eight[..4], &stream));
    cases.push(sending::send_case("send-rts", Sending::nth(0)));
    cases.push(sending::node_case("node-rts", &[], &frames::transfers(&eight[..1])));
    cases.push(sending::node_case("node-rts-4-sent", &four_sent, &frames::transfers(&eight[..1])));
    cases
}

/// How often each number was seen.
fn counts(seen: &[usize; 256]) -> String {
    let seen: Vec<String> = (0..256).filter(|&n| seen[n] > 0).map(|n| format!("{n}: {}", seen[n])).collect();
    seen.join(", ")
}

fn equal_groups() {
    use equal::groups::{any_frames, compare_any_requests, compare_frames, compare_heads, compare_kinds, compare_requests};
    for (name, groups, trailers) in UNPACKED {
        let requests = frames::requests(groups, trailers);
        assert_eq!(compare_frames(name, &frames::packed(&requests))[0], 16);
        assert_eq!(compare_requests(name, &requests)[0], 16);
    }
    let unpacked = [
        ("heads", compare_heads()),
        ("any groups", compare_frames("any groups", &any_frames(200_000, 6))),
    ];
    for (name, seen) in unpacked {
        eprintln!("{name}: frames equal; numbers {}", counts(&seen));
        assert!([0, 4, 5, 6, 7, 8].iter().all(|&number| seen[number] > 100));
    }
    assert_eq!(compare_requests("no groups", &[Request::default()])[0], 1);
    // plain, and the five formats
    assert_eq!(compare_kinds()[0], 6);
    let seen = compare_any_requests(200_000, 6);
    eprintln!("any groups: requests equal; numbers {}", counts(&seen));
    assert!([0, 6, 7, 8, 24].iter().all(|&number| seen[number] > 100));
}

fn equal_missing(eight: &[Sender]) {
    use equal::missing::{compare, compare_bounds, compare_questions, compare_transfer};
    let transfers = [
        ("in sequence", frames::transfers(&eight[..1]), 0),
        ("segments lost", frames::lossy_transfer(&eight[0]), 3),
        ("reversed", frames::reversed_transfer(&eight[0]), 0),
    ];
    for (name, frames, requests) in &transfers {
        compare_transfer::<true>(name, frames, *requests);
        compare_transfer::<false>(name, frames, *requests);
    }
    compare_questions::<true>(eight);
    compare_questions::<false>(eight);
    for limits in equal::waits::DRAWN {
        compare::<true>(100_000, 6, limits);
        let (met, seen) = compare::<false>(100_000, 6, limits);
        eprintln!(
            "any order, limits {} and {}: calls equal; numbers {}; {met}",
            limits.first,
            limits.second,
            counts(&seen)
        );
    }
    compare_bounds();
}

fn equal() {
    let eight: Vec<Sender> = (0..8).map(Sender::nth).collect();
    let lists = [
        ("one transfer", frames::transfers(&eight[..1])),
        ("one transfer, segments lost", frames::lossy_transfer(&eight[0])),
        ("one transfer, reversed", frames::reversed_transfer(&eight[0])),
        ("eight transfers", frames::transfers(&eight)),
        ("stream", frames::stream()),
        ("noise", frames::noise(200_000, 6)),
    ];
    for (name, frames) in &lists {
        equal::compare::<true>(name, frames);
        let seen = equal::compare::<false>(name, frames);
        eprintln!("{name}: {} frames equal; numbers {}", frames.len(), counts(&seen));
        equal::groups::compare_frames(name, frames);
    }
    equal_groups();
    for limits in equal::waits::DRAWN {
        equal::waits::compare::<true>(100_000, 6, limits);
        let (met, seen) = equal::waits::compare::<false>(100_000, 6, limits);
        eprintln!(
            "limits {} and {}: calls equal; numbers {}; readings: {met}",
            limits.first,
            limits.second,
            counts(&seen)
        );
    }
    equal::waits::compare_bounds();
    equal_missing(&eight);
    equal::sending::compare_send::<true>(&Sending::nth(0));
    equal::sending::compare_send::<false>(&Sending::nth(0));
    for limits in equal::waits::DRAWN {
        equal::sending::compare_calls::<true>(100_000, 6, limits);
        let seen = equal::sending::compare_calls::<false>(100_000, 6, limits);
        eprintln!(
            "sender and node, limits {} and {}: calls equal; numbers {}",
            limits.first,
            limits.second,
            counts(&seen)
        );
    }
}

fn sample(side: &mut Side, repeat: usize) -> u128 {
    let start = Instant::now();
    side(repeat);
    start.elapsed().as_nanos()
}

fn median(times: &mut [u128]) -> u128 {
    times.sort_unstable();
    (times[(times.len() - 1) / 2] + times[times.len() / 2]) / 2
}

fn time(case: Case) {
    let Case {
        name,
        calls,
        ours,
        checked,
        unchecked,
    } = case;
    let mut sides: Vec<Side> = [Some(ours), Some(checked), unchecked].into_iter().flatten().collect();
    let mut repeat = 1;
    while sides.iter_mut().any(|side| sample(side, repeat) < SAMPLE_NS) {
        repeat *= 2;
    }
    let mut times = vec![Vec::with_capacity(ROUNDS); sides.len()];
    for round in 0..ROUNDS {
        for turn in 0..sides.len() {
            let side = (round + turn) % sides.len();
            times[side].push(sample(&mut sides[side], repeat));
        }
    }
    print!("{name}\t{calls}");
    for times in &mut times {
        print!("\t{:.2}", median(times) as f64 / (repeat * calls) as f64);
    }
    println!();
}

fn main() {
    assert_eq!(boundary::version(), boundary::VERSION, "the archive has another version");
    let args: Vec<String> = std::env::args().skip(1).collect();
    match args.iter().map(String::as_str).collect::<Vec<_>>()[..] {
        ["equal"] => equal(),
        ["cases"] => cases()
            .iter()
            .for_each(|c| println!("{}\t{}\t{}", c.name, c.calls, 2 + usize::from(c.unchecked.is_some()))),
        ["time"] => {
            equal();
            cases().into_iter().for_each(time);
        }
        ["run", name, side, rounds] => {
            let case = cases().into_iter().find(|c| c.name == name).expect("a case");
            let mut side = match side {
                "ours" => case.ours,
                "checked" => case.checked,
                "unchecked" => case.unchecked.expect("a record"),
                _ => panic!("a side is ours, checked or unchecked"),
            };
            side(rounds.parse().expect("a number of rounds"));
        }
        _ => {
            eprintln!("usage: calls equal | cases | time | run CASE SIDE ROUNDS");
            std::process::exit(2);
        }
    }
}

//! Holds the archive against the rules, call by call, over fixed seeds, and runs the trace samples through it. Exit status 0 only if no
//! call differed and everything came up that can.

mod groups;
mod limits;
mod network;
mod pair;
mod random;
mod repeats;
mod requests;
mod samples;
mod sender;
mod traffic;
mod trailers;
mod waits;

use network::Counts;
use pair::{Pair, Tally};
use random::Random;
use std::process::ExitCode;
use std::time::Instant;

const SEEDS: [u64; 4] = [1, 22, 333, 4444];
const LEAST_CALLS: u64 = 1_000_000;
const CODES: [&str; 19] = [
    "",
    "groups",
    "opened",
    "taken",
    "grant",
    "handed over",
    "aborted",
    "ended",
    "refused RTS",
    "refused",
    "announced",
    "segment sent",
    "status sent",
    "nothing due",
    "CTS taken",
    "acknowledged",
    "transfer aborted",
    "transfer ended",
    "refused by the sender",
];

/// What failed, to be told at the end.
#[derive(Default)]
struct Faults(Vec<String>);

impl Faults {
    fn add(&mut self, fault: String) {
        eprintln!("FAULT {fault}");
        self.0.push(fault);
    }
}

fn main() -> ExitCode {
    let start = Instant::now();
    let mut faults = Faults::default();
    let mut whole = Tally::default();
    if boundary::version() != boundary::VERSION {
        faults.add(format!("the archive is of version {}", boundary::version()));
    }
    for (i, kind) in traffic::KINDS.iter().enumerate() {
        let tally = run_kind(kind, i as u64, &mut faults);
        print_tally(kind.name, &tally);
        whole.add(&tally);
    }
    run_network(&mut whole, &mut faults);
    let sent_met = run_samples(&mut whole, &mut faults);
    print_whole(&whole);
    if faults.0.is_empty() {
        check_whole(&whole, &mut faults);
    }
    println!("in {:.1} s", start.elapsed().as_secs_f64());
    if faults.0.is_empty() {
        println!("rust: {} calls compared, {sent_met} sent frames met", whole.calls);
        ExitCode::SUCCESS
    } else {
        println!("rust: {} faults", faults.0.len());
        ExitCode::FAILURE
    }
}

/// One kind of traffic over all seeds; each seed ends at its first difference.
fn run_kind(kind: &traffic::Kind, number: u64, faults: &mut Faults) -> Tally {
    let mut tally = Tally::default();
    let before = faults.0.len();
    for seed in SEEDS {
        let mut random = Random::new(seed << 8 | number);
        let mut pair = Pair::new(&mut random);
        let calls = kind.calls / SEEDS.len() as u64;
        if let Err(difference) = (kind.run)(&mut pair, &mut random, calls) {
            let at = pair.tally.calls;
            faults.add(format!("{}, seed {seed}, call {at}: {}", kind.name, difference.0));
        }
        tally.add(&pair.tally);
    }
    // A run that was cut short need not have met everything.
    if faults.0.len() == before {
        for refusal in kind.must_refuse.iter().filter(|&&refusal| tally.numbers[usize::from(refusal)] == 0) {
            faults.add(format!("{}: refusal {refusal} never came up", kind.name));
        }
    }
    tally
}

/// The network of sender and receiver over all seeds, without loss, with any losses, and with segments lost alone.
fn run_network(whole: &mut Tally, faults: &mut Faults) {
    let mut counts = Counts::default();
    let before = faults.0.len();
    for seed in SEEDS {
        let mut random = Random::new(seed << 8 | 0xFF);
        let mut ends = [Pair::new(&mut random), Pair::new(&mut random)];
        let verdict = network::without_loss(&mut ends, &mut random, &mut counts)
            .and_then(|()| network::with_losses(&mut ends, &mut random, &mut counts))
            .and_then(|()| network::with_segments_lost(&mut ends, &mut random, &mut counts));
        let calls = ends.each_ref().map(|end| end.tally.calls);
        if let Err(difference) = verdict {
            faults.add(format!("network, seed {seed}, calls {calls:?}: {}", difference.0));
        }
        ends.iter().for_each(|end| whole.add(&end.tally));
    }
    println!("{}", counts.line());
    if faults.0.len() == before {
        for few in counts.too_few() {
            faults.add(format!("network: too few {few}"));
        }
    }
}

fn run_samples(whole: &mut Tally, faults: &mut Faults) -> u64 {
    let mut random = Random::new(SEEDS[0]);
    let mut pair = Pair::new(&mut random);
    let met = samples::run(&mut pair, &mut random);
    whole.add(&pair.tally);
    match met {
        Ok(met) => {
            println!(
                "samples: {} traces, {} lines met, {} sent frames met in {} of them",
                met.traces, met.lines, met.sent, met.with_sent
            );
            met.sent
        }
        Err(difference) => {
            faults.add(format!("samples: {}", difference.0));
            0
        }
    }
}

fn print_tally(name: &str, tally: &Tally) {
    let refused: Vec<String> = (1..tally.numbers.len())
        .filter(|&number| tally.numbers[number] > 0)
        .map(|number| format!("{number}:{}", tally.numbers[number]))
        .collect();
    println!(
        "{name}: {} calls, {} frames sent, {} messages, {} groups; refusals {}",
        tally.calls,
        tally.sent,
        tally.messages,
        tally.groups,
        refused.join(" ")
    );
}

fn print_whole(whole: &Tally) {
    print_tally("all", whole);
    let codes: Vec<String> = (1..CODES.len()).map(|code| format!("{} {}", CODES[code], whole.codes[code])).collect();
    println!("answers: {}", codes.join(", "));
    let forms: Vec<String> = repeats::NAMES.iter().zip(whole.repeats).map(|(name, n)| format!("{name} {n}")).collect();
    println!("open keys: {}", forms.join(", "));
    let forms: Vec<String> = whole.waits.iter().enumerate().map(|(i, n)| format!("{}: {n}", waits::name(i))).collect();
    println!("two limits: {}", forms.join("; "));
    println!("{}", trailers::line(&whole.trailers));
    println!("{}", requests::line(&whole.requests));
}

/// Every refusal and every answer has to have come up.
fn check_whole(whole: &Tally, faults: &mut Faults) {
    for (number, _) in whole.numbers.iter().enumerate().skip(1).filter(|(_, &count)| count == 0) {
        faults.add(format!("refusal {number} never came up"));
    }
    for (code, _) in whole.codes.iter().enumerate().skip(1).filter(|(_, &count)| count == 0) {
        faults.add(format!("answer {} never came up", CODES[code]));
    }
    for form in waits::missing(&whole.waits) {
        faults.add(format!("with two limits: {form} never came up"));
    }
    if whole.calls < LEAST_CALLS {
        faults.add(format!("only {} calls were compared", whole.calls));
    }
}

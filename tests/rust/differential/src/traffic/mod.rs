//! The kinds of traffic. Each runs until its pair has made as many calls as it is asked for.

mod clock;
mod hostile;
mod multi_pg;
mod network;
mod node;
mod packing;
mod records;
mod repeated;
mod replies;
mod requested;
mod sender_records;
mod sending;
mod small;

use crate::pair::{Pair, Verdict};
use crate::random::Random;

pub struct Kind {
    pub name: &'static str,
    pub calls: u64,
    /// Refusals that this kind has to bring.
    pub must_refuse: &'static [u8],
    pub run: fn(&mut Pair, &mut Random, u64) -> Verdict<()>,
}

pub const KINDS: [Kind; 26] = [
    Kind { name: "valid transfers", calls: 225_000, must_refuse: &[], run: network::valid },
    Kind { name: "interleaved senders", calls: 300_000, must_refuse: &[15, 22], run: network::interleaved },
    Kind {
        name: "damaged transfers",
        calls: 300_000,
        must_refuse: &[1, 2, 3, 9, 16, 18, 19, 20, 21],
        run: network::damaged,
    },
    Kind { name: "slots full and reused", calls: 300_000, must_refuse: &[14, 15], run: network::full },
    Kind {
        name: "hostile frames",
        calls: 300_000,
        must_refuse: &[1, 2, 3, 8, 9, 10, 11, 12, 13, 14, 15, 16, 17, 18, 19, 20, 21],
        run: hostile::run,
    },
    Kind { name: "clocks", calls: 225_000, must_refuse: &[22], run: clock::run },
    Kind { name: "records of any bytes", calls: 90_000, must_refuse: &[23], run: records::any_bytes },
    Kind { name: "records of any fields", calls: 90_000, must_refuse: &[23], run: records::any_fields },
    Kind { name: "records at the edges", calls: 300_000, must_refuse: &[18, 19, 20, 21, 22, 23], run: records::edges },
    Kind { name: "buffers of other lengths", calls: 90_000, must_refuse: &[23], run: records::other_lengths },
    Kind { name: "Multi-PG frames", calls: 300_000, must_refuse: &[1, 4, 5, 6, 7, 8], run: multi_pg::frames },
    Kind { name: "packing", calls: 300_000, must_refuse: &[6, 7, 8, 24], run: packing::packing },
    Kind { name: "least lengths and openings", calls: 120_000, must_refuse: &[23], run: small::lengths_and_openings },
    Kind { name: "messages of any answer", calls: 90_000, must_refuse: &[], run: small::messages },
    Kind {
        name: "repeated announcements",
        calls: 225_000,
        must_refuse: &[8, 11, 12, 13, 14, 15, 17, 18, 20, 21, 22],
        run: repeated::run,
    },
    Kind {
        name: "sender's calls",
        calls: 1_500_000,
        must_refuse: &[1, 2, 3, 8, 9, 10, 14, 16, 22, 25, 26, 27],
        run: sending::calls,
    },
    Kind { name: "sender's openings", calls: 100_000, must_refuse: &[23], run: sending::openings },
    Kind {
        name: "sender's buffers of other lengths",
        calls: 400_000,
        must_refuse: &[16, 23, 26],
        run: sending::other_lengths,
    },
    Kind {
        name: "sender's records of any bytes",
        calls: 400_000,
        must_refuse: &[16, 23],
        run: sender_records::any_bytes,
    },
    Kind {
        name: "sender's records at the edges",
        calls: 1_000_000,
        must_refuse: &[14, 16, 22, 23, 25, 26, 27],
        run: sender_records::edges,
    },
    Kind {
        name: "sender's records with turned bits",
        calls: 600_000,
        must_refuse: &[16, 22, 23, 26, 27],
        run: sender_records::turned_bits,
    },
    Kind {
        name: "node's frames",
        calls: 800_000,
        must_refuse: &[1, 2, 3, 8, 9, 10, 11, 14, 16, 19, 21, 22, 25, 26, 27],
        run: node::frames,
    },
    Kind { name: "node's damaged records", calls: 500_000, must_refuse: &[3, 16, 23, 27], run: node::damaged },
    Kind { name: "records of any wait", calls: 200_000, must_refuse: &[22, 23], run: records::waits },
    Kind {
        name: "segments lost and asked for",
        calls: 600_000,
        must_refuse: &[15, 16, 17, 18, 19, 20, 21, 22],
        run: requested::run,
    },
    Kind {
        name: "records of any segments and requests",
        calls: 300_000,
        must_refuse: &[16, 18, 19, 20, 21, 22, 23],
        run: records::requests,
    },
];

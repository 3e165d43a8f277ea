//! The trace program of 01 over the receiver in plain Rust (bench/plain), to measure against and to compare lines with.
//! It was written from 01 and shares nothing with crates/.
//!
//!     baseline < TRACE          the lines of 01, "Program"
//!     baseline --sent < TRACE   each control frame sent: record (from 0), identifier and bytes in hex

mod lines;
mod records;

use plain::receiver::{Limits, Receiver};
use plain::{SLOTS, SLOT_BYTES};
use records::{Next, Records};
use std::io::{self, Write};

const FULL: usize = 1 << 16;

fn main() -> io::Result<()> {
    let sent_only = std::env::args().any(|a| a == "--sent");
    let mut records = Records::new(io::stdin().lock());
    let limits = Limits {
        first: 1250,
        second: 1250,
    };
    // It trusts its record.
    let mut receiver = Receiver::<false>::open(33, limits, 0);
    let mut store = vec![0; SLOTS * SLOT_BYTES];
    let mut out = Vec::with_capacity(2 * FULL);
    let mut stdout = io::stdout().lock();
    let mut count: u64 = 0;
    loop {
        match records.next()? {
            Next::Reading(now) => {
                let read = receiver.reading(now, |_, ended| {
                    if sent_only {
                        lines::sent(&mut out, count, ended.sent());
                    } else {
                        lines::session(&mut out, &ended);
                    }
                });
                read.expect("a trusted record");
            }
            Next::Frame(id, bytes) => {
                let answer = receiver.frame(id, bytes, &mut store);
                if sent_only {
                    lines::sent(&mut out, count, answer.sent());
                } else {
                    lines::answer(&mut out, id, &answer);
                }
            }
            Next::End => {
                if !sent_only {
                    lines::end(&mut out, count);
                }
                break;
            }
            Next::Bad(offset) => {
                if !sent_only {
                    lines::bad(&mut out, offset);
                }
                break;
            }
        }
        count += 1;
        if out.len() >= FULL {
            stdout.write_all(&out)?;
            out.clear();
        }
    }
    stdout.write_all(&out)?;
    stdout.flush()
}

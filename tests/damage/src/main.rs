//! Calls on the proved box through the C interface and on `second`, side by
//! side, with the same boxes and records.
//!
//!     damage CALLS
//!
//! Each record is called under both profiles, the full box and level one, and on the
//! full box through both of its entries, which count as one call. First what has a plan:
//! each damage, each pair of them, each wrong size, each mark and length of a row, each
//! cut of a record, hand-made boxes for level one. Then random boxes and records until
//! CALLS calls are made.

#![forbid(unsafe_code)]

mod counts;
mod planned;
mod random;

use std::env;
use std::process::ExitCode;

use counts::Counts;

fn main() -> ExitCode {
    let argument = env::args().nth(1);
    let calls = match argument.and_then(|calls| calls.parse().ok()) {
        Some(calls) => calls,
        None => {
            eprintln!("usage: damage CALLS");
            return ExitCode::from(2);
        }
    };
    let mut counts = Counts::default();
    planned::sizes(&mut counts);
    planned::damages_alone(&mut counts);
    planned::damages_in_pairs(&mut counts);
    planned::marks(&mut counts);
    planned::spent_rows(&mut counts);
    planned::cuts(&mut counts);
    planned::contents_cut(&mut counts);
    planned::cuts_followed(&mut counts);
    planned::level_one(&mut counts);
    planned::level_one_damaged(&mut counts);
    counts.part("planned");
    for seed in 0.. {
        if counts.calls() >= calls {
            break;
        }
        random::round(&mut counts, seed);
        counts.progress(calls);
    }
    counts.part("random");
    counts.summary()
}

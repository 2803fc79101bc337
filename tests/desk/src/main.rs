//! The tank desk through the C interface, against `second` and against what this test
//! itself makes of the request's words. Every tank and every list is asked about on
//! both sides; after each, nothing of the box and no lent buffer is altered.
//!
//!     desk
//!
//! The corrections are logged by programs in the box, through `caif_call`.

#![forbid(unsafe_code)]

mod corrections;
mod counts;
mod desk;
mod lists;
mod order;
mod random;
mod ranges;
mod unsound;
mod wanted;

use std::process::ExitCode;

use counts::Counts;

fn main() -> ExitCode {
    let mut counts = Counts::default();
    ranges::check(&mut counts);
    counts.part("readings and setpoints");
    corrections::check(&mut counts);
    counts.part("all corrections");
    order::check(&mut counts);
    counts.part("order of the refusals");
    unsound::check(&mut counts);
    counts.part("boxes that are not sound");
    lists::check(&mut counts);
    counts.part("lists");
    random::check(&mut counts);
    counts.part("random tanks and lists");
    counts.summary()
}

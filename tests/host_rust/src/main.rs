//! A host in Rust. All that is expected is written by hand.

#![forbid(unsafe_code)]

mod calls;
mod desk;
mod draws;
mod layout;
mod lent;
mod level_one;
mod refusals;

use std::process::ExitCode;

use interface::Tally;

fn main() -> ExitCode {
    let mut tally = Tally::default();
    layout::check(&mut tally);
    calls::check(&mut tally);
    draws::check(&mut tally);
    refusals::check(&mut tally);
    lent::check(&mut tally);
    level_one::check(&mut tally);
    desk::check(&mut tally);
    tally.summary()
}

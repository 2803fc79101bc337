//! The proved box, through the C interface, beside the plain Rust of `second`.
//! Both get the same boxes and records; their answers and buffers are compared
//! once before the timing. Then level-one calls, beside full calls of the archive and
//! beside `second`; calls with the box record lent, beside those by value and beside
//! `second`; and the tank desk beside `second`'s.
//!
//!     bench ROUNDS BOXRUN SECOND SCRIPT
//!
//! BOXRUN and SECOND are programs, SCRIPT is a file to write scripts to.

#![forbid(unsafe_code)]

mod boxes;
mod calls;
mod desk;
mod lent;
mod level_one;
mod rounds;
mod sheets;
mod table;

use std::process::ExitCode;
use std::{env, io};

fn main() -> io::Result<ExitCode> {
    let arguments: Vec<String> = env::args().skip(1).collect();
    match &arguments[..] {
        [rounds, boxrun, second, script] => match rounds.parse() {
            Ok(rounds @ 1..) => time(rounds, boxrun, second, script),
            _ => refuse("ROUNDS is a number, 1 or more"),
        },
        _ => refuse("usage: bench ROUNDS BOXRUN SECOND SCRIPT"),
    }
}

fn refuse(message: &str) -> io::Result<ExitCode> {
    eprintln!("{message}");
    Ok(ExitCode::from(2))
}

fn time(rounds: usize, boxrun: &str, second: &str, script: &str) -> io::Result<ExitCode> {
    let sheet_rounds = (rounds / 20).max(1);
    println!("medians of {rounds} rounds, of {sheet_rounds} for a sheet, in microseconds;");
    println!("both sides in each round\n");
    table::head();
    for case in calls::cases() {
        case.time(rounds)?;
    }
    sheets::time(sheet_rounds, boxrun, second, script)?;
    table::level_one_head();
    for case in level_one::cases() {
        case.time(rounds)?;
    }
    table::lent_head();
    for case in lent::cases() {
        case.time(rounds)?;
    }
    table::desk_head();
    for case in desk::cases() {
        case.time(rounds)?;
    }
    Ok(ExitCode::SUCCESS)
}

//! Feeds scripts to two programs on their standard input and compares the sheets
//! that they print, byte for byte, with those of `second`.
//!
//!     scripts BOXRUN LEVELONE [COUNT [FIRST_SEED]]
//!
//! BOXRUN prints the full box's sheet and LEVELONE the level-one paper's; every
//! script goes to both. The scripts are the cases of `differential::cases` and then
//! COUNT generated ones for each profile, with the seeds from FIRST_SEED on. To see
//! one failed seed again, give 1 and the seed.

#![forbid(unsafe_code)]

mod generated;
mod marker;
mod program;

use std::ffi::{OsStr, OsString};
use std::ops::Range;
use std::process::ExitCode;
use std::{env, thread};

use differential::{cases, play, play_level_one, Case};
use second::Profile;

use generated::Generated;
use marker::Marker;

const COUNT: u64 = 2_400;

fn main() -> ExitCode {
    let mut arguments = env::args_os().skip(1);
    let programs = (arguments.next(), arguments.next());
    let count = arguments.next().map_or(Some(COUNT), number);
    let first = arguments.next().map_or(Some(0), number);
    match (programs, count, first) {
        ((Some(boxrun), Some(levelone)), Some(count), Some(first)) => {
            compare(&boxrun, &levelone, count, first)
        }
        _ => {
            eprintln!("usage: scripts BOXRUN LEVELONE [COUNT [FIRST_SEED]], the last two numbers");
            ExitCode::from(2)
        }
    }
}

fn number(argument: OsString) -> Option<u64> {
    argument.to_str()?.parse().ok()
}

/// The two programs side by side.
fn compare(boxrun: &OsStr, levelone: &OsStr, count: u64, first: u64) -> ExitCode {
    let (cases, seeds) = (cases::all(), first..first.saturating_add(count));
    let markers = thread::scope(|scope| {
        let level_one = scope.spawn(|| mark(Profile::LevelOne, levelone, &cases, seeds.clone()));
        let full = mark(Profile::Full, boxrun, &cases, seeds.clone());
        [full, level_one.join().expect("the marker doesn't panic")]
    });
    markers.iter().for_each(|marker| print!("{}", marker.told));
    let passed: u64 = markers.iter().map(|marker| marker.passed).sum();
    let failed: u64 = markers.iter().map(|marker| marker.failed).sum();
    println!("{passed} passed, {failed} failed");
    ExitCode::from(u8::from(failed > 0))
}

/// All scripts under one profile: the cases, those generated for it, and those
/// generated for the other.
fn mark<'a>(profile: Profile, program: &'a OsStr, cases: &[Case], seeds: Range<u64>) -> Marker<'a> {
    let mut marker = Marker::new(profile, program);
    cases.iter().for_each(|case| drop(marker.compare(case)));
    marker.fixed_coverage();
    let mut papers = Generated::new(profile);
    let enough = seeds.end - seeds.start >= COUNT;
    for seed in seeds {
        match profile {
            Profile::Full => {
                papers.compare(&mut marker, seed, play(seed));
                marker.compare(&generated::case(Profile::LevelOne, seed, play_level_one(seed)));
            }
            Profile::LevelOne => {
                papers.compare(&mut marker, seed, play_level_one(seed));
                marker.compare(&generated::case(Profile::Full, seed, play(seed)));
            }
        }
    }
    marker.coverage();
    if enough {
        papers.coverage(&mut marker);
    }
    marker.tell_more();
    marker
}

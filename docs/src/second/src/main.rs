//! Reads a script from standard input and prints its answer sheet: the full box's,
//! or with the argument `--level-one` the level-one paper's.
//!
//! Open: document 01 gives no exit status and nothing for input or output that
//! fails. Here every sheet printed whole ends with status 0, and an error of
//! the system's is reported on standard error with status 1. Any other argument is
//! answered with the usage on standard error and status 2, no input being read.

#![forbid(unsafe_code)]

use std::env;
use std::io::{self, Read, Write};
use std::process::ExitCode;

use second::{sheet, sheet_level_one, SCRIPT_MAX};

/// Makes the sheet of a script.
type Maker = fn(&[u8]) -> Vec<u8>;

fn main() -> io::Result<ExitCode> {
    let make = match maker_asked_for() {
        Some(make) => make,
        None => {
            // The status tells it too, so a message that can't be written is let go.
            let _ = writeln!(io::stderr(), "usage: second [--level-one]");
            return Ok(ExitCode::from(2));
        }
    };
    // One byte over the limit is enough to know a script too long.
    // Open: document 01 doesn't say whether the input behind it is read. Here
    // it is left.
    let limit = SCRIPT_MAX as u64 + 1;
    let mut script = Vec::new();
    io::stdin().lock().take(limit).read_to_end(&mut script)?;
    let mut stdout = io::stdout().lock();
    stdout.write_all(&make(&script))?;
    stdout.flush()?;
    Ok(ExitCode::SUCCESS)
}

/// What makes the sheet that the arguments ask for, or none where they are wrong.
fn maker_asked_for() -> Option<Maker> {
    let mut arguments = env::args_os().skip(1);
    match (arguments.next(), arguments.next()) {
        (None, _) => Some(sheet),
        (Some(argument), None) if argument == "--level-one" => Some(sheet_level_one),
        _ => None,
    }
}

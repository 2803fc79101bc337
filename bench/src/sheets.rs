//! The programs on the longest scripts, their sheets thrown away.

use std::fs::{self, File};
use std::io::{self, ErrorKind};
use std::process::{Command, Stdio};
use std::time::{Duration, Instant};

use differential::calls::{create, hand_over, heap_write, protect, record_of, release, retrieve};
use differential::play::long_script;
use second::{Call, DRAW_LIMIT, HEADER, ROWS, SCRIPT_MAX};

use crate::table;

/// Three scripts of up to 65,536 bytes: one of the shortest records, one of any, one whose
/// escrow would be full without its releases.
pub fn time(rounds: usize, boxrun: &str, second: &str, path: &str) -> io::Result<()> {
    let reports = record_of(&Call::Report).repeat(SCRIPT_MAX / 2);
    time_script("sheet of 32,768 reports", rounds, [boxrun, second], path, &reports)?;
    let played = long_script(2, SCRIPT_MAX);
    time_script("sheet of 65,536 bytes of calls", rounds, [boxrun, second], path, &played)?;
    let name = "sheet of 64 protects of 256 bytes, 48 releases and retrieves";
    time_script(name, rounds, [boxrun, second], path, &released())
}

/// The values that fill the escrow's bytes.
const LIVE: usize = 16;

/// As many values of 256 bytes as there are rows, each of which is released before there
/// is no room for another. Retrieves of those that are there fill the script. All calls
/// are accepted.
fn released() -> Vec<u8> {
    let mut script = [record_of(&create(0, 1)), record_of(&hand_over(0))].concat();
    let handle = |n: usize| 256 * DRAW_LIMIT + n as u64;
    for n in 0..ROWS {
        script.extend(record_of(&heap_write(0, 0, &[n as u8; 256])));
        if n >= LIVE {
            script.extend(record_of(&release(1, handle(n - LIVE))));
        }
        script.extend(record_of(&protect(1, 0, 256, n as u64)));
        let oldest = (n + 1).saturating_sub(LIVE);
        let there = (oldest..=n).map(|n| record_of(&retrieve(1, 0, handle(n))));
        for record in there.collect::<Vec<_>>().iter().cycle() {
            if script.len() + record.len() > SCRIPT_MAX * (n + 1) / ROWS {
                break;
            }
            script.extend(record);
        }
    }
    let sheet = second::sheet(&script);
    assert!(sheet[HEADER.len()..].split_inclusive(|&byte| byte == b'\n').all(is_accepted));
    script
}

/// A line of a sheet with code 0.
fn is_accepted(line: &[u8]) -> bool {
    line.starts_with(b"0 ")
}

fn time_script(
    name: &str,
    rounds: usize,
    [boxrun, second]: [&str; 2],
    path: &str,
    script: &[u8],
) -> io::Result<()> {
    fs::write(path, script)?;
    if sheet(boxrun, path)? != sheet(second, path)? {
        return Err(io::Error::new(ErrorKind::Other, format!("{name}: the sheets differ")));
    }
    let (mut proved, mut plain) = (Vec::new(), Vec::new());
    for round in 0..rounds {
        if round % 2 == 0 {
            proved.push(run(boxrun, path)?);
            plain.push(run(second, path)?);
        } else {
            plain.push(run(second, path)?);
            proved.push(run(boxrun, path)?);
        }
    }
    table::line(name, proved, plain);
    Ok(())
}

fn sheet(program: &str, path: &str) -> io::Result<Vec<u8>> {
    Ok(Command::new(program).stdin(File::open(path)?).output()?.stdout)
}

/// From the start of the program to its end.
fn run(program: &str, path: &str) -> io::Result<Duration> {
    let mut command = Command::new(program);
    command.stdin(File::open(path)?).stdout(Stdio::null());
    let began = Instant::now();
    let status = command.status()?;
    let took = began.elapsed();
    if status.success() {
        Ok(took)
    } else {
        Err(io::Error::new(ErrorKind::Other, format!("{program}: {status}")))
    }
}

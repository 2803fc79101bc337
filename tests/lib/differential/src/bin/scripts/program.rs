//! A program's sheet, and two sheets compared.

use std::ffi::OsStr;
use std::io::{self, ErrorKind, Write};
use std::process::{Command, Stdio};
use std::thread;

/// What the program prints on standard output. Document 01 gives no exit
/// status, so only a program that was killed counts as failed.
pub fn run(program: &OsStr, script: &[u8]) -> io::Result<Vec<u8>> {
    let mut child = Command::new(program).stdin(Stdio::piped()).stdout(Stdio::piped()).spawn()?;
    let mut stdin = child.stdin.take().expect("standard input is piped");
    // A thread writes, so that a program may print before it has read all.
    let (written, output) = thread::scope(|scope| {
        let writer = scope.spawn(move || stdin.write_all(script));
        let output = child.wait_with_output();
        (writer.join().expect("the writer doesn't panic"), output)
    });
    match written {
        // A program may leave input that it has no use for.
        Err(error) if error.kind() != ErrorKind::BrokenPipe => return Err(error),
        _ => {}
    }
    let output = output?;
    match output.status.code() {
        Some(_) => Ok(output.stdout),
        None => Err(io::Error::new(ErrorKind::Other, output.status.to_string())),
    }
}

/// Whether a sheet is the one of `second`, else the first line that differs.
pub fn same(sheet: &[u8], expected: &[u8], whose: &str) -> Result<(), String> {
    if sheet == expected {
        return Ok(());
    }
    let mut lines = sheet.split_inclusive(|&byte| byte == b'\n');
    let mut expected = expected.split_inclusive(|&byte| byte == b'\n');
    let mut number = 1;
    loop {
        let (line, wanted) = (lines.next(), expected.next());
        if line != wanted {
            let (line, wanted) = (shown(line), shown(wanted));
            return Err(format!("line {number}\n{whose}: {line}\nsecond: {wanted}"));
        }
        number += 1;
    }
}

fn shown(line: Option<&[u8]>) -> String {
    line.map_or("no such line".into(), |line| line.escape_ascii().to_string())
}

pub fn hex(bytes: &[u8]) -> String {
    bytes.iter().map(|byte| format!("{byte:02x}")).collect()
}

//! The answer sheet of a script.

use std::io::Write;

use crate::answer::{Answer, Refusal};
use crate::calls::SoundBox;
use crate::profile::Profile;
use crate::tables::{Host, OUTPUT_SIZE};

pub const HEADER: &[u8] = b"code number used bytes\n";

/// The longest script, in bytes.
pub const SCRIPT_MAX: usize = 65_536;

/// Runs a script of records on a fresh box and gives the sheet: the header,
/// then a line a record. It stops when no input is left, or after a line with
/// 1, 2 or 3.
pub fn sheet(script: &[u8]) -> Vec<u8> {
    sheet_under(Profile::Full, script)
}

/// As [`sheet`], in the level-one paper.
pub fn sheet_level_one(script: &[u8]) -> Vec<u8> {
    sheet_under(Profile::LevelOne, script)
}

fn sheet_under(profile: Profile, script: &[u8]) -> Vec<u8> {
    let mut sheet = HEADER.to_vec();
    if script.len() > SCRIPT_MAX {
        put_line(&mut sheet, &Answer::refused(Refusal::ScriptTooLong, 0), &[]);
        return sheet;
    }
    let mut host = Host::fresh();
    let mut tables = host.lend();
    let mut output = [0; OUTPUT_SIZE];
    // Soundness is tested once: the fresh box is sound and calls keep it so.
    let mut sound_box = SoundBox::new(&mut tables, &mut output).expect("a fresh box is sound");
    let mut sound_box = sound_box.under(profile);
    let mut rest = script;
    while !rest.is_empty() {
        let answer = sound_box.run(rest);
        put_line(&mut sheet, &answer, &sound_box.output()[..answer.shown]);
        if matches!(answer.code, 1..=3) {
            break;
        }
        rest = &rest[answer.used..];
    }
    sheet
}

fn put_line(sheet: &mut Vec<u8>, answer: &Answer, shown: &[u8]) {
    write!(sheet, "{} {} {} ", answer.code, answer.number, answer.used)
        .expect("a Vec takes all that is written");
    put_hex(sheet, shown);
    sheet.push(b'\n');
}

/// Lower-case hexadecimal, or "-" for no bytes.
fn put_hex(sheet: &mut Vec<u8>, bytes: &[u8]) {
    const DIGITS: &[u8; 16] = b"0123456789abcdef";
    if bytes.is_empty() {
        sheet.push(b'-');
    }
    sheet.reserve(2 * bytes.len() + 1);
    for byte in bytes {
        sheet.push(DIGITS[usize::from(byte >> 4)]);
        sheet.push(DIGITS[usize::from(byte & 15)]);
    }
}

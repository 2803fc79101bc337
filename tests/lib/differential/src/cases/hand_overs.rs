//! Hand over, kind 14, and the retired kinds 2 and 3. Records and lines are
//! written by hand, the last case's alone are computed.

use super::first_fault;
use crate::calls::{create, hand_over, heap_read, heap_write};
use crate::case::Case;

pub fn cases() -> Vec<Case> {
    let mut cases = vec![
        to_16_while_one_runs(),
        to_16_while_none_runs(),
        to_another_place_and_back(),
        to_another_place_of_one_identity(),
        to_the_running_place(),
        to_an_empty_place_while_one_runs(),
        to_an_emptied_place(),
        above_16_while_one_runs(),
        six_before_seven(),
        needs_no_running_service(),
        tables_and_shared_memory_stay(),
        every_place_to_every_byte(),
    ];
    cases.extend(wrong_maps());
    cases.push(cut());
    cases.extend(retired());
    cases
}

/// Identity 1 in place 0.
const CREATE_0: (&str, &str) = ("07 01 00 0100000000000000", "0 0 11 -");
/// Identity 2 in place 1.
const CREATE_1: (&str, &str) = ("07 01 01 0200000000000000", "0 1 11 -");
/// To place 0, accepted.
const TO_0: (&str, &str) = ("03 0E 00", "0 0 3 -");
/// To place 1, accepted.
const TO_1: (&str, &str) = ("03 0E 01", "0 0 3 -");
/// To 16, accepted.
const TO_16: (&str, &str) = ("03 0E 10", "0 0 3 -");
/// "ab" at the front of place 0's heap, while it runs.
const WRITE_0: (&str, &str) = ("4B 05 00 0000 0200 6162", "0 2 9 -");
/// That it stands there, and that place 0 runs.
const READ_0: (&str, &str) = ("1B 06 00 0000 0200", "0 2 7 6162");
/// The same while none runs, and while another place does.
const NONE_TO_READ: (&str, &str) = ("1B 06 00 0000 0200", "4 0 7 -");
const OTHER_RUNS: (&str, &str) = ("1B 06 00 0000 0200", "8 0 7 -");

/// Records in hexadecimal, each with its line. One after the sheet's end has
/// none.
pub(super) fn written(name: &str, records: &[(&str, &str)]) -> Case {
    let mut case = Case::new(name);
    let mut sheet = String::from("code number used bytes\n");
    for (record, line) in records {
        case.script.extend(bytes(record));
        if !line.is_empty() {
            sheet.push_str(line);
            sheet.push('\n');
        }
    }
    case.sheet = Some(sheet);
    case
}

/// The bytes of hexadecimal digits, spaces aside.
pub(super) fn bytes(digits: &str) -> Vec<u8> {
    let digits: Vec<u32> = digits.chars().filter(|&digit| digit != ' ').map(value).collect();
    digits.chunks(2).map(|pair| (16 * pair[0] + pair[1]) as u8).collect()
}

fn value(digit: char) -> u32 {
    digit.to_digit(16).expect("a hexadecimal digit")
}

/// It yields, the heap is retained.
fn to_16_while_one_runs() -> Case {
    written(
        "hand over to 16 while one runs",
        &[
            CREATE_0,
            TO_0,
            WRITE_0,
            TO_16,
            NONE_TO_READ,
            ("01 04", "4 0 2 -"),
            ("01 0D", "0 1 2 -"),
            TO_0,
            READ_0,
        ],
    )
}

/// On a fresh box, before a service has run, and again and again.
fn to_16_while_none_runs() -> Case {
    written(
        "hand over to 16 while none runs",
        &[
            TO_16,
            ("01 0D", "0 0 2 -"),
            CREATE_0,
            TO_16,
            TO_16,
            NONE_TO_READ,
            TO_0,
            WRITE_0,
            ("01 04", "0 0 2 -"),
            TO_16,
            ("01 0D", "0 0 2 -"),
        ],
    )
}

/// Each service has its own heap, as it left it.
fn to_another_place_and_back() -> Case {
    written(
        "hand over to another place and back",
        &[
            CREATE_0,
            CREATE_1,
            TO_0,
            WRITE_0,
            TO_1,
            OTHER_RUNS,
            ("1B 06 01 0000 0200", "0 2 7 0000"),
            ("4B 05 01 0000 0200 6364", "0 2 9 -"),
            TO_0,
            READ_0,
            ("1B 06 01 0000 0200", "8 0 7 -"),
            TO_1,
            ("1B 06 01 0000 0200", "0 2 7 6364"),
            ("01 0D", "0 2 2 -"),
        ],
    )
}

/// One principal with two heaps: the other place is another place.
fn to_another_place_of_one_identity() -> Case {
    written(
        "hand over to another place of one identity",
        &[
            CREATE_0,
            ("07 01 0F 0100000000000000", "0 15 11 -"),
            TO_0,
            WRITE_0,
            ("03 0E 0F", "0 0 3 -"),
            OTHER_RUNS,
            ("1B 06 0F 0000 0200", "0 2 7 0000"),
            TO_0,
            READ_0,
        ],
    )
}

/// Nothing is altered: the heap, the report and who runs are as before.
fn to_the_running_place() -> Case {
    written(
        "hand over to the running place",
        &[
            CREATE_0,
            CREATE_1,
            TO_0,
            WRITE_0,
            ("01 0D", "0 2 2 -"),
            READ_0,
            TO_0,
            READ_0,
            TO_0,
            TO_0,
            READ_0,
            ("01 0D", "0 2 2 -"),
            ("4B 05 00 0100 0100 7A", "0 1 8 -"),
            TO_0,
            ("1B 06 00 0000 0300", "0 3 7 617a00"),
        ],
    )
}

/// Refused with 7; the old service still runs.
fn to_an_empty_place_while_one_runs() -> Case {
    written(
        "hand over to an empty place while one runs",
        &[
            CREATE_0,
            TO_0,
            WRITE_0,
            ("03 0E 01", "7 0 3 -"),
            READ_0,
            ("03 0E 0F", "7 0 3 -"),
            READ_0,
            CREATE_1,
            TO_1,
            OTHER_RUNS,
            ("03 0E 02", "7 0 3 -"),
            ("1B 06 01 0000 0100", "0 1 7 00"),
        ],
    )
}

/// A place that its service has left is empty.
fn to_an_emptied_place() -> Case {
    written(
        "hand over to an emptied place",
        &[
            CREATE_0,
            CREATE_1,
            TO_0,
            WRITE_0,
            ("01 04", "0 0 2 -"),
            ("03 0E 00", "7 0 3 -"),
            NONE_TO_READ,
            TO_1,
            ("03 0E 00", "7 0 3 -"),
            ("1B 06 01 0000 0100", "0 1 7 00"),
            CREATE_0,
            TO_0,
            ("1B 06 00 0000 0200", "0 2 7 0000"),
        ],
    )
}

/// Refused with 6; the old service still runs. 32 is 0 modulo 16 and modulo 32.
fn above_16_while_one_runs() -> Case {
    written(
        "hand over to 17 and 255 while one runs",
        &[
            CREATE_0,
            CREATE_1,
            TO_0,
            WRITE_0,
            ("03 0E 11", "6 0 3 -"),
            READ_0,
            ("03 0E FF", "6 0 3 -"),
            READ_0,
            ("03 0E 20", "6 0 3 -"),
            READ_0,
            TO_1,
            OTHER_RUNS,
        ],
    )
}

/// Place 17 is 6 on a box where no place is taken, and place 15 is 7.
fn six_before_seven() -> Case {
    written(
        "6 before 7 in hand over",
        &[
            ("03 0E 11", "6 0 3 -"),
            ("03 0E 0F", "7 0 3 -"),
            ("03 0E 00", "7 0 3 -"),
            ("03 0E 12", "6 0 3 -"),
            ("03 0E FF", "6 0 3 -"),
            TO_16,
        ],
    )
}

/// Never 4: a service is started while none runs, first of all and after an exit.
fn needs_no_running_service() -> Case {
    written(
        "hand over needs no running service",
        &[
            CREATE_0,
            CREATE_1,
            TO_0,
            ("01 04", "0 0 2 -"),
            ("03 0E 11", "6 0 3 -"),
            ("03 0E 00", "7 0 3 -"),
            ("01 04", "4 0 2 -"),
            TO_1,
            ("01 04", "0 0 2 -"),
            ("01 0D", "0 0 2 -"),
        ],
    )
}

/// What was logged, escrowed and shared is there after hand overs of each sort,
/// refused ones too.
fn tables_and_shared_memory_stay() -> Case {
    let protected = "3D 0B 0200000000000000 0000 0100 0700000000000000";
    let retrieved = "2D 0C 0100000000000000 0000 0700000000000100";
    let checked = "65 0A 0100000000000000 1FA2F58FDC6D9A52 0100 41";
    written(
        "hand over leaves log, escrow and shared memory",
        &[
            CREATE_0,
            CREATE_1,
            TO_0,
            ("4B 05 00 0000 0100 41", "0 1 8 -"),
            ("19 09 0000 0100", "0 5952190651599004191 6 -"),
            (protected, "0 281474976710663 22 -"),
            ("49 07 0000 0300 010203", "0 3 9 -"),
            TO_0,
            TO_16,
            ("03 0E 05", "7 0 3 -"),
            ("03 0E 11", "6 0 3 -"),
            TO_1,
            ("19 08 0000 0300", "0 3 6 010203"),
            (checked, "0 1 21 -"),
            (retrieved, "0 1 20 -"),
            ("1B 06 01 0000 0200", "0 2 7 4100"),
            ("01 0D", "0 65794 2 -"),
        ],
    )
}

/// From each running place of a box whose even places are taken, to each byte,
/// and who runs after that.
fn every_place_to_every_byte() -> Case {
    let mut case = Case::new("hand over from every place to every byte");
    for place in (0..16).step_by(2) {
        case.accept(u64::from(place), create(place, 1));
        case.accept(0, hand_over(place));
        case.accept(1, heap_write(place, 0, &[place + 1]));
    }
    for from in (0..=16).step_by(2) {
        for to in 0..=255 {
            case.accept(0, hand_over(from));
            let code = first_fault(&[(6, to > 16), (7, to % 2 == 1)]);
            case.answer(code, 0, hand_over(to));
            match if code == 0 { to } else { from } {
                16 => case.refuse(4, heap_read(0, 0, 1)),
                running => case.show(&[running + 1], heap_read(running, 0, 1)),
            }
        }
    }
    assert!(case.script.len() <= second::SCRIPT_MAX);
    case
}

/// Kind 14 with another map than its own, whole as that map has it or cut: 3.
fn wrong_maps() -> Vec<Case> {
    let maps = ["01 0E", "07 0E 00 0100000000000000", "0B 0E 00 0000", "83 0E 00", "FF 0E"];
    let case = |map: &&str| {
        let records = [CREATE_0, TO_0, (*map, "3 0 0 -"), ("01 0D", "")];
        written(&format!("hand over as {map}"), &records)
    };
    maps.iter().map(case).collect()
}

/// The place is missing.
fn cut() -> Case {
    written("hand over cut", &[CREATE_0, TO_0, ("03 0E", "1 1 0 -")])
}

/// A start and a yield as they once were, whole and cut, while a service runs
/// and while none does: 2. What would follow has no line.
fn retired() -> Vec<Case> {
    let records = [
        ("kind 2 with its old map", "03 02 00", "01 0D"),
        ("kind 2 with its old map, cut", "03 02", ""),
        ("kind 2 with its old map, place 17", "03 02 11", "01 0D"),
        ("kind 2 with kind 3's old map", "01 02", "01 0D"),
        ("kind 3 with its old map", "01 03", "01 0D"),
        ("kind 3 with its old map, at the end", "01 03", ""),
        ("kind 3 with kind 2's old map", "03 03 00", "01 0D"),
        ("kind 3 with kind 2's old map, cut", "03 03", ""),
    ];
    let mut cases = Vec::new();
    for (name, record, behind) in records {
        let (line, behind) = ((record, "2 0 0 -"), (behind, ""));
        let running = format!("{name}, while one runs");
        cases.push(written(&running, &[CREATE_0, TO_0, line, behind]));
        cases.push(written(&format!("{name}, while none runs"), &[CREATE_0, line, behind]));
    }
    cases
}

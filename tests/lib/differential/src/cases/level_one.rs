//! The level-one paper: 21, 22 and 23 and their neighbours in the order, each beside
//! the full box's line for the same record. Most lines are written by hand; where a
//! case tries every set of faults they follow from the order of the numbers.

use second::{tag_of, Call, NONE_RUNS};

use super::hand_overs::bytes;
use super::{first_fault, handle};
use crate::calls::{
    attest, chain, check, create, hand_over, heap_read, heap_write, protect, release, retrieve,
    shared_read, shared_write,
};
use crate::case::Case;
use crate::cuts::Layout;

pub fn cases() -> Vec<Case> {
    let mut cases = vec![
        paper(),
        escrow_while_none_runs(),
        escrow_while_one_runs(),
        places(),
        high_place_of_a_running_service(),
        values(),
        two_places_of_one_identity(),
        identity_that_comes_again(),
        other_identities(),
        too_long(),
        creates(),
        zero_identities(),
        hand_overs(),
        every_hand_over(),
        attests(),
        protects(),
        retrieves(),
        chains(),
        releases(),
        other_kinds(),
        full_log(),
        full_log_of_bytes(),
        alike_values(),
        wide_identities(),
    ];
    cases.extend(cut_records());
    cases.extend(spoilt_records());
    cases
}

/// A record in hexadecimal, the full box's line and level one's.
type Lines = (&'static str, &'static str, &'static str);

/// The record has this line on both sheets.
const fn same(record: &'static str, line: &'static str) -> Lines {
    (record, line, line)
}

fn written(name: &str, records: &[Lines]) -> Case {
    let mut case = Case::of_both(name);
    let put = |sheet: &mut Option<String>, line: &str| {
        if let Some(sheet) = sheet {
            sheet.push_str(line);
            sheet.push('\n');
        }
    };
    for (record, full, level_one) in records {
        case.script.extend(bytes(record));
        put(&mut case.sheet, full);
        put(&mut case.level_one, level_one);
    }
    case
}

/// Identity 1 in place 0, accepted; and it runs.
const CREATE_0: Lines = same("07 01 00 0100000000000000", "0 0 11 -");
const TO_0: Lines = same("03 0E 00", "0 0 3 -");
const TO_16: Lines = same("03 0E 10", "0 0 3 -");
/// "A" and "B" at the front of place 0's heap, and each of them attested.
const WRITE_A: Lines = same("4B 05 00 0000 0100 41", "0 1 8 -");
const WRITE_B: Lines = same("4B 05 00 0000 0100 42", "0 1 8 -");
const ATTEST_A: Lines = same("19 09 0000 0100", "0 5952190651599004191 6 -");
const ATTEST_B: Lines = ("19 09 0000 0100", "0 5952191751110632402 6 -", "23 0 6 -");

/// A paper with each of level one's numbers, and what the two boxes come to.
fn paper() -> Case {
    written(
        "level one, a paper",
        &[
            CREATE_0,
            ("07 01 04 0200000000000000", "0 4 11 -", "22 0 11 -"),
            ("03 0E 04", "0 0 3 -", "22 0 3 -"),
            TO_0,
            WRITE_A,
            ATTEST_A,
            ATTEST_A,
            WRITE_B,
            ATTEST_B,
            (
                "3D 0B 0100000000000000 0000 0100 0700000000000000",
                "0 281474976710663 22 -",
                "21 0 22 -",
            ),
            ("2D 0C 0100000000000000 0500 0700000000000100", "0 1 20 -", "21 0 20 -"),
            ("1B 06 00 0000 0600", "0 6 7 420000000042", "0 6 7 420000000000"),
            ("01 0D", "0 66050 2 -", "0 257 2 -"),
            TO_16,
            same("01 04", "4 0 2 -"),
        ],
    )
}

/// 21 before 4, whatever else is wrong.
fn escrow_while_none_runs() -> Case {
    written(
        "level one, escrow and chains while none runs",
        &[
            ("3D 0B 0100000000000000 0000 0100 0700000000000000", "4 0 22 -", "21 0 22 -"),
            ("3D 0B 0000000000000000 0001 0100 0000000000000100", "4 0 22 -", "21 0 22 -"),
            ("2D 0C 0100000000000000 0000 0700000000000100", "4 0 20 -", "21 0 20 -"),
            ("2D 0C 0000000000000000 0001 0700000000000100", "4 0 20 -", "21 0 20 -"),
            ("67 0F 03 0100000000000000 0700000000000100 0000", "4 0 21 -", "21 0 21 -"),
            ("67 0F 00 0000000000000000 0000000000000000 0100 FF", "4 0 22 -", "21 0 22 -"),
            ("25 10 0100000000000000 0700000000000100", "4 0 18 -", "21 0 18 -"),
            ("25 10 0000000000000000 0000000000000000", "4 0 18 -", "21 0 18 -"),
            same("01 0D", "0 0 2 -"),
            same("19 09 0000 0100", "4 0 6 -"),
            same("01 04", "4 0 2 -"),
        ],
    )
}

/// 21 before 9 to 12 and 18 to 20, and where the full box accepts.
fn escrow_while_one_runs() -> Case {
    written(
        "level one, escrow and chains while one runs",
        &[
            CREATE_0,
            TO_0,
            same("4B 05 00 0000 0100 01", "0 1 8 -"),
            same("19 09 0000 0100", "0 5952120282854798687 6 -"),
            ("3D 0B 0000000000000000 0000 0100 0700000000000000", "9 0 22 -", "21 0 22 -"),
            ("3D 0B 0100000000000000 0001 0100 0700000000000000", "11 0 22 -", "21 0 22 -"),
            ("3D 0B 0100000000000000 0000 0100 0000000000000100", "12 0 22 -", "21 0 22 -"),
            (
                "3D 0B 0100000000000000 0000 0100 0700000000000000",
                "0 281474976710663 22 -",
                "21 0 22 -",
            ),
            ("2D 0C 0000000000000000 0000 0700000000000100", "9 0 20 -", "21 0 20 -"),
            ("2D 0C 0100000000000000 0000 0800000000000100", "10 0 20 -", "21 0 20 -"),
            ("2D 0C 0100000000000000 0001 0700000000000100", "11 0 20 -", "21 0 20 -"),
            ("2D 0C 0100000000000000 0100 0700000000000100", "0 1 20 -", "21 0 20 -"),
            ("67 0F 03 0100000000000000 0700000000000100 0000", "0 1 21 -", "21 0 21 -"),
            ("67 0F 02 0100000000000000 5F35F58FDC2D9A52 0300 0100 01", "0 1 24 -", "21 0 24 -"),
            ("67 0F 03 0000000000000000 0700000000000100 0000", "9 0 21 -", "21 0 21 -"),
            ("67 0F 03 0100000000000000 0800000000000100 0000", "18 0 21 -", "21 0 21 -"),
            ("67 0F 01 0100000000000000 0700000000000100 0000", "19 0 21 -", "21 0 21 -"),
            ("67 0F 03 0100000000000000 0700000000000100 0100 00", "19 0 22 -", "21 0 22 -"),
            ("25 10 0000000000000000 0700000000000100", "9 0 18 -", "21 0 18 -"),
            ("25 10 0100000000000000 0800000000000100", "10 0 18 -", "21 0 18 -"),
            ("25 10 0100000000000000 0700000000000100", "0 0 18 -", "21 0 18 -"),
            ("25 10 0100000000000000 0700000000000100", "10 0 18 -", "21 0 18 -"),
            ("2D 0C 0100000000000000 0100 0700000000000100", "10 0 20 -", "21 0 20 -"),
            ("67 0F 03 0100000000000000 0700000000000100 0000", "18 0 21 -", "21 0 21 -"),
            ("1B 06 00 0000 0200", "0 2 7 0101", "0 2 7 0100"),
            ("01 0D", "0 65793 2 -", "0 257 2 -"),
        ],
    )
}

/// 22 after 6 and before 7 and 9, in creates and hand overs.
fn places() -> Case {
    written(
        "level one, places",
        &[
            ("07 01 0F 0100000000000000", "0 15 11 -", "22 0 11 -"),
            ("07 01 0F 0100000000000000", "7 0 11 -", "22 0 11 -"),
            ("07 01 04 0000000000000000", "9 0 11 -", "22 0 11 -"),
            same("07 01 10 0100000000000000", "6 0 11 -"),
            same("07 01 FF 0000000000000000", "6 0 11 -"),
            same("07 01 03 0000000000000000", "9 0 11 -"),
            same("07 01 03 0100000000000000", "0 3 11 -"),
            same("07 01 03 0000000000000000", "7 0 11 -"),
            ("03 0E 0F", "0 0 3 -", "22 0 3 -"),
            ("03 0E 04", "7 0 3 -", "22 0 3 -"),
            same("03 0E 11", "6 0 3 -"),
            same("03 0E FF", "6 0 3 -"),
            same("03 0E 00", "7 0 3 -"),
            TO_16,
            same("03 0E 03", "0 0 3 -"),
            same("03 0E 03", "0 0 3 -"),
            ("03 0E 04", "7 0 3 -", "22 0 3 -"),
            same("1B 06 03 0000 0100", "0 1 7 00"),
            ("01 0D", "0 2 2 -", "0 1 2 -"),
        ],
    )
}

/// In the full box place 5 runs and hands over to itself. Level one has had none of
/// it, and none runs.
fn high_place_of_a_running_service() -> Case {
    written(
        "level one, a place above 3 that runs in the full box",
        &[
            ("07 01 05 0100000000000000", "0 5 11 -", "22 0 11 -"),
            ("03 0E 05", "0 0 3 -", "22 0 3 -"),
            ("03 0E 05", "0 0 3 -", "22 0 3 -"),
            ("4B 05 05 0000 0100 41", "0 1 8 -", "4 0 8 -"),
            ("19 09 0000 0100", "0 5952190651599004191 6 -", "4 0 6 -"),
            ("01 04", "0 0 2 -", "4 0 2 -"),
            ("03 0E 05", "7 0 3 -", "22 0 3 -"),
        ],
    )
}

/// 23 after 4 and 11; the very value gets its tag again, from anywhere.
fn values() -> Case {
    written(
        "level one, values",
        &[
            CREATE_0,
            same("19 09 0000 0100", "4 0 6 -"),
            TO_0,
            same("4B 05 00 0000 0300 414142", "0 3 10 -"),
            same("19 09 0001 0100", "11 0 6 -"),
            ATTEST_A,
            ATTEST_A,
            same("19 09 0100 0100", "0 5952190651599004191 6 -"),
            ("19 09 0200 0100", "0 5952191751110632402 6 -", "23 0 6 -"),
            ("19 09 0100 0200", "0 5911830792620925959 6 -", "23 0 6 -"),
            ("19 09 0000 0000", "0 9929646806074584996 6 -", "23 0 6 -"),
            ("19 09 0001 0000", "0 9929646806074584996 6 -", "23 0 6 -"),
            same("19 09 0001 0100", "11 0 6 -"),
            same("19 09 0101 0000", "11 0 6 -"),
            same("19 09 0100 FFFF", "11 0 6 -"),
            ATTEST_A,
            same("65 0A 0100000000000000 1FA2F58FDC6D9A52 0100 41", "0 1 21 -"),
            ("65 0A 0100000000000000 D2A3F58FDC6E9A52 0100 42", "0 1 21 -", "0 0 21 -"),
            ("01 0D", "0 1025 2 -", "0 257 2 -"),
            TO_16,
            same("19 09 0200 0100", "4 0 6 -"),
        ],
    )
}

/// Two places of one identity are one principal: what one logged counts for both.
fn two_places_of_one_identity() -> Case {
    let mut case = Case::of_both("level one, two places of one identity");
    case.accept(0, create(0, 7));
    case.accept(3, create(3, 7));
    case.accept(0, hand_over(0));
    case.accept(2, heap_write(0, 0, b"ab"));
    case.accept(tag_of(7, b"ab").0, attest(0, 2));
    case.accept(0, hand_over(3));
    case.codes(0, 23, tag_of(7, b"\0\0").0, attest(0, 2));
    case.accept(2, heap_write(3, 9, b"ab"));
    case.accept(tag_of(7, b"ab").0, attest(9, 2));
    case.numbers(2 + 256 * 2, 2 + 256, Call::Report);
    case
}

/// An identity that left and comes again has still logged its value.
fn identity_that_comes_again() -> Case {
    let mut case = Case::of_both("level one, an identity that comes again");
    for place in [0, 2, 1, 0] {
        case.accept(u64::from(place), create(place, 9));
        case.accept(0, hand_over(place));
        case.accept(3, heap_write(place, 0, b"new"));
        case.accept(tag_of(9, b"new").0, attest(0, 3));
        case.codes(0, 23, tag_of(9, b"ne").0, attest(0, 2));
        case.accept(0, Call::Exit);
    }
    case.numbers(256 * 2, 256, Call::Report);
    case
}

/// Another identity's rows do not count, with this value or another.
fn other_identities() -> Case {
    let mut case = Case::of_both("level one, other identities");
    let values = [b"a", b"b", b"a", b"c"];
    for (place, value) in (0..).zip(values) {
        let identity = u64::from(place) + 1;
        case.accept(u64::from(place), create(place, identity));
        case.accept(0, hand_over(place));
        case.accept(1, heap_write(place, 0, value));
        case.accept(tag_of(identity, value).0, attest(0, 1));
    }
    for (place, value) in (0..).zip(values) {
        let identity = u64::from(place) + 1;
        case.accept(0, hand_over(place));
        case.accept(tag_of(identity, value).0, attest(0, 1));
        case.accept(1, check(identity, tag_of(identity, value).0, value));
        case.codes(0, 23, tag_of(identity, b"").0, attest(0, 0));
    }
    case.numbers(4 + 256 * 8, 4 + 256 * 4, Call::Report);
    case
}

fn too_long() -> Case {
    let mut case = Case::of_both("level one, a script of 65,537 bytes");
    case.script = [0x03, 0x0E, 0x04].repeat(21_846)[..65_537].to_vec();
    case.line(16, 0, 0, &[]);
    case
}

/// Identities 1, 2 and 3 in places 0, 1 and 2, place 0 running, on both sheets.
fn three_services(name: &str) -> Case {
    let mut case = Case::of_both(name);
    for place in 0..3 {
        case.accept(u64::from(place), create(place, u64::from(place) + 1));
    }
    case.accept(0, hand_over(0));
    case
}

/// 6, 22, 7 and 9 at every place, of identity 0, and then of identity 4.
fn creates() -> Case {
    let mut case = three_services("level one, order in create");
    for (round, identity) in [0, 4, 4].into_iter().enumerate() {
        // The third time all that the second time took is taken.
        let again = round == 2;
        for place in 0..=255 {
            let (low, high) = (place < 3 || again && place == 3, again && place > 3);
            let full = [(6, place > 15), (7, low || high), (9, identity == 0)];
            let level_one = [(6, place > 15), (22, place > 3), (7, low), (9, identity == 0)];
            let codes = (first_fault(&full), first_fault(&level_one));
            case.codes(codes.0, codes.1, u64::from(place), create(place, identity));
        }
    }
    case.numbers(16, 4, Call::Report);
    case
}

/// 6, 22 and 9 at every place of a fresh box, and as one place after the other is
/// taken 7.
fn zero_identities() -> Case {
    let mut case = Case::of_both("level one, order in create of identity 0");
    for taken in 0..=4 {
        for place in 0..=17 {
            let (high, low) = ((6, place > 15), (7, place < taken));
            let full = first_fault(&[high, low, (9, true)]);
            let level_one = first_fault(&[high, (22, place > 3), low, (9, true)]);
            case.codes(full, level_one, 0, create(place, 0));
        }
        let code = first_fault(&[(22, taken == 4)]);
        case.codes(0, code, u64::from(taken), create(taken, 1));
    }
    case.numbers(5, 4, Call::Report);
    case
}

/// 6, 22 and 7, while one runs and while none does, never 4. Who ran before a
/// refusal runs after it.
fn hand_overs() -> Case {
    let mut case = three_services("level one, order in hand over");
    case.accept(1, heap_write(0, 200, b"k"));
    for running in [true, false] {
        for place in 3..=255 {
            if place == NONE_RUNS {
                continue;
            }
            let full = first_fault(&[(6, place > 16), (7, place > 2)]);
            let level_one = first_fault(&[(6, place > 16), (22, place > 3), (7, place > 2)]);
            case.codes(full, level_one, 0, hand_over(place));
            match running {
                true => case.show(b"k", heap_read(0, 200, 1)),
                false => case.refuse(4, heap_read(0, 200, 1)),
            }
        }
        case.accept(0, hand_over(NONE_RUNS));
    }
    case.accept(0, hand_over(1));
    case.accept(3, Call::Report);
    case
}

/// From each place that may run, and from none, to each that may, with a refused
/// hand over between them.
fn every_hand_over() -> Case {
    let mut case = Case::of_both("level one, hand over from every place to every place");
    for place in 0..4 {
        case.accept(u64::from(place), create(place, 1));
        case.accept(0, hand_over(place));
        case.accept(1, heap_write(place, 0, &[place + 1]));
    }
    for from in [0, 1, 2, 3, NONE_RUNS] {
        for to in [0, 1, 2, 3, NONE_RUNS] {
            case.accept(0, hand_over(from));
            case.codes(7, 22, 0, hand_over(4 + to % 12));
            match from {
                NONE_RUNS => case.refuse(4, heap_read(0, 0, 1)),
                running => case.show(&[running + 1], heap_read(running, 0, 1)),
            }
            case.accept(0, hand_over(to));
            match to {
                NONE_RUNS => case.refuse(4, heap_read(0, 0, 1)),
                running => case.show(&[running + 1], heap_read(running, 0, 1)),
            }
        }
    }
    case
}

/// 4, 11 and 23: all sets, of an identity with no row, with this row and with
/// another. The full box logs all of them.
fn attests() -> Case {
    let mut case = three_services("level one, order in attest");
    for place in 0..3 {
        let identity = u64::from(place) + 1;
        let logged = |value: &[u8]| tag_of(identity, value).0;
        case.accept(0, hand_over(place));
        case.accept(2, heap_write(place, 0, b"xy"));
        case.refuse(11, attest(256, 1));
        if place > 0 {
            let first = u16::from(place == 2);
            let value = &b"xy"[usize::from(first)..][..1];
            case.accept(logged(value), attest(first, 1));
        }
        for running in [true, false] {
            for (offset, length) in [(0, 1), (1, 1), (0, 2), (256, 1), (257, 0), (1, 65_535)] {
                let beyond = offset > 255 || length > 256;
                // Place 0's first attest logs "x", place 1 has logged it, place 2 "y".
                let own = (u16::from(place == 2), 1);
                let early = [(4, !running), (11, beyond)];
                let level_one = [early[0], early[1], (23, (offset, length) != own)];
                let value = b"xy".get(usize::from(offset)..).unwrap_or_default();
                let value = value.get(..usize::from(length)).unwrap_or_default();
                let codes = (first_fault(&early), first_fault(&level_one));
                case.codes(codes.0, codes.1, logged(value), attest(offset, length));
            }
            case.accept(0, hand_over(NONE_RUNS));
        }
    }
    case.numbers(3 + 256 * 9, 3 + 256 * 3, Call::Report);
    case
}

/// While a service runs, and then while none does.
const BOTH: [bool; 2] = [true, false];

/// 21 before 4, 9, 11, 12 and 14: every set of faults that the full box tells apart.
fn protects() -> Case {
    let mut case = three_services("level one, order in protect");
    for full in [false, true] {
        for draw in if full { 0..62 } else { 0..0 } {
            case.codes(0, 21, handle(0, draw), protect(3, 0, 0, draw));
        }
        for running in BOTH {
            for identity in [0, 2] {
                for offset in [255, 256] {
                    for draw in [500 + u64::from(full), 1 << 48] {
                        let faults = [
                            (4, !running),
                            (9, identity == 0),
                            (11, offset == 256),
                            (12, draw > 501),
                            (14, full),
                        ];
                        let call = protect(identity, offset, 1, draw);
                        case.codes(first_fault(&faults), 21, handle(1, draw), call);
                    }
                }
            }
            case.accept(0, hand_over(NONE_RUNS));
        }
        case.accept(0, hand_over(0));
        if !full {
            case.codes(0, 21, handle(0, 900), protect(3, 0, 0, 900));
        }
    }
    case.numbers(3 + 65_536 * 64, 3, Call::Report);
    case
}

/// 21 before 4, 9, 10 and 11, for the recipient and for another.
fn retrieves() -> Case {
    let mut case = three_services("level one, order in retrieve");
    case.accept(5, heap_write(0, 0, b"value"));
    case.codes(0, 21, handle(5, 7), protect(2, 0, 5, 7));
    for place in [1, 2] {
        case.accept(0, hand_over(place));
        for running in BOTH {
            for identity in [0, 1, 3] {
                for number in [handle(5, 7), handle(5, 8)] {
                    for offset in [251, 252] {
                        let found = place == 1 && identity == 1 && number == handle(5, 7);
                        let faults =
                            [(4, !running), (9, identity == 0), (10, !found), (11, offset > 251)];
                        let call = retrieve(identity, offset, number);
                        case.codes(first_fault(&faults), 21, 5, call);
                    }
                }
            }
            case.accept(0, hand_over(NONE_RUNS));
        }
    }
    case.accept(0, hand_over(2));
    case.show(&[0; 256], heap_read(2, 0, 256));
    case
}

/// 21 before 4, 9, 18 and 19, and for a chain that the full box accepts.
fn chains() -> Case {
    let mut case = three_services("level one, order in chain");
    case.accept(1, heap_write(0, 0, &[1]));
    let tag = tag_of(1, &[1]).0;
    case.accept(tag, attest(0, 1));
    case.codes(0, 21, handle(1, 7), protect(1, 0, 1, 7));
    for running in BOTH {
        for way in [0, 1, 2, 3, 255] {
            for identity in [0, 1, 2] {
                for whole in BOTH {
                    let (number, value): (u64, &[u8]) = match (way, whole) {
                        (2, true) => (tag, b"\x01\0\x01"),
                        (2, false) => (tag, b"\x01\0"),
                        (_, true) => (handle(1, 7), b""),
                        (_, false) => (handle(1, 8), b""),
                    };
                    let faults = [
                        (4, !running),
                        (19, way != 2 && way != 3 || way == 2 && !whole),
                        (9, identity == 0),
                        (18, identity == 2 || !whole),
                    ];
                    case.codes(first_fault(&faults), 21, 1, chain(way, identity, number, value));
                }
            }
        }
        case.accept(0, hand_over(NONE_RUNS));
    }
    case.numbers(3 + 256 + 65_536, 3 + 256, Call::Report);
    case
}

/// 21 before 4, 9 and 10, and for a release that the full box accepts.
fn releases() -> Case {
    let mut case = three_services("level one, order in release");
    case.accept(5, heap_write(0, 0, b"value"));
    case.codes(0, 21, handle(5, 7), protect(2, 0, 5, 7));
    let mut spent = false;
    for place in [2, 1] {
        case.accept(0, hand_over(place));
        for running in BOTH {
            for identity in [0, 3, 1] {
                for number in [handle(5, 8), handle(5, 7), handle(5, 7)] {
                    let fits = place == 1 && identity == 1 && number == handle(5, 7);
                    let faults = [(4, !running), (9, identity == 0), (10, !fits || spent)];
                    let code = first_fault(&faults);
                    spent |= code == 0;
                    case.codes(code, 21, 0, release(identity, number));
                }
            }
            case.accept(0, hand_over(NONE_RUNS));
        }
    }
    case.numbers(3 + 65_536, 3, Call::Report);
    case
}

/// Kinds to which level one has nothing to say, accepted and refused.
fn other_kinds() -> Case {
    let mut case = three_services("level one, the other kinds");
    case.accept(3, heap_write(0, 253, b"abc"));
    case.show(b"abc", heap_read(0, 253, 3));
    case.refuse(11, heap_write(0, 254, b"abc"));
    case.refuse(11, heap_read(0, 254, 3));
    for place in [4, 15] {
        case.refuse(8, heap_write(place, 0, b"x"));
        case.refuse(8, heap_read(place, 0, 1));
    }
    case.refuse(6, heap_write(16, 0, b"x"));
    case.refuse(6, heap_read(16, 0, 1));
    case.accept(3, shared_write(1_021, b"abc"));
    case.show(b"abc", shared_read(1_021, 3));
    case.refuse(11, shared_write(1_022, b"abc"));
    case.refuse(11, shared_read(1_022, 3));
    case.accept(0, check(1, tag_of(1, b"abc").0, b"abc"));
    case.accept(tag_of(1, b"abc").0, attest(253, 3));
    case.accept(1, check(1, tag_of(1, b"abc").0, b"abc"));
    case.accept(0, check(2, tag_of(2, b"abc").0, b"abc"));
    case.refuse(9, check(0, tag_of(0, b"abc").0, b"abc"));
    case.accept(3 + 256, Call::Report);
    case.accept(0, Call::Exit);
    case.refuse(4, Call::Exit);
    case.refuse(4, heap_read(0, 0, 1));
    case.refuse(7, hand_over(0));
    case.accept(2 + 256, Call::Report);
    case
}

/// A tenant of place 0: it comes and runs. Who was there before has left.
fn tenant(case: &mut Case, identity: u64, value: &[u8]) {
    case.accept(0, create(0, identity));
    case.accept(0, hand_over(0));
    case.accept(value.len() as u64, heap_write(0, 0, value));
}

/// 64 identities log a value each. The next gets 13, each of them its tag, and 23
/// for another value, where the full box gives 13.
fn full_log() -> Case {
    let mut case = Case::of_both("level one, a full log");
    for identity in 1..=64 {
        tenant(&mut case, identity, b"v");
        case.accept(tag_of(identity, b"v").0, attest(0, 1));
        case.accept(0, Call::Exit);
    }
    case.accept(256 * 64, Call::Report);
    for identity in 1..=70 {
        tenant(&mut case, identity, b"v");
        let code = first_fault(&[(13, identity > 64)]);
        case.answer(code, tag_of(identity, b"v").0, attest(0, 1));
        case.refuse(11, attest(256, 1));
        let code = first_fault(&[(23, identity < 65), (13, true)]);
        case.codes(13, code, 0, attest(1, 1));
        case.codes(13, code, 0, attest(0, 0));
        case.accept(0, Call::Exit);
    }
    case.accept(256 * 64, Call::Report);
    case
}

/// 16 identities log 256 bytes each, and each is tried again. A 17th has room for
/// no byte, but for a value of none.
fn full_log_of_bytes() -> Case {
    let mut case = Case::of_both("level one, a full log of bytes");
    let value = [b'v'; 256];
    for identity in 1..=16 {
        tenant(&mut case, identity, &value);
        case.accept(tag_of(identity, &value).0, attest(0, 256));
        case.accept(0, Call::Exit);
    }
    for identity in 1..=17 {
        let logged = identity < 17;
        tenant(&mut case, identity, &value);
        let code = first_fault(&[(13, !logged)]);
        case.answer(code, tag_of(identity, &value).0, attest(0, 256));
        case.codes(13, first_fault(&[(23, logged), (13, true)]), 0, attest(0, 1));
        for _ in 0..2 {
            case.codes(0, first_fault(&[(23, logged)]), tag_of(identity, b"").0, attest(9, 0));
        }
        case.codes(13, 23, 0, attest(0, 1));
        case.accept(0, Call::Exit);
    }
    case.numbers(256 * 33, 256 * 17, Call::Report);
    case
}

/// Values that differ little are others: one byte, a prefix, a byte more, none.
fn alike_values() -> Case {
    let mut case = Case::of_both("level one, alike values");
    let values: [&[u8]; 7] = [b"", b"\0", b"\0\0", b"\0\x01", b"\x01\0", b"\x01", b"\x02\0"];
    for (n, value) in values.iter().enumerate() {
        let identity = n as u64 + 1;
        tenant(&mut case, identity, value);
        let length = value.len() as u16;
        case.accept(tag_of(identity, value).0, attest(0, length));
        for other in values {
            case.accept(other.len() as u64, heap_write(0, 100, other));
            let code = if other == *value { 0 } else { 23 };
            let call = attest(100, other.len() as u16);
            case.codes(0, code, tag_of(identity, other).0, call);
        }
        case.accept(0, Call::Exit);
    }
    case.numbers(256 * 49, 256 * 7, Call::Report);
    case
}

/// Identities that differ in one bit are others.
fn wide_identities() -> Case {
    let mut case = Case::of_both("level one, identities that differ in one bit");
    let base = 0x0102_0304_0506_0708;
    for bit in 0..60 {
        tenant(&mut case, base ^ (1 << bit), &[bit]);
        case.accept(tag_of(base ^ (1 << bit), &[bit]).0, attest(0, 1));
        case.accept(tag_of(base ^ (1 << bit), &[bit]).0, attest(0, 1));
        case.accept(0, Call::Exit);
    }
    tenant(&mut case, base, b"b");
    case.accept(tag_of(base, b"b").0, attest(0, 1));
    case.codes(0, 23, tag_of(base, b"").0, attest(0, 0));
    case.numbers(1 + 256 * 62, 1 + 256 * 61, Call::Report);
    case
}

/// The kinds to which level one has something to say.
const KINDS: [u8; 7] = [1, 9, 11, 12, 14, 15, 16];

/// Those kinds' records cut at every byte, behind records that level one refuses
/// too: 1 with what is missing, never 21, 22 or 23.
fn cut_records() -> Vec<Case> {
    let mut cases = Vec::new();
    for kind in KINDS {
        let layout = Layout::of(kind).expect("it is a kind");
        for (fill, name) in [(0x00, "zeros"), (0x05, "fives"), (0xFF, "ones")] {
            // No script has an empty record.
            for (end, cut) in layout.cuts(fill, 3).into_iter().enumerate().skip(1) {
                let name = format!("level one, kind {kind} of {name} cut at {end}");
                let mut case = Case::of_both(name);
                case.codes(7, 22, 0, hand_over(9));
                case.codes(4, 21, 0, protect(1, 0, 0, 0));
                case.cut(cut.missing, &cut.record);
                cases.push(case);
            }
        }
    }
    cases
}

/// Those kinds with another map, with bit 0 of the map down, and other kinds with
/// their maps: 3 and 2, never 21, 22 or 23.
fn spoilt_records() -> Vec<Case> {
    let mut cases = Vec::new();
    let mut add = |code, what: String, record: &[u8]| {
        let mut case = Case::of_both(format!("level one, {what}"));
        case.codes(4, 21, 0, retrieve(1, 0, 0));
        case.malformed(code, record);
        cases.push(case);
    };
    for kind in KINDS {
        let layout = Layout::of(kind).expect("it is a kind");
        for bit in 1..8 {
            let mut record = layout.record(0x05, 3);
            record[0] ^= 1 << bit;
            add(3, format!("kind {kind} with bit {bit} of its map altered"), &record);
        }
        let mut record = layout.record(0x05, 3);
        record[0] ^= 1;
        add(2, format!("kind {kind} with bit 0 of its map down"), &record);
        for other in [0, 2, 3, 17, 255] {
            let mut record = layout.record(0x05, 3);
            record[1] = other;
            add(2, format!("kind {other} with kind {kind}'s map"), &record);
        }
    }
    cases
}

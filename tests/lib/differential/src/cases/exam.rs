//! Document 01's example and its exam cases, B and D with the draws that document
//! 02's P7 gives them, and those that hand over and the missing bytes of a cut record
//! add.

use second::{tag_of, Call};

use super::{handle, three_services};
use crate::calls::{attest, check, create, hand_over, heap_read, heap_write, protect, retrieve};
use crate::case::Case;
use crate::draws::after;

const LAST_DRAW: u64 = 281_474_976_710_655;

pub fn cases() -> Vec<Case> {
    vec![
        example(),
        base_example(),
        a_b(),
        c_d(),
        e_f(),
        g_h(),
        i(),
        cut("exam J, 01", 1, &[0x01]),
        malformed("exam J, 02", 2, &[0x02]),
        a_to_j(),
        draw_too_large(),
        check_of_identity_0(),
        pair_65(),
        hand_over_to_16(),
        hand_over_to_the_running_place(),
        hand_over_to_an_empty_place(),
        hand_over_to_17(),
        retired("exam, kind 2", &[0x03, 0x02, 0x00]),
        retired("exam, kind 3", &[0x01, 0x03]),
        cut("exam, an identity misses 8", 8, &[0x07, 0x01, 0x00]),
        cut("exam, a length misses 2", 2, &[0x19, 0x08, 0x00, 0x00]),
        cut("exam, a count misses 1", 1, &[0x49, 0x07, 0x00, 0x00, 0x05]),
        cut("exam, contents miss 5", 5, &[0x49, 0x07, 0x00, 0x00, 0x05, 0x00]),
        cut("exam, contents miss 3", 3, &[0x49, 0x07, 0x00, 0x00, 0x05, 0x00, 0x41, 0x42]),
    ]
}

/// The example paper: document 01's script with hand overs, to place 0 and to
/// 16, for its start and its first yield, and an exit for its last.
fn example() -> Case {
    let script = b"\x07\x01\x00\x01\x00\x00\x00\x00\x00\x00\x00\
        \x03\x0E\x00\
        \x4B\x05\x00\x00\x00\x01\x00\x41\
        \x3D\x0B\x01\x00\x00\x00\x00\x00\x00\x00\x00\x00\x01\x00\x07\x00\x00\x00\x00\x00\x00\x00\
        \x01\x0D\
        \x03\x0E\x10\
        \x01\x04";
    let sheet = "\
code number used bytes
0 0 11 -
0 0 3 -
0 1 8 -
0 281474976710663 22 -
0 65537 2 -
0 0 3 -
4 0 2 -
";
    Case::with_sheet("the example", script.to_vec(), sheet)
}

/// The script as document 01 prints it. Kind 2 is retired, so the sheet ends at
/// the second record.
fn base_example() -> Case {
    let script = b"\x07\x01\x00\x01\x00\x00\x00\x00\x00\x00\x00\
        \x03\x02\x00\
        \x4B\x05\x00\x00\x00\x01\x00\x41\
        \x3D\x0B\x01\x00\x00\x00\x00\x00\x00\x00\x00\x00\x01\x00\x07\x00\x00\x00\x00\x00\x00\x00\
        \x01\x0D\
        \x01\x03\
        \x01\x03";
    let sheet = "\
code number used bytes
0 0 11 -
2 0 0 -
";
    Case::with_sheet("document 01's example, as it stands there", script.to_vec(), sheet)
}

fn a_b() -> Case {
    let mut case = three_services("exam A and B");
    case.accept(1_407_374_883_553_287, protect(2, 0, 5, 7));
    case.accept(1_407_551_387_880_710, protect(2, 0, 5, 7));
    case.accept(handle(5, after(7, 2)), protect(2, 0, 5, 7));
    case
}

fn c_d() -> Case {
    let mut case = three_services("exam C and D");
    case.accept(281_474_976_710_655, protect(2, 0, 0, LAST_DRAW));
    case.accept(281_449_761_806_750, protect(2, 0, 0, LAST_DRAW));
    case.accept(after(LAST_DRAW, 2), protect(2, 0, 0, LAST_DRAW));
    case
}

fn e_f() -> Case {
    let mut case = three_services("exam E and F");
    case.accept(0, heap_read(0, 256, 0));
    case.refuse(11, heap_read(0, 256, 1));
    case
}

fn g_h() -> Case {
    let mut case = Case::new("exam G and H");
    case.accept(15, create(15, 1));
    case.refuse(6, create(16, 1));
    case
}

fn i() -> Case {
    let mut case = three_services("exam I");
    case.accept(handle(5, 7), protect(2, 0, 5, 7));
    case.refuse(10, retrieve(1, 300, handle(5, 7)));
    case.accept(0, hand_over(2));
    case.refuse(10, retrieve(1, 300, handle(5, 7)));
    case.refuse(10, retrieve(1, 0, handle(5, 7)));
    case.accept(0, hand_over(1));
    case.refuse(11, retrieve(1, 300, handle(5, 7)));
    case.accept(5, retrieve(1, 0, handle(5, 7)));
    case
}

fn malformed(name: &str, code: u8, record: &[u8]) -> Case {
    let mut case = Case::new(name);
    case.malformed(code, record);
    case
}

/// So many more bytes finish the field inside which the record ends.
fn cut(name: &str, missing: usize, record: &[u8]) -> Case {
    let mut case = Case::new(name);
    case.cut(missing, record);
    case
}

/// The cases one after the other in one box.
fn a_to_j() -> Case {
    let mut case = three_services("exam A to J");
    case.accept(1_407_374_883_553_287, protect(2, 0, 5, 7));
    case.accept(1_407_551_387_880_710, protect(2, 0, 5, 7));
    case.accept(281_474_976_710_655, protect(2, 0, 0, LAST_DRAW));
    case.accept(281_449_761_806_750, protect(2, 0, 0, LAST_DRAW));
    case.accept(0, heap_read(0, 256, 0));
    case.refuse(11, heap_read(0, 256, 1));
    case.accept(15, create(15, 1));
    case.refuse(6, create(16, 1));
    case.refuse(10, retrieve(1, 300, 1_407_374_883_553_287));
    case.cut(1, &[0x01]);
    case
}

fn draw_too_large() -> Case {
    let mut case = three_services("a draw of 2^48");
    for draw in [LAST_DRAW + 1, LAST_DRAW + 2, 1 << 63, u64::MAX] {
        case.refuse(12, protect(2, 0, 1, draw));
    }
    case.accept(handle(1, LAST_DRAW), protect(2, 0, 1, LAST_DRAW));
    case
}

fn check_of_identity_0() -> Case {
    let mut case = Case::new("check with identity 0");
    case.refuse(9, check(0, tag_of(0, b"").0, b""));
    case.refuse(9, check(0, 0, &[0; 300]));
    case
}

/// The 65th pair is refused; each of the 64 still gets its tag.
fn pair_65() -> Case {
    let mut case = three_services("the 65th pair");
    let attested = |case: &mut Case, code, n: u8| {
        case.accept(1, heap_write(0, 0, &[n]));
        case.answer(code, tag_of(1, &[n]).0, attest(0, 1));
    };
    for n in 0..64 {
        attested(&mut case, 0, n);
    }
    attested(&mut case, 13, 64);
    for n in 0..64 {
        attested(&mut case, 0, n);
    }
    case.accept(3 + 256 * 64, Call::Report);
    case
}

/// Place 16 only yields, and is accepted when none runs.
fn hand_over_to_16() -> Case {
    let mut case = Case::new("exam, hand over to 16 with none running");
    case.accept(0, hand_over(16));
    case.refuse(4, Call::Exit);
    case
}

fn hand_over_to_the_running_place() -> Case {
    let mut case = three_services("exam, hand over to the running place");
    case.accept(3, heap_write(0, 0, b"own"));
    case.accept(0, hand_over(0));
    case.show(b"own", heap_read(0, 0, 3));
    case
}

/// The old service goes on running.
fn hand_over_to_an_empty_place() -> Case {
    let mut case = three_services("exam, hand over to an empty place");
    case.refuse(7, hand_over(3));
    case.accept(0, heap_read(0, 0, 0));
    case
}

/// The old service goes on running.
fn hand_over_to_17() -> Case {
    let mut case = three_services("exam, hand over to 17");
    case.refuse(6, hand_over(17));
    case.accept(0, heap_read(0, 0, 0));
    case
}

/// A record that was good before its kind was retired.
fn retired(name: &str, record: &[u8]) -> Case {
    let mut case = three_services(name);
    case.malformed(2, record);
    case
}

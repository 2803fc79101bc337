//! Releases: values given up by their recipient, what is left of them, and what the
//! freed bytes and the spent rows come to.

use second::{tag_of, Call, Link, NONE_RUNS};

use super::hand_overs::bytes;
use super::{handle, three_services};
use crate::calls::{
    attest, chain, check, create, hand_over, heap_read, heap_write, protect, release, retrieve,
};
use crate::case::Case;
use crate::draws::{after, before, next};
use crate::held::{counted, link_value};

pub fn cases() -> Vec<Case> {
    let mut cases = vec![
        paper(),
        one_value(),
        twice(),
        no_bytes(),
        only_values_of_no_bytes(),
        not_the_recipient(),
        same_handle_of_others(),
        another_place(),
        recipient_who_left(),
        source_who_left(),
        refused_between(),
        bytes_serve_again(),
        all_bytes_serve_again(),
        longest_values(),
        rows_stay_used(),
        all_rows_spent(),
        full_by_rows_and_bytes(),
        passed_over(),
        passed_over_in_the_middle(),
        own_draw_again(),
        zero_handle(),
        reports(),
        log_is_left_alone(),
        chains_by_one_link(),
        rings(),
    ];
    cases.extend((0..32).flat_map(|released| [false, true].map(|back| some(released, back))));
    for lengths in LENGTHS {
        cases.extend((0..lengths.len()).map(|n| one_of(lengths, n)));
    }
    cases.extend((0..16).map(chain_of_four));
    cases.extend([1, 2, 15, 16].map(last_link));
    cases
}

/// In hexadecimal, each record with its line.
fn paper() -> Case {
    let records = [
        // Identities 1 and 2 in places 0 and 1, 1 runs.
        ("07 01 00 0100000000000000", "0 0 11 -"),
        ("07 01 01 0200000000000000", "0 1 11 -"),
        ("25 10 0100000000000000 0700000000000300", "4 0 18 -"),
        ("03 0E 00", "0 0 3 -"),
        ("4B 05 00 0000 0500 6162636465", "0 5 12 -"),
        // "abc" and "de" for identity 2, both with draw 7.
        ("3D 0B 0200000000000000 0000 0300 0700000000000000", "0 844424930131975 22 -"),
        ("3D 0B 0200000000000000 0300 0200 0700000000000000", "0 562949953421319 22 -"),
        // The source may not.
        ("25 10 0100000000000000 0700000000000300", "10 0 18 -"),
        ("03 0E 01", "0 0 3 -"),
        ("25 10 0000000000000000 0700000000000300", "9 0 18 -"),
        ("25 10 0100000000000000 0800000000000300", "10 0 18 -"),
        ("25 10 0100000000000000 0700000000000300", "0 0 18 -"),
        ("25 10 0100000000000000 0700000000000300", "10 0 18 -"),
        ("2D 0C 0100000000000000 0000 0700000000000300", "10 0 20 -"),
        ("2D 0C 0100000000000000 0000 0700000000000200", "0 2 20 -"),
        ("1B 06 01 0000 0300", "0 3 7 646500"),
        // Two services and two rows, one of them spent.
        ("01 0D", "0 131074 2 -"),
        // Draw 7 of 3 bytes stays in use.
        ("3D 0B 0200000000000000 0000 0300 0700000000000000", "0 844601434459398 22 -"),
        ("03 0E 10", "0 0 3 -"),
        ("25 10 0100000000000000 0700000000000200", "4 0 18 -"),
    ];
    let mut case = Case::new("releases, a paper");
    for (record, line) in records {
        case.script.extend(bytes(record));
        let sheet = case.sheet.as_mut().expect("there is a sheet");
        sheet.push_str(line);
        sheet.push('\n');
    }
    case
}

/// The value of so many bytes with this number: no two of one length are equal.
fn value(n: usize, length: u16) -> Vec<u8> {
    (0..length).map(|at| (31 * n as u16 + at) as u8).collect()
}

/// The draw of the value with this number.
fn draw(n: usize) -> u64 {
    1_000 + n as u64
}

/// Values of these lengths from identity 1 for identity 2, which runs.
fn escrowed(name: &str, lengths: &[u16]) -> Case {
    let mut case = three_services(name);
    for (n, &length) in lengths.iter().enumerate() {
        case.accept(length.into(), heap_write(0, 0, &value(n, length)));
        case.accept(handle(length, draw(n)), protect(2, 0, length, draw(n)));
    }
    case.accept(0, hand_over(1));
    case
}

/// The value is there, whole, for identity 2, which runs.
fn is_there(case: &mut Case, n: usize, length: u16) {
    case.accept(length.into(), retrieve(1, 0, handle(length, draw(n))));
    case.show(&value(n, length), heap_read(1, 0, length));
}

/// It isn't, for a retrieve, a chain or a release.
fn is_gone(case: &mut Case, number: u64) {
    case.refuse(10, retrieve(1, 0, number));
    case.refuse(10, retrieve(1, 300, number));
    case.refuse(18, chain(3, 1, number, b""));
    case.refuse(10, release(1, number));
}

/// Five values, of which any may be released, in either order; then all are asked for.
fn some(released: usize, backwards: bool) -> Case {
    let lengths = [5, 0, 11, 1, 200];
    let order = if backwards { "backwards" } else { "forwards" };
    let mut case = escrowed(&format!("of five values released {released:05b} {order}"), &lengths);
    let is_released = |n: &usize| released >> n & 1 == 1;
    let mut gone: Vec<usize> = (0..5).filter(is_released).collect();
    if backwards {
        gone.reverse();
    }
    for n in gone {
        case.accept(0, release(1, handle(lengths[n], draw(n))));
    }
    for (n, &length) in lengths.iter().enumerate() {
        match is_released(&n) {
            true => is_gone(&mut case, handle(length, draw(n))),
            false => is_there(&mut case, n, length),
        }
    }
    case.accept(3 + 65_536 * 5, Call::Report);
    // A value behind them all has its own bytes.
    case.accept(3, heap_write(1, 0, b"new"));
    case.accept(handle(3, 7), protect(2, 0, 3, 7));
    case.accept(3, heap_write(1, 0, b"..."));
    case.accept(3, retrieve(2, 0, handle(3, 7)));
    case.show(b"new", heap_read(1, 0, 3));
    case.accept(3 + 65_536 * 6, Call::Report);
    case
}

/// Lengths of values, of which each in turn is the one released.
const LENGTHS: [&[u16]; 4] =
    [&[1], &[256; 16], &[0, 0, 3, 0], &[255, 1, 256, 0, 2, 128, 7, 64, 33]];

/// Of these values one is released: the others are whole, and its bytes serve the next.
fn one_of(lengths: &[u16], gone: usize) -> Case {
    let mut case = escrowed(&format!("value {gone} of {lengths:?} released"), lengths);
    case.accept(0, release(1, handle(lengths[gone], draw(gone))));
    for (n, &length) in lengths.iter().enumerate() {
        match n == gone {
            true => is_gone(&mut case, handle(length, draw(n))),
            false => is_there(&mut case, n, length),
        }
    }
    let (length, last) = (lengths[gone], lengths.len());
    case.accept(length.into(), heap_write(1, 0, &value(last, length)));
    case.accept(handle(length, draw(last)), protect(3, 0, length, draw(last)));
    let used: u16 = lengths.iter().sum();
    if used == 4_096 {
        case.refuse(14, protect(3, 0, 1, 7));
    }
    for n in (0..last).filter(|&n| n != gone) {
        is_there(&mut case, n, lengths[n]);
    }
    case.accept(0, hand_over(2));
    case.accept(length.into(), retrieve(2, 0, handle(length, draw(last))));
    case.show(&value(last, length), heap_read(2, 0, length));
    case
}

/// The escrow is as after a fresh box, but for the row.
fn one_value() -> Case {
    let mut case = three_services("the only value released");
    case.accept(6, heap_write(0, 0, b"secret"));
    case.accept(handle(6, 7), protect(1, 0, 6, 7));
    case.accept(0, release(1, handle(6, 7)));
    is_gone(&mut case, handle(6, 7));
    case.accept(6, heap_write(0, 0, b"public"));
    case.accept(handle(6, next(7)), protect(1, 0, 6, 7));
    case.accept(6, heap_write(0, 0, b"......"));
    case.accept(6, retrieve(1, 0, handle(6, next(7))));
    case.show(b"public", heap_read(0, 0, 6));
    is_gone(&mut case, handle(6, 7));
    case.accept(3 + 65_536 * 2, Call::Report);
    case
}

/// A second release is 10, as often as it comes.
fn twice() -> Case {
    let mut case = escrowed("released twice", &[4, 4, 4]);
    case.accept(0, release(1, handle(4, draw(1))));
    for _ in 0..3 {
        case.refuse(10, release(1, handle(4, draw(1))));
    }
    is_there(&mut case, 0, 4);
    is_there(&mut case, 2, 4);
    case.accept(0, release(1, handle(4, draw(2))));
    case.refuse(10, release(1, handle(4, draw(1))));
    case.refuse(10, release(1, handle(4, draw(2))));
    is_there(&mut case, 0, 4);
    case.accept(3 + 65_536 * 3, Call::Report);
    case
}

/// A value of no bytes is released all the same, between others and at the ends.
fn no_bytes() -> Case {
    let lengths = [0, 3, 0, 4, 0];
    let mut case = escrowed("values of no bytes released", &lengths);
    for gone in [2, 0, 4] {
        is_there(&mut case, gone, 0);
        case.accept(0, release(1, handle(0, draw(gone))));
        is_gone(&mut case, handle(0, draw(gone)));
        is_there(&mut case, 1, 3);
        is_there(&mut case, 3, 4);
    }
    case.accept(3 + 65_536 * 5, Call::Report);
    case
}

/// No byte was ever used.
fn only_values_of_no_bytes() -> Case {
    let mut case = escrowed("only values of no bytes", &[0; 8]);
    for gone in [7, 0, 3] {
        case.accept(0, release(1, handle(0, draw(gone))));
    }
    for n in 0..8 {
        match [7, 0, 3].contains(&n) {
            true => is_gone(&mut case, handle(0, draw(n))),
            false => is_there(&mut case, n, 0),
        }
    }
    case.accept(3 + 65_536 * 8, Call::Report);
    case
}

/// The source may not release, nor a third, nor the recipient from another source.
fn not_the_recipient() -> Case {
    let mut case = escrowed("release by others than the recipient", &[5]);
    for place in [0, 2] {
        case.accept(0, hand_over(place));
        for identity in [1, 2, 3] {
            case.refuse(10, release(identity, handle(5, draw(0))));
        }
    }
    case.accept(0, hand_over(1));
    for identity in [2, 3, 4, 1 << 63 | 1] {
        case.refuse(10, release(identity, handle(5, draw(0))));
    }
    for number in [handle(5, draw(1)), handle(4, draw(0)), draw(0), 0, u64::MAX] {
        case.refuse(10, release(1, number));
    }
    is_there(&mut case, 0, 5);
    case.accept(0, release(1, handle(5, draw(0))));
    is_gone(&mut case, handle(5, draw(0)));
    case
}

/// Rows of several sources and recipients: each is released by its own alone.
fn same_handle_of_others() -> Case {
    let mut case = three_services("values of many sources and recipients");
    for source in 0..3 {
        case.accept(0, hand_over(source));
        for recipient in 0..3 {
            let n = 3 * source + recipient;
            case.accept(1, heap_write(source, 0, &[n]));
            let draw = after(7, n.into());
            case.accept(handle(1, draw), protect(u64::from(recipient) + 1, 0, 1, 7));
        }
    }
    for runner in 0..3 {
        case.accept(0, hand_over(runner));
        for source in 0..3 {
            for recipient in 0..3 {
                let number = handle(1, after(7, (3 * source + recipient).into()));
                let code = if recipient == runner { 0 } else { 10 };
                case.answer(code, 1, retrieve(u64::from(source) + 1, 9, number));
                case.answer(code, 0, release(u64::from(source) + 1, number));
                case.refuse(10, release(u64::from(source) + 1, number));
            }
        }
    }
    case.accept(3 + 65_536 * 9, Call::Report);
    case
}

/// Two places of one identity are one principal.
fn another_place() -> Case {
    let mut case = escrowed("release by a second place of the recipient", &[5, 6]);
    case.accept(8, create(8, 2));
    case.accept(0, hand_over(8));
    case.accept(0, release(1, handle(5, draw(0))));
    case.refuse(10, release(1, handle(5, draw(0))));
    case.accept(6, retrieve(1, 0, handle(6, draw(1))));
    case.show(&value(1, 6), heap_read(8, 0, 6));
    case.accept(0, hand_over(1));
    is_gone(&mut case, handle(5, draw(0)));
    is_there(&mut case, 1, 6);
    case.accept(0, release(1, handle(6, draw(1))));
    case.accept(0, hand_over(8));
    is_gone(&mut case, handle(6, draw(1)));
    case.show(&value(1, 6), heap_read(8, 0, 6));
    case
}

/// Who comes again, in any place, is the recipient still. Another in that place isn't.
fn recipient_who_left() -> Case {
    let mut case = escrowed("release after the recipient left", &[5, 6, 7]);
    case.accept(0, release(1, handle(6, draw(1))));
    case.accept(0, Call::Exit);
    case.refuse(4, release(1, handle(5, draw(0))));
    case.accept(1, create(1, 9));
    case.accept(0, hand_over(1));
    case.refuse(10, release(1, handle(5, draw(0))));
    case.accept(0, Call::Exit);
    case.accept(1, create(1, 2));
    case.accept(0, hand_over(1));
    is_gone(&mut case, handle(6, draw(1)));
    is_there(&mut case, 2, 7);
    case.accept(0, release(1, handle(5, draw(0))));
    is_there(&mut case, 2, 7);
    case.accept(0, Call::Exit);
    case.accept(15, create(15, 2));
    case.accept(0, hand_over(15));
    case.accept(0, release(1, handle(7, draw(2))));
    is_gone(&mut case, handle(7, draw(2)));
    case.accept(3 + 65_536 * 3, Call::Report);
    case
}

/// What is escrowed outlasts its source, and is released all the same.
fn source_who_left() -> Case {
    let mut case = escrowed("release after the source left", &[5, 6]);
    case.accept(0, hand_over(0));
    case.accept(0, Call::Exit);
    case.accept(0, hand_over(1));
    case.accept(0, release(1, handle(5, draw(0))));
    is_gone(&mut case, handle(5, draw(0)));
    is_there(&mut case, 1, 6);
    case.accept(2 + 65_536 * 2, Call::Report);
    case
}

/// Refused releases leave everything.
fn refused_between() -> Case {
    let mut case = escrowed("refused releases alter nothing", &[3, 4, 5]);
    for n in 0..3 {
        case.refuse(9, release(0, handle(4, draw(1))));
        case.refuse(10, release(2, handle(4, draw(1))));
        case.refuse(10, release(1, handle(4, draw(2))));
        case.accept(0, hand_over(NONE_RUNS));
        case.refuse(4, release(1, handle(4, draw(1))));
        case.accept(0, hand_over(1));
        is_there(&mut case, n, n as u16 + 3);
    }
    case.accept(3 + 65_536 * 3, Call::Report);
    case
}

/// A protect that gets 14 for its bytes is accepted after a release of enough of them.
fn bytes_serve_again() -> Case {
    let mut lengths = vec![256; 15];
    lengths.extend([200, 50, 6]);
    assert_eq!(lengths.iter().map(|&length| u32::from(length)).sum::<u32>(), 4_096);
    let mut case = escrowed("freed bytes serve later protects", &lengths);
    case.accept(256, heap_write(1, 0, &[0xEE; 256]));
    case.refuse(14, protect(2, 0, 1, 7));
    // Six bytes are freed, at the end.
    case.accept(0, release(1, handle(6, draw(17))));
    case.refuse(14, protect(2, 0, 7, 7));
    case.accept(handle(6, 7), protect(2, 0, 6, 7));
    case.refuse(14, protect(2, 0, 1, 7));
    // Fifty in front of those, then a whole value at the very front.
    case.accept(0, release(1, handle(50, draw(16))));
    case.refuse(14, protect(2, 0, 51, 7));
    case.accept(handle(49, 7), protect(2, 0, 49, 7));
    case.refuse(14, protect(2, 0, 2, 7));
    case.accept(0, release(1, handle(256, draw(0))));
    case.accept(handle(256, 7), protect(2, 0, 256, 7));
    case.accept(handle(1, 7), protect(2, 0, 1, 7));
    case.refuse(14, protect(2, 0, 1, 7));
    for n in 1..15 {
        is_there(&mut case, n, 256);
    }
    is_there(&mut case, 15, 200);
    for length in [6, 49, 256, 1] {
        case.accept(length.into(), retrieve(2, 0, handle(length, 7)));
        case.show(&vec![0xEE; length.into()], heap_read(1, 0, length));
    }
    for number in [handle(6, draw(17)), handle(50, draw(16)), handle(256, draw(0))] {
        is_gone(&mut case, number);
    }
    case.accept(3 + 65_536 * 22, Call::Report);
    case
}

/// All 4,096 bytes are given up and used again, three times over.
fn all_bytes_serve_again() -> Case {
    let mut case = three_services("all bytes used three times over");
    for turn in 0..3 {
        for n in 0..16 {
            case.accept(256, heap_write(0, 0, &[16 * turn as u8 + n as u8; 256]));
            let number = handle(256, after(7, 16 * turn + n));
            case.accept(number, protect(1, 0, 256, 7));
        }
        case.refuse(14, protect(1, 0, 1, 7));
        for n in [15, 0, 8, 7, 9, 1, 14, 2, 13, 3, 12, 4, 11, 5, 10, 6] {
            let number = handle(256, after(7, 16 * turn + n));
            case.accept(256, retrieve(1, 0, number));
            case.show(&[16 * turn as u8 + n as u8; 256], heap_read(0, 0, 256));
            case.accept(0, release(1, number));
        }
    }
    case.accept(3 + 65_536 * 48, Call::Report);
    case
}

/// The first of 16 values of 256 bytes, again and again: all others move down.
fn longest_values() -> Case {
    let mut case = escrowed("the first of the longest values, one after another", &[256; 16]);
    for gone in 0..16 {
        case.accept(0, release(1, handle(256, draw(gone))));
        is_gone(&mut case, handle(256, draw(gone)));
        for n in gone + 1..16 {
            is_there(&mut case, n, 256);
        }
    }
    case
}

/// 64 rows are used, and stay so though most are spent.
fn rows_stay_used() -> Case {
    let mut case = escrowed("64 rows, spent one after another", &[1; 64]);
    for n in (0..64).rev().chain([5]) {
        case.refuse(14, protect(2, 0, 0, 7));
        case.refuse(14, protect(2, 0, 1, 7));
        case.refuse(12, protect(2, 0, 1, 1 << 48));
        if n % 2 == 0 {
            case.accept(0, release(1, handle(1, draw(n))));
        }
        case.accept(3 + 65_536 * 64, Call::Report);
    }
    for n in 0..64 {
        match n % 2 == 0 {
            true => is_gone(&mut case, handle(1, draw(n))),
            false => is_there(&mut case, n, 1),
        }
    }
    case
}

/// 64 values one after the other, each given up before the next comes: no byte is used,
/// and the rows are.
fn all_rows_spent() -> Case {
    let mut case = three_services("64 rows, all of them spent");
    for n in 0..64 {
        case.accept(handle(256, after(7, n)), protect(1, 0, 256, 7));
        case.accept(0, release(1, handle(256, after(7, n))));
        case.accept(3 + 65_536 * (n as u64 + 1), Call::Report);
    }
    for length in [0, 1, 256] {
        case.refuse(14, protect(1, 0, length, 7));
        case.refuse(14, protect(1, 0, length, 500));
    }
    for n in 0..64 {
        is_gone(&mut case, handle(256, after(7, n)));
    }
    case
}

/// 64 rows and 4,096 bytes: a release frees bytes and no row.
fn full_by_rows_and_bytes() -> Case {
    let mut case = escrowed("64 rows and 4,096 bytes", &[64; 64]);
    for gone in [0, 31, 63] {
        case.refuse(14, protect(2, 0, 1, 7));
        case.accept(0, release(1, handle(64, draw(gone))));
        case.refuse(14, protect(2, 0, 1, 7));
        case.refuse(14, protect(2, 0, 0, 7));
    }
    for n in (0..64).filter(|n| ![0, 31, 63].contains(n)) {
        is_there(&mut case, n, 64);
    }
    case.accept(3 + 65_536 * 64, Call::Report);
    case
}

/// A draw whose handle is in a spent row is passed over as one in use.
fn passed_over() -> Case {
    let mut case = three_services("handles of spent rows are passed over");
    for n in 0..5 {
        case.accept(handle(3, after(7, n)), protect(1, 0, 3, 7));
    }
    for n in [0, 1, 4] {
        case.accept(0, release(1, handle(3, after(7, n))));
    }
    case.accept(handle(3, after(7, 5)), protect(1, 0, 3, 7));
    case.accept(handle(3, after(7, 6)), protect(1, 0, 3, after(7, 1)));
    case.accept(handle(3, after(7, 7)), protect(1, 0, 3, after(7, 4)));
    case.accept(handle(3, before(7)), protect(1, 0, 3, before(7)));
    case.accept(0, release(1, handle(3, before(7))));
    case.accept(handle(3, after(7, 8)), protect(1, 0, 3, before(7)));
    // Under another length the draw is free.
    case.accept(handle(2, 7), protect(1, 0, 2, 7));
    case.accept(handle(0, 7), protect(1, 0, 0, 7));
    case.accept(3 + 65_536 * 12, Call::Report);
    case
}

/// Every second of a sequence's rows is spent: all of them are passed over.
fn passed_over_in_the_middle() -> Case {
    let mut case = three_services("spent rows among those passed over");
    for n in 0..63 {
        case.accept(handle(0, after(7, n)), protect(1, 0, 0, 7));
    }
    for n in (0..63).step_by(2) {
        case.accept(0, release(1, handle(0, after(7, n))));
    }
    case.accept(handle(0, after(7, 63)), protect(1, 0, 0, 7));
    case.refuse(14, protect(1, 0, 0, 7));
    case
}

/// The draw of the value just given up, with its own length and with others.
fn own_draw_again() -> Case {
    let mut case = three_services("the draw of a released value again");
    for (n, length) in [0, 1, 2, 255, 256].into_iter().enumerate() {
        let draw = 100 * n as u64;
        for many in 0..4 {
            case.accept(handle(length, after(draw, many)), protect(1, 0, length, draw));
            case.accept(0, release(1, handle(length, after(draw, many))));
        }
    }
    case.accept(3 + 65_536 * 20, Call::Report);
    case
}

/// Handle 0, of no bytes and draw 0: the row is spent, and rows that aren't used are not
/// taken for it.
fn zero_handle() -> Case {
    let mut case = three_services("handle 0 released");
    case.refuse(10, release(1, 0));
    case.accept(0, protect(1, 0, 0, 0));
    case.accept(0, retrieve(1, 256, 0));
    case.accept(0, release(1, 0));
    is_gone(&mut case, 0);
    case.accept(11, protect(1, 0, 0, 0));
    case.accept(0, release(1, 11));
    case.accept(handle(0, after(0, 2)), protect(1, 0, 0, 0));
    case.accept(3 + 65_536 * 3, Call::Report);
    case
}

/// The report counts spent rows, beside services and log rows.
fn reports() -> Case {
    let mut case = three_services("reports between releases");
    let mut rows = 0;
    for n in 0..10 {
        for _ in 0..2 {
            case.accept(handle(2, after(7, rows)), protect(1, 0, 2, 7));
            rows += 1;
            case.accept(3 + 256 * n as u64 + 65_536 * rows as u64, Call::Report);
        }
        case.accept(0, release(1, handle(2, after(7, n))));
        case.accept(3 + 256 * n as u64 + 65_536 * rows as u64, Call::Report);
        case.accept(1, heap_write(0, 0, &[n as u8]));
        case.accept(tag_of(1, &[n as u8]).0, attest(0, 1));
        case.accept(3 + 256 * (n as u64 + 1) + 65_536 * rows as u64, Call::Report);
    }
    case
}

/// Releases leave the log and the heaps.
fn log_is_left_alone() -> Case {
    let mut case = escrowed("releases leave log and heaps", &[8, 8, 8]);
    case.accept(8, heap_write(1, 100, b"in place"));
    case.accept(tag_of(2, b"in place").0, attest(100, 8));
    for n in 0..3 {
        case.accept(0, release(1, handle(8, draw(n))));
        case.show(b"in place", heap_read(1, 100, 8));
        case.accept(tag_of(2, b"in place").0, attest(100, 8));
        case.accept(1, check(2, tag_of(2, b"in place").0, b"in place"));
    }
    case.accept(0, hand_over(0));
    case.show(&value(2, 8), heap_read(0, 0, 8));
    case.accept(3 + 256 + 65_536 * 3, Call::Report);
    case
}

/// A link that is released is 18, though its value would have ended the chain, or have
/// been malformed. 9 comes before.
fn chains_by_one_link() -> Case {
    let mut case = three_services("chains of one link, released");
    let values: [&[u8]; 4] = [&[1], &[], &[4, 4], &[2, 2]];
    for (n, value) in values.into_iter().enumerate() {
        let length = value.len() as u16;
        let number = handle(length, draw(n));
        case.accept(length.into(), heap_write(0, 0, value));
        case.accept(number, protect(1, 0, length, draw(n)));
        case.answer(if n == 0 { 0 } else { 19 }, 1, chain(3, 1, number, b""));
        case.accept(0, release(1, number));
        case.refuse(18, chain(3, 1, number, b""));
        case.refuse(18, chain(3, 1, number, b"left over"));
        case.refuse(9, chain(3, 0, number, b""));
        case.refuse(18, chain(3, 2, number, b""));
    }
    case
}

/// A chain of four escrowed links, of which any may be released: 18 at the first that
/// is. What is put again in its stead has another handle.
fn chain_of_four(gone: usize) -> Case {
    let mut case = three_services(&format!("a chain of four links, released {gone:04b}"));
    let mut links: Vec<Link> = Vec::new();
    for n in 0..4 {
        let value = link_value(links.last().copied(), &[n]);
        let length = value.len() as u16;
        case.accept(length.into(), heap_write(0, 0, &value));
        let number = handle(length, draw(n.into()));
        case.accept(number, protect(1, 0, length, draw(n.into())));
        links.push(Link { way: 3, identity: 1, number });
    }
    for (n, link) in links.iter().enumerate() {
        case.accept(n as u64 + 1, chain(3, 1, link.number, b""));
    }
    let is_gone = |n: usize| gone >> n & 1 == 1;
    for n in (0..4).filter(|&n| is_gone(n)) {
        case.accept(0, release(1, links[n].number));
    }
    for (n, link) in links.iter().enumerate() {
        let code = if (0..=n).any(is_gone) { 18 } else { 0 };
        case.answer(code, n as u64 + 1, chain(3, 1, link.number, b""));
    }
    case
}

/// The last link of a chain of so many by both ways is released. Its logged links are
/// checked before it is found gone.
fn last_link(links: usize) -> Case {
    let mut case = three_services(&format!("the last of {links} links released"));
    let (mut first, mut bytes) = (None, Vec::new());
    for n in 0..links {
        let value = link_value(first, &[n as u8]);
        let length = value.len() as u16;
        case.accept(length.into(), heap_write(0, 0, &value));
        let number = match n % 2 {
            0 => handle(length, draw(n)),
            _ => tag_of(1, &value).0,
        };
        let put = match n % 2 {
            0 => protect(1, 0, length, draw(n)),
            _ => attest(0, length),
        };
        case.accept(number, put);
        if n % 2 == 1 {
            bytes = [counted(&value), bytes].concat();
        }
        first = Some(Link { way: 3 - n as u8 % 2, identity: 1, number });
    }
    let Link { way, identity, number } = first.expect("there is a link");
    case.accept(links as u64, chain(way, identity, number, &bytes));
    case.accept(0, release(1, handle(2, draw(0))));
    case.refuse(18, chain(way, identity, number, &bytes));
    case.refuse(18, chain(way, identity, number, &[&bytes[..], b"more"].concat()));
    case
}

/// A value that names its own handle runs to 20, and is 18 once released.
fn rings() -> Case {
    let mut case = three_services("a ring, released");
    let own = Link { way: 3, identity: 1, number: handle(17, 7) };
    let value = link_value(Some(own), &[]);
    case.accept(17, heap_write(0, 0, &value));
    case.accept(handle(17, 7), protect(1, 0, 17, 7));
    case.refuse(20, chain(3, 1, own.number, b""));
    case.accept(0, release(1, own.number));
    case.refuse(18, chain(3, 1, own.number, b""));
    // The same value again has the next draw, and names the spent row.
    case.accept(handle(17, next(7)), protect(1, 0, 17, 7));
    case.refuse(18, chain(3, 1, handle(17, next(7)), b""));
    case
}

//! Log and escrow at their last rows and last value bytes.

use second::{tag_of, Call};

use super::{handle, three_services};
use crate::calls::{attest, check, create, hand_over, heap_read, heap_write, protect, retrieve};
use crate::case::Case;
use crate::draws::after;

pub fn cases() -> Vec<Case> {
    let mut cases = vec![log_rows(), full_log_and_known_pairs(), escrow_rows(), both_full()];
    for lengths in [&FULL_BY_1[..], &FULL_BY_256, &FULL_BY_97, &FULL_IN_64_ROWS] {
        cases.push(log_bytes(lengths));
        cases.push(escrow_bytes(lengths));
    }
    cases
}

/// Value lengths that sum to 4,096.
const FULL_BY_256: [u16; 16] = [256; 16];

const FULL_BY_1: [u16; 17] =
    [256, 256, 256, 256, 256, 256, 256, 256, 256, 256, 256, 256, 256, 256, 256, 255, 1];

const FULL_BY_97: [u16; 20] =
    [255, 254, 253, 252, 251, 250, 249, 248, 247, 246, 245, 244, 243, 242, 241, 240, 39, 0, 0, 97];

/// The last row and the last byte are used at once.
const FULL_IN_64_ROWS: [u16; 64] = [64; 64];

/// Writes the values' first two bytes, so that all of them differ.
fn number_heap(case: &mut Case, n: usize) -> [u8; 256] {
    let mut heap = [0xA5; 256];
    heap[..2].copy_from_slice(&[n as u8, 0x11]);
    case.accept(256, heap_write(0, 0, &heap));
    heap
}

/// 63, 64 and 65 rows, the report after each.
fn log_rows() -> Case {
    let mut case = three_services("log rows at the limit");
    for n in 0..70 {
        case.accept(1, heap_write(0, 3, &[n]));
        let code = if n < 64 { 0 } else { 13 };
        case.answer(code, tag_of(1, &[n]).0, attest(3, 1));
        case.accept(3 + 256 * (u64::from(n) + 1).min(64), Call::Report);
        case.accept(u64::from(n < 64), check(1, tag_of(1, &[n]).0, &[n]));
    }
    case.refuse(13, attest(0, 0));
    case.refuse(13, attest(0, 256));
    case
}

/// A pair already there gets its tag in a full log; the same value of another
/// identity doesn't, and from another place of the same identity it does.
fn full_log_and_known_pairs() -> Case {
    let mut case = three_services("known pairs in a full log");
    case.accept(9, create(9, 1));
    case.accept(64, heap_write(0, 0, &(0..64).collect::<Vec<u8>>()));
    for n in 0..64 {
        case.accept(tag_of(1, &[n]).0, attest(n.into(), 1));
    }
    for n in (0..64).rev() {
        case.accept(tag_of(1, &[n]).0, attest(n.into(), 1));
    }
    case.refuse(13, attest(0, 2));
    case.refuse(13, attest(0, 0));
    case.accept(0, hand_over(1));
    case.accept(1, heap_write(1, 0, &[5]));
    case.refuse(13, attest(0, 1));
    case.accept(0, hand_over(9));
    case.accept(1, heap_write(9, 200, &[5]));
    case.accept(tag_of(1, &[5]).0, attest(200, 1));
    case.accept(4 + 256 * 64, Call::Report);
    case
}

/// Fills the log's bytes exactly. Before the last value, one byte more than is
/// left is refused; after it, one byte is.
fn log_bytes(lengths: &[u16]) -> Case {
    let mut case = three_services(&format!("log bytes, {} values", lengths.len()));
    let (last, before) = lengths.split_last().expect("there are values");
    for (n, &length) in before.iter().enumerate() {
        let heap = number_heap(&mut case, n);
        case.accept(tag_of(1, &heap[..usize::from(length)]).0, attest(0, length));
    }
    let heap = number_heap(&mut case, 200);
    if *last < 256 {
        case.refuse(13, attest(0, last + 1));
        case.refuse(13, attest(0, 256));
    }
    let value = &heap[..usize::from(*last)];
    case.accept(tag_of(1, value).0, attest(0, *last));
    case.refuse(13, attest(9, 1));
    case.refuse(13, attest(9, 247));
    case.accept(tag_of(1, value).0, attest(0, *last));
    case.accept(1, check(1, tag_of(1, value).0, value));
    empty_value_in_full_log(&mut case, lengths);
    case
}

/// A value of no bytes needs a row only.
fn empty_value_in_full_log(case: &mut Case, lengths: &[u16]) {
    let (tag, known) = (tag_of(1, b"").0, lengths.contains(&0));
    let code = if lengths.len() == 64 { 13 } else { 0 };
    case.answer(code, tag, attest(256, 0));
    case.accept(u64::from(code == 0), check(1, tag, b""));
    let distinct = lengths.iter().filter(|&&length| length > 0).count();
    let rows = distinct + usize::from(known || code == 0);
    case.accept(3 + 256 * rows as u64, Call::Report);
}

/// 63, 64 and 65 rows, the report after each.
fn escrow_rows() -> Case {
    let mut case = three_services("escrow rows at the limit");
    for n in 0..70 {
        case.accept(1, heap_write(0, 3, &[n as u8]));
        let code = if n < 64 { 0 } else { 14 };
        case.answer(code, handle(1, 100 * n), protect(2, 3, 1, 100 * n));
        case.accept(3 + 65_536 * (n + 1).min(64), Call::Report);
    }
    case.refuse(14, protect(2, 0, 0, 0));
    case.accept(0, hand_over(1));
    for n in 0..64 {
        case.accept(1, retrieve(1, 0, handle(1, 100 * n)));
        case.show(&[n as u8], heap_read(1, 0, 1));
    }
    case.refuse(10, retrieve(1, 0, handle(1, 6_400)));
    case
}

/// Fills the escrow's bytes exactly, as `log_bytes` does the log's, and hands
/// every value out again.
fn escrow_bytes(lengths: &[u16]) -> Case {
    let mut case = three_services(&format!("escrow bytes, {} values", lengths.len()));
    let last = lengths.len() - 1;
    for (n, &length) in lengths.iter().enumerate() {
        number_heap(&mut case, n);
        if n == last && length < 256 {
            case.refuse(14, protect(2, 0, length + 1, 500));
            case.refuse(14, protect(2, 0, 256, 500));
        }
        case.accept(handle(length, n as u64), protect(2, 0, length, n as u64));
    }
    case.refuse(14, protect(2, 0, 1, 500));
    let code = if lengths.len() == 64 { 14 } else { 0 };
    case.answer(code, handle(0, 500), protect(2, 256, 0, 500));
    case.accept(0, hand_over(1));
    for (n, &length) in lengths.iter().enumerate() {
        let mut value = [0xA5; 256];
        value[..2].copy_from_slice(&[n as u8, 0x11]);
        case.accept(u64::from(length), retrieve(1, 0, handle(length, n as u64)));
        case.show(&value[..usize::from(length)], heap_read(1, 0, length));
    }
    let rows = lengths.len() as u64 + u64::from(code == 0);
    case.accept(3 + 65_536 * rows, Call::Report);
    case
}

/// Full tables leave the other calls alone.
fn both_full() -> Case {
    let mut case = three_services("both tables full");
    case.accept(64, heap_write(0, 0, &(0..64).collect::<Vec<u8>>()));
    for n in 0..64 {
        case.accept(tag_of(1, &[n]).0, attest(n.into(), 1));
        case.accept(handle(1, after(0, n.into())), protect(1, n.into(), 1, 0));
    }
    case.accept(3 + 256 * 64 + 65_536 * 64, Call::Report);
    case.accept(1, heap_write(0, 0, &[99]));
    case.refuse(13, attest(0, 1));
    case.refuse(14, protect(1, 0, 1, 0));
    case.accept(1, retrieve(1, 0, handle(1, after(0, 40))));
    case.accept(tag_of(1, &[40]).0, attest(0, 1));
    case.accept(0, Call::Exit);
    case.accept(2 + 256 * 64 + 65_536 * 64, Call::Report);
    case.accept(15, create(15, 4));
    case.accept(1, check(1, tag_of(1, &[63]).0, &[63]));
    case
}

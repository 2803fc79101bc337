//! Draws at their limit, and handles that are passed over.

use second::Call;

use super::{handle, three_services};
use crate::calls::{hand_over, heap_read, heap_write, protect, retrieve};
use crate::case::Case;
use crate::draws::{after, before, next};

const LIMIT: u64 = 1 << 48;
const LAST: u64 = LIMIT - 1;

pub fn cases() -> Vec<Case> {
    let mut cases = vec![
        draws_at_the_limit(),
        srand48(),
        passed_over_in_the_middle(),
        entered_in_the_middle(),
        lengths_apart(),
        among_all_rows(),
        backwards(),
        refused_between(),
    ];
    cases.extend([0, 7, LAST - 30, LAST].map(all_64_from_one_draw));
    // The second of the 64 is 0, is the last draw; the last of them is 0.
    let to_0 = (0..63).fold(0, |draw, _| before(draw));
    cases.extend([before(0), before(LAST), to_0].map(all_64_from_one_draw));
    let halves = [1 << 47, (1 << 47) - 1, 1 << 24, (1 << 24) - 1, 1 << 32, LAST - (1 << 32)];
    cases.extend(halves.map(all_64_from_one_draw));
    cases.extend([LAST, 0, before(0), before(before(0)), before(LAST)].map(in_another_order));
    cases.extend([0, 7, 10, LAST, LAST - 1, 1 << 24, 1 << 47].map(numbers_beside));
    cases.extend([0, 7, LAST - 2, 1 << 32].map(runs_of_numbers));
    cases.extend([0, 1, 2, 31, 61, 62, 63].map(one_is_free));
    cases.extend([(0, 1), (5, 6), (0, 256), (256, 0), (255, 256), (129, 1)].map(other_length));
    cases.extend([0..16, 16..32, 32..48].map(one_bit_up));
    cases.extend([0..16, 16..32, 32..48].map(one_bit_down));
    cases
}

fn draws_at_the_limit() -> Case {
    let mut case = three_services("draws at the limit");
    for length in [0, 1, 255, 256] {
        case.accept(handle(length, LAST), protect(2, 0, length, LAST));
        case.refuse(12, protect(2, 0, length, LIMIT));
        case.refuse(12, protect(2, 0, length, LIMIT + 1));
        case.refuse(12, protect(2, 0, length, handle(length, LAST) | LIMIT));
        case.accept(handle(length, next(LAST)), protect(2, 0, length, LAST));
        case.accept(handle(length, after(LAST, 2)), protect(2, 0, length, next(LAST)));
        case.accept(handle(length, 0), protect(2, 0, length, 0));
        case.accept(handle(length, 11), protect(2, 0, length, 0));
        case.accept(handle(length, LAST - 1), protect(2, 0, length, LAST - 1));
        case.accept(handle(length, next(LAST - 1)), protect(2, 0, length, LAST - 1));
    }
    case
}

/// What a C library's drand48 goes through, written out: from srand48(0), which
/// begins at 0x330E, and from the last draw.
fn srand48() -> Case {
    let mut case = three_services("the draws of drand48");
    let draws =
        [13_070, 48_083_817_484_545, 211_078_642_492_280, 27_126_209_522_211, 245_014_179_504_882];
    for draw in draws {
        case.accept(draw, protect(2, 0, 0, 0x330E));
    }
    let draws = [
        281_474_976_710_655,
        281_449_761_806_750,
        76_003_201_113_169,
        59_440_590_197_896,
        275_208_562_306_547,
    ];
    for draw in draws {
        case.accept(draw, protect(2, 0, 0, LAST));
    }
    case
}

/// The candidates from this draw on are in use already, in another order.
fn in_another_order(draw: u64) -> Case {
    let mut case = three_services(&format!("rows in another order, from draw {draw}"));
    let candidate = |n| after(draw, n);
    for n in [2, 4, 1, 0] {
        case.accept(handle(4, candidate(n)), protect(2, 0, 4, candidate(n)));
    }
    case.accept(handle(4, candidate(3)), protect(3, 0, 4, draw));
    case.accept(handle(4, candidate(5)), protect(3, 0, 4, draw));
    case.accept(handle(4, before(draw)), protect(3, 0, 4, before(draw)));
    case.accept(handle(4, candidate(6)), protect(3, 0, 4, before(draw)));
    case
}

/// The same draw 64 times: the last passes over 63 rows.
fn all_64_from_one_draw(draw: u64) -> Case {
    let mut case = three_services(&format!("64 times draw {draw}"));
    for n in 0..64 {
        case.accept(1, heap_write(0, 0, &[n as u8]));
        case.accept(handle(1, after(draw, n)), protect(1, 0, 1, draw));
    }
    case.refuse(14, protect(1, 0, 1, draw));
    for n in 0..64 {
        case.accept(1, retrieve(1, 9, handle(1, after(draw, n))));
        case.show(&[n as u8], heap_read(0, 9, 1));
    }
    for other in [after(draw, 64), before(draw), (draw + 1) % LIMIT, (draw + LAST) % LIMIT] {
        case.refuse(10, retrieve(1, 9, handle(1, other)));
    }
    case
}

/// Draws inside runs of candidates in use, with gaps between the runs.
fn passed_over_in_the_middle() -> Case {
    let mut case = three_services("draws inside runs of handles");
    let candidate = |n| after(1_000, n);
    for n in [10, 11, 12, 13, 15, 16, 17, 20] {
        case.accept(handle(2, candidate(n)), protect(2, 0, 2, candidate(n)));
    }
    let found = [(12, 14), (12, 18), (10, 19), (10, 21), (20, 22), (9, 9), (9, 23), (23, 24)];
    for (n, expected) in found {
        case.accept(handle(2, candidate(expected)), protect(2, 0, 2, candidate(n)));
    }
    case
}

/// Rows of one draw again and again, then draws from among them.
fn entered_in_the_middle() -> Case {
    let mut case = three_services("a sequence entered in its middle");
    let candidate = |n| after(7, n);
    for n in 0..10 {
        case.accept(handle(3, candidate(n)), protect(2, 0, 3, 7));
    }
    for (n, expected) in [(5, 10), (3, 11), (10, 12), (12, 13), (0, 14), (9, 15), (17, 17)] {
        case.accept(handle(3, candidate(expected)), protect(3, 0, 3, candidate(n)));
    }
    case.accept(handle(3, before(7)), protect(1, 0, 3, before(7)));
    case.accept(handle(3, candidate(16)), protect(1, 0, 3, before(7)));
    case.accept(handle(3, candidate(18)), protect(1, 0, 3, before(7)));
    case
}

/// Equal draws of different lengths don't meet.
fn lengths_apart() -> Case {
    let mut case = three_services("one draw, many lengths");
    for length in 0..40 {
        case.accept(handle(length, 7), protect(2, 0, length, 7));
    }
    for length in [0, 39, 5] {
        case.accept(handle(length, next(7)), protect(2, 0, length, 7));
    }
    case.accept(3 + 65_536 * 43, Call::Report);
    case
}

/// A candidate in use under another length is not passed over.
fn other_length((length, other): (u16, u16)) -> Case {
    let mut case = three_services(&format!("{length} bytes beside draws of {other}"));
    let candidate = |n| after(7, n);
    for n in [1, 0, 3] {
        case.accept(handle(other, candidate(n)), protect(2, 0, other, candidate(n)));
    }
    for n in 0..5 {
        case.accept(handle(length, candidate(n)), protect(2, 0, length, 7));
    }
    for n in [2, 4] {
        case.accept(handle(other, candidate(n)), protect(2, 0, other, 7));
    }
    case.accept(handle(length, candidate(5)), protect(2, 0, length, candidate(2)));
    case
}

/// A handle is in use whoever the row's source and recipient are.
fn among_all_rows() -> Case {
    let mut case = three_services("handles among all rows");
    let candidate = |n| after(7, n);
    case.accept(handle(5, 7), protect(2, 0, 5, 7));
    case.accept(handle(5, candidate(1)), protect(3, 0, 5, 7));
    case.accept(handle(5, candidate(2)), protect(1, 0, 5, 7));
    case.accept(0, hand_over(1));
    case.accept(handle(5, candidate(3)), protect(2, 0, 5, 7));
    case.accept(handle(5, candidate(4)), protect(99, 0, 5, candidate(1)));
    case.accept(0, Call::Exit);
    case.accept(0, hand_over(2));
    case.accept(handle(5, candidate(5)), protect(3, 0, 5, candidate(3)));
    case.accept(handle(5, candidate(6)), protect(3, 0, 5, 7));
    case
}

/// Each draw is the one before the last: no candidate is passed over but by the last
/// call.
fn backwards() -> Case {
    let mut case = three_services("draws in falling order");
    let (first, mut draw) = (20, 20);
    for _ in 0..62 {
        case.accept(handle(0, draw), protect(2, 0, 0, draw));
        draw = before(draw);
    }
    case.accept(handle(0, draw), protect(2, 0, 0, draw));
    case.accept(handle(0, next(first)), protect(2, 0, 0, draw));
    case
}

/// A refused protect takes no draw.
fn refused_between() -> Case {
    let mut case = three_services("refused protects take no draw");
    for n in 0..5 {
        case.accept(handle(3, after(7, n)), protect(2, 0, 3, 7));
        case.refuse(9, protect(0, 0, 3, 7));
        case.refuse(11, protect(2, 254, 3, 7));
        case.refuse(12, protect(2, 0, 3, LIMIT + 7));
        case.refuse(12, protect(2, 0, 3, handle(3, after(7, n))));
    }
    case.accept(0, hand_over(16));
    case.refuse(4, protect(2, 0, 3, 7));
    case.accept(0, hand_over(0));
    case.accept(handle(3, after(7, 5)), protect(2, 0, 3, 7));
    case
}

/// The numbers beside a draw don't come after it. They are not given for it, and make
/// no difference once they are in use.
fn numbers_beside(draw: u64) -> Case {
    let mut case = three_services(&format!("numbers beside draw {draw}"));
    let beside = [(draw + 1) % LIMIT, (draw + LAST) % LIMIT];
    case.accept(handle(3, draw), protect(1, 0, 3, draw));
    case.accept(handle(3, next(draw)), protect(1, 0, 3, draw));
    for number in beside {
        case.refuse(10, retrieve(1, 0, handle(3, number)));
        case.accept(handle(3, number), protect(1, 0, 3, number));
        case.accept(3, retrieve(1, 0, handle(3, number)));
    }
    case.accept(handle(3, after(draw, 2)), protect(1, 0, 3, draw));
    for number in beside {
        case.accept(handle(3, next(number)), protect(1, 0, 3, number));
    }
    case.accept(handle(3, after(draw, 3)), protect(1, 0, 3, draw));
    case
}

/// Draws inside a run of numbers in use, and beside it.
fn runs_of_numbers(first: u64) -> Case {
    let mut case = three_services(&format!("numbers from {first} on in use"));
    let number = |n| (first + n) % LIMIT;
    for n in [4, 1, 3, 6, 2, 5] {
        case.accept(handle(1, number(n)), protect(2, 0, 1, number(n)));
    }
    // Free, one below and one above the run.
    for n in [0, 7] {
        case.accept(handle(1, number(n)), protect(2, 0, 1, number(n)));
    }
    for many in 1..4 {
        for n in [0, 3, 7, 1] {
            case.accept(handle(1, after(number(n), many)), protect(2, 0, 1, number(n)));
        }
    }
    case
}

/// Of 64 candidates all but one are in use: it is given, and then the escrow is full.
fn one_is_free(free: usize) -> Case {
    let mut case = three_services(&format!("candidate {free} of 64 is free"));
    let candidate = |n| after(7, n);
    let scattered = (0..64).map(|n| 37 * n % 64);
    for n in scattered.filter(|&n| n != free) {
        case.accept(handle(0, candidate(n)), protect(2, 0, 0, candidate(n)));
    }
    case.accept(handle(0, candidate(free)), protect(3, 0, 0, 7));
    case.refuse(14, protect(3, 0, 0, 7));
    case.accept(3 + 65_536 * 64, Call::Report);
    case
}

/// One bit stands in each draw: it reaches the draws after it.
fn one_bit_up(bits: std::ops::Range<u32>) -> Case {
    let mut case = three_services(&format!("draws of one bit, {bits:?}"));
    for bit in bits {
        three_times(&mut case, 1 << bit);
    }
    case
}

/// One bit is down in each draw.
fn one_bit_down(bits: std::ops::Range<u32>) -> Case {
    let mut case = three_services(&format!("draws of all bits but one, {bits:?}"));
    for bit in bits {
        three_times(&mut case, LAST - (1 << bit));
    }
    case
}

fn three_times(case: &mut Case, draw: u64) {
    for many in 0..3 {
        case.accept(handle(1, after(draw, many)), protect(2, 0, 1, draw));
    }
}

//! Several faults at once: the lowest number is given. Every set of faults that
//! a kind can have is tried, and the box is shown unaltered at the end.

use second::{tag_of, Call, NONE_RUNS};

use super::{first_fault, handle, three_services};
use crate::calls::{
    attest, check, create, hand_over, heap_read, heap_write, protect, release, retrieve,
    shared_read, shared_write,
};
use crate::case::Case;

/// While a service runs, and then while none does.
const BOTH: [bool; 2] = [true, false];

pub fn cases() -> Vec<Case> {
    vec![
        creates(),
        hand_overs(),
        heap_calls(),
        shared_calls(),
        attests(),
        checks(),
        protects(false),
        protects(true),
        retrieves(),
        releases(),
    ]
}

/// 6, 7 and 9, whether or not a service runs.
fn creates() -> Case {
    let mut case = three_services("order in create");
    for free in [5, 6] {
        for identity in [0, 4] {
            for place in [0, 1, free, 16, 255] {
                let taken = place < 3;
                let faults = [(6, place > 15), (7, taken), (9, identity == 0)];
                case.answer(first_fault(&faults), u64::from(place), create(place, identity));
            }
        }
        case.accept(0, hand_over(NONE_RUNS));
    }
    case.accept(5, Call::Report);
    case
}

/// 6 and 7, whether or not a service runs: never 4, 5 or 8. Who ran before a
/// refusal runs after it.
fn hand_overs() -> Case {
    let mut case = three_services("order in hand over");
    case.accept(1, heap_write(0, 200, b"k"));
    for running in BOTH {
        for place in [3, 5, 15, 17, 18, 31, 32, 33, 128, 255] {
            let faults = [(6, place > 16), (7, place > 2)];
            case.refuse(first_fault(&faults), hand_over(place));
            match running {
                true => case.show(b"k", heap_read(0, 200, 1)),
                false => case.refuse(4, heap_read(0, 200, 1)),
            }
        }
        case.accept(0, hand_over(NONE_RUNS));
    }
    case.accept(0, hand_over(1));
    case.accept(3, Call::Report);
    case
}

/// 4, 6, 8 and 11 in heap write and heap read.
fn heap_calls() -> Case {
    let mut case = three_services("order in heap write and read");
    case.accept(1, heap_write(0, 200, b"k"));
    for running in BOTH {
        for place in [0, 1, 5, 16, 17, 255] {
            for offset in [200, 256, 65_535] {
                let beyond = offset > 255;
                let faults = [(4, !running), (6, place > 15), (8, place != 0), (11, beyond)];
                let code = first_fault(&faults);
                case.answer(code, 1, heap_write(place, offset, b"k"));
                match code {
                    0 => case.show(b"k", heap_read(place, offset, 1)),
                    _ => case.refuse(code, heap_read(place, offset, 1)),
                }
            }
        }
        case.accept(0, hand_over(NONE_RUNS));
    }
    case.accept(0, hand_over(0));
    let mut heap = [0; 256];
    heap[200] = b'k';
    case.show(&heap, heap_read(0, 0, 256));
    case
}

/// 11 alone, whether or not a service runs.
fn shared_calls() -> Case {
    let mut case = three_services("order in shared write and read");
    for _ in BOTH {
        case.refuse(11, shared_write(1_024, b"x"));
        case.refuse(11, shared_write(65_535, b"x"));
        case.refuse(11, shared_read(1, 1_024));
        case.refuse(11, shared_read(1_025, 0));
        case.show(&[0; 1_024], shared_read(0, 1_024));
        case.accept(0, hand_over(NONE_RUNS));
    }
    case
}

/// 4, 11 and 13; a pair already there is never 13.
fn attests() -> Case {
    let mut case = three_services("order in attest");
    case.accept(2, heap_write(0, 0, &[5, 200]));
    for full in [false, true] {
        if full {
            fill_log(&mut case);
        }
        for running in BOTH {
            for (offset, length) in [(0, 1), (256, 1), (257, 0), (1, 65_535)] {
                let beyond = offset != 0;
                let faults = [(4, !running), (11, beyond)];
                case.answer(first_fault(&faults), tag_of(1, &[5]).0, attest(offset, length));
            }
            let faults = [(4, !running), (13, full)];
            case.answer(first_fault(&faults), tag_of(1, &[200]).0, attest(1, 1));
            case.accept(0, hand_over(NONE_RUNS));
        }
        case.accept(0, hand_over(0));
        if !full {
            case.accept(3 + 256 * 2, Call::Report);
            case.accept(1, heap_write(0, 1, &[201]));
        }
    }
    case.accept(0, check(1, tag_of(1, &[201]).0, &[201]));
    case.accept(3 + 256 * 64, Call::Report);
    case
}

/// Brings the log from two rows to 64 and leaves a byte at 1 not yet logged.
fn fill_log(case: &mut Case) {
    for n in 100..162 {
        case.accept(1, heap_write(0, 2, &[n]));
        case.accept(tag_of(1, &[n]).0, attest(2, 1));
    }
    case.accept(1, heap_write(0, 1, &[200]));
    case.accept(tag_of(1, &[200]).0, attest(1, 1));
    case.accept(1, heap_write(0, 1, &[201]));
}

/// 9 alone.
fn checks() -> Case {
    let mut case = three_services("order in check");
    case.accept(tag_of(1, &[0; 3]).0, attest(0, 3));
    for _ in BOTH {
        for identity in [0, 1, 2] {
            for count in [3, 256, 257, 1_000] {
                let bytes = &[0; 1_000][..count];
                let (tag, found) = (tag_of(identity, bytes).0, identity == 1 && count == 3);
                let code = first_fault(&[(9, identity == 0)]);
                case.answer(code, u64::from(found), check(identity, tag, bytes));
            }
        }
        case.accept(0, hand_over(NONE_RUNS));
    }
    case
}

/// 4, 9, 11, 12 and 14: all 32 sets.
fn protects(full: bool) -> Case {
    let mut case =
        three_services(if full { "order in a full protect" } else { "order in protect" });
    let rows = if full { 64 } else { 2 };
    for draw in 0..rows {
        case.accept(handle(1, draw), protect(3, 0, 1, draw));
    }
    let mut added = 0;
    for running in BOTH {
        for identity in [0, 2] {
            for offset in [255, 256] {
                for draw in [500, 1 << 48, u64::MAX] {
                    let faults = [
                        (4, !running),
                        (9, identity == 0),
                        (11, offset == 256),
                        (12, draw > 500),
                        (14, full),
                    ];
                    let code = first_fault(&faults);
                    added += u64::from(code == 0);
                    case.answer(code, handle(1, 500), protect(identity, offset, 1, draw));
                }
            }
        }
        case.accept(0, hand_over(NONE_RUNS));
    }
    case.accept(3 + 65_536 * (rows + added), Call::Report);
    case
}

/// 4, 9, 10 and 11, for the recipient and for another.
fn retrieves() -> Case {
    let mut case = three_services("order in retrieve");
    case.accept(5, heap_write(0, 0, b"value"));
    case.accept(handle(5, 7), protect(2, 0, 5, 7));
    for place in [1, 2] {
        case.accept(0, hand_over(place));
        for running in BOTH {
            for identity in [0, 1, 3] {
                for number in [handle(5, 7), handle(5, 8), 0] {
                    for offset in [251, 252, 300, 65_535] {
                        let found = place == 1 && identity == 1 && number == handle(5, 7);
                        let faults =
                            [(4, !running), (9, identity == 0), (10, !found), (11, offset > 251)];
                        let code = first_fault(&faults);
                        case.answer(code, 5, retrieve(identity, offset, number));
                    }
                }
            }
            case.accept(0, hand_over(NONE_RUNS));
        }
        case.accept(0, hand_over(place));
    }
    case.show(&[0; 256], heap_read(2, 0, 256));
    case
}

/// 4, 9 and 10, for the recipient, for another and for the source, before the value is
/// released and after.
fn releases() -> Case {
    let mut case = three_services("order in release");
    case.accept(5, heap_write(0, 0, b"value"));
    case.accept(handle(5, 7), protect(2, 0, 5, 7));
    let mut spent = false;
    for place in [0, 2, 1, 1] {
        case.accept(0, hand_over(place));
        for running in BOTH {
            for identity in [0, 2, 3, 1] {
                for number in [0, handle(5, 8), handle(4, 7), u64::MAX, handle(5, 7)] {
                    let fits = place == 1 && identity == 1 && number == handle(5, 7);
                    let faults = [(4, !running), (9, identity == 0), (10, !fits || spent)];
                    let code = first_fault(&faults);
                    spent |= code == 0;
                    case.answer(code, 0, release(identity, number));
                }
            }
            case.accept(0, hand_over(NONE_RUNS));
        }
    }
    case.accept(3 + 65_536, Call::Report);
    case
}

//! Places, heaps, logs and escrows as services come and go; the marker's traps.

use second::{tag_of, Call};

use super::{handle, three_services};
use crate::calls::{
    attest, check, create, hand_over, heap_read, heap_write, protect, retrieve, shared_read,
    shared_write,
};
use crate::case::Case;
use crate::draws::next;

pub fn cases() -> Vec<Case> {
    vec![
        two_places_one_identity(),
        exit_and_a_new_tenant(),
        hand_over_keeps_the_heap(),
        sixteen_heaps(),
        check_tests_all_three(),
        checks_of_alike_values(),
        retrieve_tests_all_three(),
        values_outlast_their_source(),
        attest_takes_a_copy(),
        alike_identities_log(),
        alike_identities_retrieve(),
        calls_while_none_runs(),
        shared_memory_is_shared(),
        every_byte_shown(),
    ]
}

/// Two places of one identity are one principal with two heaps.
fn two_places_one_identity() -> Case {
    let mut case = Case::new("two places with one identity");
    case.accept(4, create(4, 7));
    case.accept(11, create(11, 7));
    case.accept(0, hand_over(4));
    case.accept(2, heap_write(4, 0, b"ab"));
    case.accept(tag_of(7, b"ab").0, attest(0, 2));
    case.accept(handle(2, 3), protect(7, 0, 2, 3));
    case.refuse(8, heap_read(11, 0, 2));
    case.accept(0, hand_over(11));
    case.refuse(8, heap_write(4, 0, b"x"));
    case.show(&[0; 4], heap_read(11, 0, 4));
    case.accept(2, retrieve(7, 1, handle(2, 3)));
    case.show(b"\0ab\0", heap_read(11, 0, 4));
    case.accept(tag_of(7, b"ab").0, attest(1, 2));
    case.accept(2 + 256 + 65_536, Call::Report);
    case.accept(0, Call::Exit);
    case.refuse(7, hand_over(11));
    case.accept(0, hand_over(4));
    case.show(b"ab", heap_read(4, 0, 2));
    case.accept(2, retrieve(7, 2, handle(2, 3)));
    case.show(b"abab", heap_read(4, 0, 4));
    case.accept(1 + 256 + 65_536, Call::Report);
    case
}

/// A new tenant finds zeros, whether it is another identity or the same.
fn exit_and_a_new_tenant() -> Case {
    let mut case = three_services("exit, then a new tenant");
    for identity in [4, 4, 1, 5] {
        case.accept(256, heap_write(0, 0, &[identity as u8; 256]));
        case.accept(0, Call::Exit);
        case.refuse(4, heap_read(0, 0, 1));
        case.refuse(7, hand_over(0));
        case.accept(2, Call::Report);
        case.accept(0, create(0, identity));
        case.refuse(7, create(0, identity));
        case.accept(0, hand_over(0));
        case.show(&[0; 256], heap_read(0, 0, 256));
    }
    case.accept(0, hand_over(1));
    case.show(&[0; 256], heap_read(1, 0, 256));
    case
}

fn hand_over_keeps_the_heap() -> Case {
    let mut case = three_services("hand over keeps the heap");
    case.accept(256, heap_write(0, 0, &[9; 256]));
    case.accept(0, hand_over(1));
    case.show(&[0; 256], heap_read(1, 0, 256));
    case.accept(3, heap_write(1, 253, b"end"));
    case.accept(0, hand_over(0));
    case.show(&[9; 256], heap_read(0, 0, 256));
    case.accept(0, Call::Exit);
    case.accept(0, hand_over(1));
    case.show(b"\0end", heap_read(1, 252, 4));
    case
}

/// All 16 heaps side by side, and one emptied among the others.
fn sixteen_heaps() -> Case {
    let mut case = Case::new("sixteen heaps");
    for place in 0..16 {
        case.accept(u64::from(place), create(place, 1));
        case.accept(0, hand_over(place));
        case.accept(256, heap_write(place, 0, &[place + 1; 256]));
        case.accept(u64::from(place) + 1, Call::Report);
    }
    case.accept(0, hand_over(8));
    case.accept(0, Call::Exit);
    case.accept(15, Call::Report);
    case.accept(8, create(8, 2));
    for place in 0..16 {
        let byte = if place == 8 { 0 } else { place + 1 };
        case.accept(0, hand_over(place));
        case.show(&[byte; 256], heap_read(place, 0, 256));
    }
    case
}

/// Check says yes only to what was logged, however right the tag is.
fn check_tests_all_three() -> Case {
    let mut case = three_services("check tests all three");
    let tag = tag_of(1, b"ab").0;
    case.accept(2, heap_write(0, 0, b"ab"));
    case.accept(0, check(1, tag, b"ab"));
    case.accept(tag, attest(0, 2));
    case.accept(1, check(1, tag, b"ab"));
    for bit in 0..64 {
        case.accept(0, check(1, tag ^ (1 << bit), b"ab"));
    }
    for bytes in [&b"ac"[..], b"a", b"ab\0", b"\0ab", b"", b"ba"] {
        case.accept(0, check(1, tag, bytes));
        case.accept(0, check(1, tag_of(1, bytes).0, bytes));
    }
    case.accept(0, check(2, tag, b"ab"));
    case.accept(0, check(2, tag_of(2, b"ab").0, b"ab"));
    case.accept(0, check(1, 0, b"ab"));
    case.accept(0, Call::Exit);
    case.accept(1, check(1, tag, b"ab"));
    case.accept(2 + 256, Call::Report);
    case
}

/// Values that differ in length only, or begin alike.
fn checks_of_alike_values() -> Case {
    let mut case = three_services("checks of alike values");
    for length in 0..20 {
        let value = [0; 20];
        case.accept(tag_of(1, &value[..usize::from(length)]).0, attest(0, length));
    }
    for length in 0..25 {
        let value = &[0; 25][..length];
        case.accept(u64::from(length < 20), check(1, tag_of(1, value).0, value));
        case.accept(0, check(2, tag_of(2, value).0, value));
    }
    case.accept(3 + 256 * 20, Call::Report);
    case
}

/// Retrieve wants the handle, the source and the recipient.
fn retrieve_tests_all_three() -> Case {
    let mut case = three_services("retrieve tests all three");
    let given = handle(6, 7);
    case.accept(6, heap_write(0, 10, b"secret"));
    case.accept(given, protect(2, 10, 6, 7));
    case.refuse(10, retrieve(1, 0, given));
    case.refuse(10, retrieve(2, 0, given));
    case.accept(0, hand_over(2));
    for source in [1, 2, 3, 99] {
        case.refuse(10, retrieve(source, 0, given));
    }
    case.show(&[0; 256], heap_read(2, 0, 256));
    case.accept(0, hand_over(1));
    let next = handle(6, next(7));
    for wrong in [given + 1, given - 1, next, 7, handle(5, 7), handle(7, 7), 0, u64::MAX] {
        case.refuse(10, retrieve(1, 0, wrong));
    }
    for source in [2, 3, 99, u64::MAX] {
        case.refuse(10, retrieve(source, 0, given));
    }
    case.show(&[0; 256], heap_read(1, 0, 256));
    for offset in [0, 250, 3] {
        case.accept(6, retrieve(1, offset, given));
        case.show(b"secret", heap_read(1, offset, 6));
    }
    case.refuse(11, retrieve(1, 251, given));
    case.accept(3 + 65_536, Call::Report);
    case
}

/// Source and recipient may go and come back, in other places too.
fn values_outlast_their_source() -> Case {
    let mut case = three_services("values outlast their source");
    case.accept(3, heap_write(0, 0, b"xyz"));
    case.accept(tag_of(1, b"xyz").0, attest(0, 3));
    case.accept(handle(3, 1), protect(2, 0, 3, 1));
    case.accept(handle(3, 2), protect(6, 0, 3, 2));
    case.accept(3, heap_write(0, 0, b"..."));
    case.accept(0, Call::Exit);
    case.accept(0, hand_over(1));
    case.accept(3, retrieve(1, 0, handle(3, 1)));
    case.show(b"xyz\0", heap_read(1, 0, 4));
    case.refuse(10, retrieve(1, 0, handle(3, 2)));
    case.accept(0, Call::Exit);
    case.accept(1, check(1, tag_of(1, b"xyz").0, b"xyz"));
    case.accept(14, create(14, 6));
    case.accept(0, hand_over(14));
    case.accept(3, retrieve(1, 253, handle(3, 2)));
    case.show(b"\0xyz", heap_read(14, 252, 4));
    case
}

/// Later writes to the heap don't reach what was logged or escrowed.
fn attest_takes_a_copy() -> Case {
    let mut case = three_services("log and escrow hold copies");
    case.accept(4, heap_write(0, 100, b"abcd"));
    case.accept(tag_of(1, b"bc").0, attest(101, 2));
    case.accept(handle(4, 0), protect(1, 100, 4, 0));
    case.accept(4, heap_write(0, 100, b"wxyz"));
    case.accept(1, check(1, tag_of(1, b"bc").0, b"bc"));
    case.accept(0, check(1, tag_of(1, b"xy").0, b"xy"));
    case.accept(4, retrieve(1, 0, handle(4, 0)));
    case.show(b"abcd", heap_read(0, 0, 4));
    case.accept(tag_of(1, b"bc").0, attest(1, 2));
    case.accept(3 + 256 + 65_536, Call::Report);
    case
}

/// Nine identities that differ in one byte from each other or from the first.
fn alike() -> [u64; 9] {
    let mut identities = [0x1122_3344_5566_7788; 9];
    for (byte, identity) in identities[1..].iter_mut().enumerate() {
        *identity ^= 0x80 << (8 * byte);
    }
    identities
}

/// The same value logged by alike identities is a row for each.
fn alike_identities_log() -> Case {
    let mut case = Case::new("alike identities log one value");
    for (place, identity) in (0..).zip(alike()) {
        case.accept(u64::from(place), create(place, identity));
        case.accept(0, hand_over(place));
        let tag = tag_of(identity, &[0]).0;
        case.accept(tag, attest(0, 1));
        for (n, other) in (0..).zip(alike()) {
            case.accept(u64::from(n == place), check(other, tag, &[0]));
            case.accept(u64::from(n <= place), check(other, tag_of(other, &[0]).0, &[0]));
        }
        case.accept((u64::from(place) + 1) * 257, Call::Report);
    }
    case
}

/// The recipient alone retrieves, and from the source alone.
fn alike_identities_retrieve() -> Case {
    let [first, others @ ..] = alike();
    let mut case = Case::new("alike identities retrieve");
    case.accept(0, create(0, first));
    case.accept(0, hand_over(0));
    case.accept(2, heap_write(0, 0, b"me"));
    case.accept(handle(2, 5), protect(first, 0, 2, 5));
    for source in others {
        case.refuse(10, retrieve(source, 0, handle(2, 5)));
    }
    case.refuse(10, retrieve(first.swap_bytes(), 0, handle(2, 5)));
    for bit in 0..64 {
        case.refuse(10, retrieve(first, 0, handle(2, 5) ^ (1 << bit)));
    }
    case.accept(2, retrieve(first, 2, handle(2, 5)));
    for (place, identity) in (1..).zip(others) {
        case.accept(u64::from(place), create(place, identity));
        case.accept(0, hand_over(place));
        case.refuse(10, retrieve(first, 0, handle(2, 5)));
        case.show(&[0; 4], heap_read(place, 0, 4));
    }
    case.accept(0, hand_over(0));
    case.show(b"meme", heap_read(0, 0, 4));
    case
}

/// Create, check, report, hand over and the shared calls need no service.
fn calls_while_none_runs() -> Case {
    let mut case = Case::new("calls while none runs");
    for place in [3, 0] {
        case.accept(0, check(5, tag_of(5, b"").0, b""));
        case.accept(2, shared_write(1_022, b"zz"));
        case.show(b"zz", shared_read(1_022, 2));
        case.accept(place, create(place as u8, 5));
        case.accept(0, hand_over(16));
        case.refuse(4, Call::Exit);
        case.refuse(4, heap_write(place as u8, 0, b"x"));
        case.refuse(4, heap_read(place as u8, 0, 0));
        case.refuse(4, attest(0, 0));
        case.refuse(4, protect(5, 0, 0, 0));
        case.refuse(4, retrieve(5, 0, 0));
    }
    case.accept(2, Call::Report);
    case
}

fn shared_memory_is_shared() -> Case {
    let mut case = three_services("shared memory is shared");
    case.accept(4, shared_write(510, b"four"));
    case.accept(0, hand_over(1));
    case.show(b"four", shared_read(510, 4));
    case.accept(0, Call::Exit);
    case.show(b"\0four\0", shared_read(509, 6));
    case.accept(2, shared_write(511, b"ee"));
    case.show(b"feer", shared_read(510, 4));
    case.accept(0, shared_write(1_024, b""));
    case
}

/// Every byte in hexadecimal, and the report among reads.
fn every_byte_shown() -> Case {
    let bytes: Vec<u8> = (0..=255).collect();
    let mut case = three_services("every byte shown");
    case.accept(256, heap_write(0, 0, &bytes));
    case.show(&bytes, heap_read(0, 0, 256));
    case.accept(256, shared_write(768, &bytes));
    case.show(&bytes, shared_read(768, 256));
    for n in 0..=255 {
        case.show(&[n], heap_read(0, n.into(), 1));
    }
    case.accept(3, Call::Report);
    case
}

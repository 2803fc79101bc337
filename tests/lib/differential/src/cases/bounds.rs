//! Offsets, lengths, counts and places at their limits.

use second::{tag_of, Call};

use super::{first_fault, handle, three_services};
use crate::calls::{
    attest, check, create, hand_over, heap_read, heap_write, protect, retrieve, shared_read,
    shared_write,
};
use crate::case::Case;

/// About 0, 256, 1,024 and 2^16, so that a sum modulo 2^16 would fit.
const OFFSETS: [u16; 18] = [
    0, 1, 127, 254, 255, 256, 257, 512, 1_022, 1_023, 1_024, 1_025, 64_511, 64_512, 65_279, 65_280,
    65_534, 65_535,
];

const LENGTHS: [u16; 17] = [
    0, 1, 2, 129, 254, 255, 256, 257, 512, 1_022, 1_023, 1_024, 1_025, 64_512, 65_280, 65_281,
    65_535,
];

pub fn cases() -> Vec<Case> {
    let mut cases = vec![
        heap_reads(),
        heap_writes(),
        attests(),
        protects(),
        retrieves(),
        shared_reads(),
        checks(),
        places(),
    ];
    // In parts, since one script would be too long.
    cases.extend(OFFSETS.chunks(6).map(shared_writes));
    cases
}

/// All offsets with all lengths.
fn parts() -> impl Iterator<Item = (u16, u16)> {
    OFFSETS.iter().flat_map(|&offset| LENGTHS.iter().map(move |&length| (offset, length)))
}

/// The part's bytes, if it isn't beyond them.
fn part(bytes: &[u8], offset: u16, length: u16) -> Option<&[u8]> {
    bytes.get(usize::from(offset)..usize::from(offset) + usize::from(length))
}

/// Different bytes, none of them zero.
fn pattern(count: usize, seed: usize) -> Vec<u8> {
    (0..count).map(|n| ((n * 7 + seed * 31) % 255) as u8 + 1).collect()
}

fn heap_reads() -> Case {
    let heap = pattern(256, 1);
    let mut case = three_services("heap reads at the limits");
    case.accept(256, heap_write(0, 0, &heap));
    for (offset, length) in parts() {
        match part(&heap, offset, length) {
            Some(bytes) => case.show(bytes, heap_read(0, offset, length)),
            None => case.refuse(11, heap_read(0, offset, length)),
        }
    }
    case
}

/// The whole heap is shown after each write, and its neighbours at the end.
fn heap_writes() -> Case {
    let mut heap = vec![0; 256];
    let mut case = three_services("heap writes at the limits");
    let small = parts().filter(|(_, length)| *length <= 257);
    for (n, (offset, count)) in small.enumerate() {
        let bytes = pattern(usize::from(count), n);
        let write = heap_write(0, offset, &bytes);
        if part(&heap, offset, count).is_some() {
            heap[usize::from(offset)..][..bytes.len()].copy_from_slice(&bytes);
            case.accept(u64::from(count), write);
        } else {
            case.refuse(11, write);
        }
        case.show(&heap, heap_read(0, 0, 256));
    }
    case.accept(0, hand_over(1));
    case.show(&[0; 256], heap_read(1, 0, 256));
    case
}

fn attests() -> Case {
    let heap = pattern(256, 2);
    let mut case = three_services("attests at the limits");
    case.accept(256, heap_write(0, 0, &heap));
    let mut values: Vec<&[u8]> = Vec::new();
    for (offset, length) in parts() {
        match part(&heap, offset, length) {
            Some(value) => case.accept(tag_of(1, value).0, attest(offset, length)),
            None => case.refuse(11, attest(offset, length)),
        }
        values.extend(part(&heap, offset, length));
    }
    for value in &values {
        case.accept(1, check(1, tag_of(1, value).0, value));
    }
    values.sort();
    values.dedup();
    case.accept(3 + 256 * values.len() as u64, Call::Report);
    case
}

fn protects() -> Case {
    let heap = pattern(256, 3);
    let mut case = three_services("protects at the limits");
    case.accept(256, heap_write(0, 0, &heap));
    let mut escrowed = Vec::new();
    for (draw, (offset, length)) in (0..).zip(parts()) {
        let value = part(&heap, offset, length);
        let code = if value.is_some() { 0 } else { 11 };
        case.answer(code, handle(length, draw), protect(2, offset, length, draw));
        escrowed.extend(value.map(|value| (handle(length, draw), value)));
    }
    case.accept(3 + 65_536 * escrowed.len() as u64, Call::Report);
    case.accept(0, hand_over(1));
    for (handle, value) in escrowed {
        let length = value.len() as u16;
        case.accept(u64::from(length), retrieve(1, 0, handle));
        case.show(value, heap_read(1, 0, length));
    }
    case
}

/// Each length at each offset, into a heap shown whole after each.
fn retrieves() -> Case {
    let value = pattern(256, 4);
    let lengths = [0, 1, 2, 129, 254, 255, 256];
    let mut case = three_services("retrieves at the limits");
    case.accept(256, heap_write(0, 0, &value));
    for length in lengths {
        case.accept(handle(length, 9), protect(2, 0, length, 9));
    }
    case.accept(0, hand_over(1));
    let blank = [0xEE; 256];
    for offset in OFFSETS {
        for length in lengths {
            case.accept(256, heap_write(1, 0, &blank));
            let mut heap = blank;
            let fits = part(&heap, offset, length).is_some();
            if fits {
                let length = usize::from(length);
                heap[usize::from(offset)..][..length].copy_from_slice(&value[..length]);
            }
            let code = if fits { 0 } else { 11 };
            case.answer(code, u64::from(length), retrieve(1, offset, handle(length, 9)));
            case.show(&heap, heap_read(1, 0, 256));
        }
    }
    case
}

fn shared_reads() -> Case {
    let shared = pattern(1_024, 5);
    let mut case = Case::new("shared reads at the limits");
    case.show(&[0; 1_024], shared_read(0, 1_024));
    case.accept(1_024, shared_write(0, &shared));
    for (offset, length) in parts() {
        match part(&shared, offset, length) {
            Some(bytes) => case.show(bytes, shared_read(offset, length)),
            None => case.refuse(11, shared_read(offset, length)),
        }
    }
    case
}

/// The whole shared memory is shown after each write.
fn shared_writes(offsets: &[u16]) -> Case {
    let mut shared = vec![0; 1_024];
    let mut case = Case::new(format!("shared writes from offset {}", offsets[0]));
    let small = parts().filter(|(offset, length)| offsets.contains(offset) && *length <= 1_025);
    for (n, (offset, count)) in small.enumerate() {
        let bytes = pattern(usize::from(count), n);
        let write = shared_write(offset, &bytes);
        if part(&shared, offset, count).is_some() {
            shared[usize::from(offset)..][..bytes.len()].copy_from_slice(&bytes);
            case.accept(u64::from(count), write);
        } else {
            case.refuse(11, write);
        }
        case.show(&shared, shared_read(0, 1_024));
    }
    case
}

/// Checks of 255, 256 and 257 bytes.
fn checks() -> Case {
    let bytes = pattern(600, 6);
    let tag = tag_of(1, &bytes[..256]).0;
    let mut case = three_services("checks at the limits");
    case.accept(256, heap_write(0, 0, &bytes[..256]));
    case.accept(tag, attest(0, 256));
    case.accept(1, check(1, tag, &bytes[..256]));
    for count in [0, 1, 255, 257, 258, 512, 600] {
        case.accept(0, check(1, tag, &bytes[..count]));
        case.accept(0, check(1, tag_of(1, &bytes[..count]).0, &bytes[..count]));
    }
    case.accept(tag_of(1, &bytes[..255]).0, attest(0, 255));
    case.accept(1, check(1, tag_of(1, &bytes[..255]).0, &bytes[..255]));
    case
}

/// Every place byte in each of the four kinds that have one.
fn places() -> Case {
    let mut case = Case::new("every place byte");
    for place in 0..=255 {
        let code = if place > 15 { 6 } else { 0 };
        case.answer(code, u64::from(place), create(place, 1_000 + u64::from(place)));
    }
    case.accept(16, Call::Report);
    for place in 0..=255 {
        match place {
            0..=15 => {
                case.accept(0, hand_over(place));
                case.accept(1, heap_write(place, 0, &[place + 1]));
            }
            16 => case.accept(0, hand_over(place)),
            _ => case.refuse(6, hand_over(place)),
        }
    }
    case.accept(0, hand_over(7));
    for place in 0..=255 {
        let code = first_fault(&[(6, place > 15), (8, place != 7)]);
        case.answer(code, 1, heap_write(place, 255, &[9]));
        match code {
            0 => case.show(&[8], heap_read(place, 0, 1)),
            _ => case.refuse(code, heap_read(place, 0, 1)),
        }
    }
    case
}

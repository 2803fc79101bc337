//! Sound boxes that no level-one paper leads to, written row by row: taken places
//! above 3, of which one may run, several values of one identity, full logs with
//! and without a row of who runs, escrowed values whose draws follow one another, spent
//! rows. And records on which 21, 22 and 23 and their neighbours hang, protects that
//! pass over draws, and releases.

use second::{
    tag_of, Call, EscrowRow, Handle, Host, LogRow, DRAW_LIMIT, HEAP_SIZE, NONE_RUNS, PLACES, ROWS,
    SHARED_SIZE, VALUES_SIZE,
};

use crate::calls::{
    attest, chain, check, create, hand_over, heap_read, heap_write, protect, record_of, release,
    retrieve, shared_read, shared_write,
};
use crate::clauses::taken;
use crate::draws::{after, next};
use crate::held::Held;
use crate::random::Random;

/// At the front of each heap: parts of it are the values that are logged.
const HEAP: &[u8; 6] = b"AABABC";

/// The taken places and their identities. 1 has three places, 2 has two.
const SERVICES: [(usize, u64); 6] = [(0, 1), (1, 2), (2, 1), (5, 1), (9, 3), (15, 2)];

/// The first draw of the values of no bytes that follow one another, and which of
/// the draws after it is free.
const FIRST: u64 = 500;
const FREE: usize = 40;

/// Each log beside each running place, none included, with no escrowed values,
/// some, as many as there are rows, or all but two; or some of them spent, first and
/// last ones too, or all but two of 64, or each of 6.
pub fn hand_made() -> Vec<Host> {
    let running = SERVICES.iter().map(|&(place, _)| place as u8).chain([NONE_RUNS]);
    let running: Vec<u8> = running.collect();
    let mut boxes = Vec::new();
    for log in logs() {
        for &place in &running {
            let mut host = services(place);
            log.iter().for_each(|(identity, value)| put_logged(&mut host, *identity, value));
            put_escrows(&mut host, boxes.len() % ESCROWS);
            boxes.push(host);
        }
    }
    boxes
}

/// The sorts of escrows.
const ESCROWS: usize = 8;

type Log = Vec<(u64, Vec<u8>)>;

fn logs() -> Vec<Log> {
    let short: [&[(u64, &[u8])]; 9] = [
        &[],
        &[(1, b"A")],
        &[(1, b"A"), (1, b"B")],
        &[(1, b"B"), (2, b"A"), (1, b"A")],
        &[(2, b"A"), (2, b"B"), (3, b"AB"), (1, b"A")],
        &[(3, b""), (1, b""), (2, b"AABABC")],
        &[(1, b"AB"), (2, b"AAB"), (3, b"A")],
        // Identities that differ from 1, 2 and 3 in one bit.
        &[(1 | 1 << 63, b"B"), (2 | 1 << 8, b"B"), (3 | 1 << 32, b"B"), (1, b"A")],
        &[(1, b"A"), (2, b"A"), (3, b"A")],
    ];
    let owned = |log: &&[(u64, &[u8])]| {
        log.iter().map(|&(identity, value)| (identity, value.to_vec())).collect()
    };
    let rows = [(64, 64), (0, 64), (31, 64), (63, 64), (0, 63), (63, 0)];
    let rows = rows.into_iter().map(|(of_a, of_b)| full_rows(of_a, of_b));
    let bytes = [false, true].into_iter().map(full_bytes);
    short.iter().map(owned).chain(rows).chain(bytes).collect()
}

/// 64 rows: "A" of identity 1 at this row and "B" at that, where there are such
/// rows, and the others of others.
fn full_rows(of_a: usize, of_b: usize) -> Log {
    let row = |n| match n {
        _ if n == of_a => (1, b"A".to_vec()),
        _ if n == of_b => (1, b"B".to_vec()),
        _ => (100 + n as u64, b"A".to_vec()),
    };
    (0..ROWS).map(row).collect()
}

/// 16 values of 256 bytes, the first of them perhaps identity 1's own heap.
fn full_bytes(own: bool) -> Log {
    let identity = |n: u64| if own && n == 0 { 1 } else { 100 + n };
    (0..16).map(|n| (identity(n), heap())).collect()
}

fn heap() -> Vec<u8> {
    let mut heap = vec![b'H'; HEAP_SIZE];
    heap[..HEAP.len()].copy_from_slice(HEAP);
    heap
}

fn services(running: u8) -> Host {
    let mut host = Host::fresh();
    for (place, identity) in SERVICES {
        host.record.taken |= 1 << place;
        host.record.identities[place] = identity;
        host.heaps[HEAP_SIZE * place..][..HEAP_SIZE].copy_from_slice(&heap());
    }
    host.record.running = running;
    host
}

fn put_logged(host: &mut Host, identity: u64, value: &[u8]) {
    let (rows, first, length) = (host.record.log_rows, host.record.log_bytes, value.len() as u16);
    let tag = tag_of(identity, value);
    host.log[usize::from(rows)] = LogRow { identity, tag, first, length };
    host.log_values[usize::from(first)..][..value.len()].copy_from_slice(value);
    host.record.log_rows += 1;
    host.record.log_bytes += length;
}

fn put_escrowed(host: &mut Host, recipient: u64, draw: u64, value: &[u8]) {
    let (rows, first, length) =
        (host.record.escrow_rows, host.record.escrow_bytes, value.len() as u16);
    let handle = Handle(u64::from(length) * DRAW_LIMIT + draw);
    let row = EscrowRow { source: 3, recipient, handle, first, length, mark: 0 };
    host.escrow[usize::from(rows)] = row;
    host.escrow_values[usize::from(first)..][..value.len()].copy_from_slice(value);
    host.record.escrow_rows += 1;
    host.record.escrow_bytes += length;
}

/// For each service, of identity 3: a value that ends a chain with draw 1 to 3,
/// and one that names its own handle with draw 11 to 13.
fn put_escrows(host: &mut Host, many: usize) {
    let own = |draw: u64| {
        let handle = 17 * DRAW_LIMIT + draw;
        [vec![3], 3_u64.to_le_bytes().to_vec(), handle.to_le_bytes().to_vec()].concat()
    };
    if many > 0 {
        for recipient in 1..=3 {
            put_escrowed(host, recipient, recipient, &[1]);
            put_escrowed(host, recipient, 10 + recipient, &own(10 + recipient));
        }
    }
    match many {
        2 => (6..ROWS as u64).for_each(|draw| put_escrowed(host, 1, draw, &[])),
        // The last draw stands in the first of these rows.
        3 => (0..57).rev().filter(|&n| n != FREE).for_each(|n| {
            put_escrowed(host, 1, after(FIRST, n), &[]);
        }),
        4 => [0, 3, 5].into_iter().for_each(|n| spend(host, n)),
        5 => [1, 2].into_iter().for_each(|n| spend(host, n)),
        6 => (0..6).for_each(|n| spend(host, n)),
        7 => {
            (6..ROWS as u64).for_each(|draw| put_escrowed(host, 1, draw, b"AB"));
            (0..ROWS).filter(|n| ![2, 40].contains(n)).for_each(|n| spend(host, n));
            // Lengths that no value has: a spent row's handle need not carry its own.
            host.escrow[0].handle.0 |= 300 << 48;
            host.escrow[63].handle.0 |= 65_535 << 48;
        }
        _ => {}
    }
}

/// Marks a used row spent by hand: its length becomes 0, and later values close up.
fn spend(host: &mut Host, n: usize) {
    let row = &mut host.escrow[n];
    let (first, length) = (usize::from(row.first), row.length);
    (row.mark, row.length) = (1, 0);
    host.escrow_values.drain(first..first + usize::from(length));
    host.escrow_values.resize(VALUES_SIZE, 0);
    let used = usize::from(host.record.escrow_rows);
    host.escrow[n + 1..used].iter_mut().for_each(|row| row.first -= length);
    host.record.escrow_bytes -= length;
}

/// One alteration that leaves a sound box sound: another service runs or none, a
/// byte of a heap, another identity in a taken place, a row more in the log, another
/// draw in a handle, a row spent, another length in a spent row's handle.
pub fn alter(host: &mut Host, random: &mut Random) {
    let taken: Vec<u8> = (0..PLACES as u8).filter(|&n| taken(host, n.into())).collect();
    let place = if taken.is_empty() { NONE_RUNS } else { random.pick(&taken) };
    let index = usize::from(place);
    match random.below(7) {
        _ if place == NONE_RUNS => flip_shared(host, random),
        0 => host.record.running = if random.once_in(8) { NONE_RUNS } else { place },
        1 => host.heaps[HEAP_SIZE * index + random.index(6)] = random.pick(b"ABC"),
        2 => host.record.identities[index] = random.between(1, 4).into(),
        3 => redraw(host, random),
        4 => spend_any(host, random),
        5 => relength(host, random),
        _ => {
            let count = random.index(4);
            let value: Vec<u8> = (0..count).map(|_| random.pick(b"ABC")).collect();
            put_logged_once(host, random.pick(&host.record.identities).max(1), &value);
        }
    }
}

/// A row's draw becomes the one after another row's, where that handle is free.
fn redraw(host: &mut Host, random: &mut Random) {
    let rows = &mut host.escrow[..usize::from(host.record.escrow_rows)];
    if rows.is_empty() {
        return;
    }
    let (n, other) = (random.index(rows.len()), random.index(rows.len()));
    let draw = next(rows[other].handle.0 % DRAW_LIMIT);
    rehandle(rows, n, rows[n].handle.0 / DRAW_LIMIT * DRAW_LIMIT + draw);
}

/// The row gets this handle, where it is free.
fn rehandle(rows: &mut [EscrowRow], n: usize, handle: u64) {
    if rows.iter().all(|row| row.handle.0 != handle) {
        rows[n].handle = Handle(handle);
    }
}

/// A used row that isn't yet becomes spent.
fn spend_any(host: &mut Host, random: &mut Random) {
    let used = &host.escrow[..usize::from(host.record.escrow_rows)];
    let unspent: Vec<usize> = (0..used.len()).filter(|&n| used[n].mark == 0).collect();
    if !unspent.is_empty() {
        spend(host, random.pick(&unspent));
    }
}

/// A spent row's handle carries any length.
fn relength(host: &mut Host, random: &mut Random) {
    let rows = &mut host.escrow[..usize::from(host.record.escrow_rows)];
    let spent: Vec<usize> = (0..rows.len()).filter(|&n| rows[n].mark == 1).collect();
    if !spent.is_empty() {
        let (n, length) = (random.pick(&spent), random.pick(&[0, 1, 2, 17, 256, 257, 65_535]));
        rehandle(rows, n, length * DRAW_LIMIT + rows[n].handle.0 % DRAW_LIMIT);
    }
}

fn flip_shared(host: &mut Host, random: &mut Random) {
    host.shared[random.index(SHARED_SIZE)] ^= 1;
}

/// Where the pair isn't logged and there is room.
fn put_logged_once(host: &mut Host, identity: u64, value: &[u8]) {
    let logged = Held::of(host).logged;
    let there = logged.iter().any(|row| row.identity == identity && row.value == value);
    let bytes = usize::from(host.record.log_bytes) + value.len();
    if !there && logged.len() < ROWS && bytes <= VALUES_SIZE {
        put_logged(host, identity, value);
    }
}

/// Protects of no bytes, and of one, with draws that are in use in some of the boxes
/// and with others near them.
fn drawn() -> Vec<Call<'static>> {
    let mut calls = Vec::new();
    for n in [0, 1, 38, 39, 40, 41, 55, 56, 57] {
        calls.push(protect(2, 0, 0, after(FIRST, n)));
        calls.push(protect(2, 0, 1, after(FIRST, n)));
    }
    for draw in [0, 1, 2, 3, 4, 6, 63, 64, next(1), next(6), FIRST + 1] {
        calls.extend([protect(2, 0, 0, draw), protect(2, 0, 1, draw), protect(2, 0, 17, draw)]);
    }
    calls.extend([11, 12, 40].map(|draw| protect(1, 0, 17, draw)));
    calls
}

/// Whole records of every kind.
pub fn records() -> Vec<Vec<u8>> {
    let mut calls = vec![Call::Report, Call::Exit];
    calls.extend(drawn());
    for place in [0, 1, 2, 3, 4, 5, 8, 9, 14, 15, 16, 17, 255] {
        calls.extend([create(place, 0), create(place, 4), create(place, 1)]);
    }
    calls.extend((0..=17).chain([18, 31, 32, 128, 255]).map(hand_over));
    let parts = [(0, 0), (0, 1), (1, 1), (2, 1), (1, 2), (3, 2), (0, 3), (0, 6), (0, 256)];
    let ends = [(255, 1), (256, 0), (256, 1), (257, 0), (0, 257), (1, 65_535), (65_535, 1)];
    calls.extend(parts.into_iter().chain(ends).map(|(offset, length)| attest(offset, length)));
    for identity in [0, 1, 2, 3] {
        for (offset, draw) in [(0, 900), (256, 900), (0, DRAW_LIMIT), (256, u64::MAX)] {
            calls.push(protect(identity, offset, 1, draw));
        }
        for (offset, draw) in [(0, 1), (0, 2), (0, 3), (256, 1), (256, 2), (256, 3), (0, 9)] {
            calls.push(retrieve(identity, offset, DRAW_LIMIT + draw));
        }
        for draw in [1, 2, 3, 9] {
            calls.push(chain(3, identity, DRAW_LIMIT + draw, b""));
            calls.push(chain(3, identity, 17 * DRAW_LIMIT + 10 + draw, b"\0"));
        }
        calls.extend([0, 1, 2, 3, 9].map(|draw| release(identity, DRAW_LIMIT + draw)));
        calls.extend([11, 12, 13].map(|draw| release(identity, 17 * DRAW_LIMIT + draw)));
        calls.extend([6, 40, 63].map(|draw| release(identity, draw)));
        calls.extend([6, 40, 63].map(|draw| release(identity, 2 * DRAW_LIMIT + draw)));
        calls.push(release(identity, 65_535 * DRAW_LIMIT + 63));
        calls.push(retrieve(identity, 0, 65_535 * DRAW_LIMIT + 63));
        calls.push(retrieve(identity, 255, 2 * DRAW_LIMIT + 40));
        calls.push(chain(2, identity, tag_of(identity, b"A").0, b"\x01\0A"));
        calls.push(chain(1, identity, 7, b""));
        calls.push(check(identity, tag_of(identity, b"A").0, b"A"));
    }
    for place in [0, 2, 5, 16] {
        calls.extend([heap_write(place, 9, b"w"), heap_read(place, 0, 256)]);
    }
    calls.extend([shared_write(1_023, b"s"), shared_read(0, 1_024), shared_read(1, 1_024)]);
    calls.iter().map(record_of).collect()
}

#[cfg(test)]
mod tests {
    use super::*;
    use crate::clauses::broken;
    use crate::draws::Draws;
    use crate::held::Traced;
    use crate::level_one::LevelOne;
    use crate::play::play;
    use crate::releases::Releases;
    use second::OUTPUT_SIZE;

    #[test]
    fn boxes_are_sound() {
        let boxes = hand_made();
        assert!(boxes.len() > 100, "{}", boxes.len());
        for (n, host) in boxes.iter().enumerate() {
            assert_eq!(broken(host), [], "box {n}");
        }
    }

    #[test]
    fn altered_boxes_are_sound() {
        let mut random = Random::new(8);
        let mut boxes = hand_made();
        boxes.extend((0..40).map(|seed| play(seed).host));
        for (n, host) in boxes.iter_mut().enumerate() {
            for _ in 0..8 {
                alter(host, &mut random);
                assert_eq!(broken(host), [], "box {n}");
            }
        }
    }

    /// Every sort comes, and `second` answers what follows from what is held, the
    /// full box and level one. The longest search passes over all draws before the free
    /// one.
    #[test]
    fn second_answers_each_sort() {
        let (mut counted, mut draws) = (LevelOne::default(), Draws::default());
        let mut releases = Releases::default();
        let records = records();
        for (n, host) in hand_made().iter().enumerate() {
            for record in &records {
                let mut output = [0; OUTPUT_SIZE];
                let full = host.clone().call(&mut output, record);
                let answer = host.clone().call_level_one(&mut output, record);
                let traced = Traced::of(host);
                let follows = counted.add(&traced, record, Some(full.code), answer.code);
                assert!(follows, "box {n}, {record:02x?}: {full:?}, {answer:?}");
                let follows = draws.add(&traced.held, record, full.code, full.number);
                assert!(follows, "box {n}, {record:02x?}: {full:?}");
                let follows = releases.add(&traced, record, full.code, full.number);
                assert!(follows, "box {n}, {record:02x?}: {full:?}");
            }
        }
        println!("{counted}\n{draws}\n{releases}");
        assert!(counted.each_above(20), "{counted}");
        assert!(draws.each_above(20) && draws.most() == FREE, "{draws}");
    }
}

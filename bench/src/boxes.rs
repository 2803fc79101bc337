//! The boxes that calls are timed on.

use differential::calls::{attest, create, hand_over, heap_write, protect, record_of};
use differential::{counted, link_value};
use second::{tag_of, Call, Host, Link, DRAW_LIMIT, NONE_RUNS, OUTPUT_SIZE};

/// A full box, place 15 running, whose last eight rows of each table are the links
/// of a chain, logged and escrowed in turn; its first link, which is the last row
/// of the log, and the chain bytes.
pub fn chained() -> (Host, Link, Vec<u8>) {
    let mut host = after(full(16, 56), &[hand_over(15)]);
    let (mut next, mut bytes) = (None, Vec::new());
    for n in 0..8 {
        for way in [3, 2] {
            let head = link_value(next, &[]);
            let value = link_value(next, &vec![9; 64 - head.len()]);
            let draw = 1_000 + n;
            let (put, number) = match way {
                2 => (attest(0, 64), tag_of(16, &value).0),
                _ => (protect(16, 0, 64, draw), 64 * DRAW_LIMIT + draw),
            };
            host = after(host, &[heap_write(15, 0, &value), put]);
            if way == 2 {
                bytes = [counted(&value), bytes].concat();
            }
            next = Some(Link { way, identity: 16, number });
        }
    }
    (host, next.expect("there are links"), bytes)
}

/// The n-th value of 64 bytes that is logged and escrowed. All are of one
/// beginning, so that comparing two takes some bytes.
pub fn value(n: u8) -> [u8; 64] {
    let mut value = [9; 64];
    value[60] = n;
    value
}

/// Every row of a full escrow is made with this draw, so that the draws in the rows
/// follow one another.
pub const DRAW: u64 = 0;

/// Services of identities 1 and on, with heaps that are not zeros, and so many
/// rows of 64 bytes in log and escrow, all of identity 16. None runs.
pub fn full(services: u8, rows: u8) -> Host {
    let mut host = Host::fresh();
    for place in 0..services {
        let identity = 16 - (u64::from(services) - 1 - u64::from(place));
        let calls = [create(place, identity), hand_over(place), heap_write(place, 0, &[3; 256])];
        host = after(host, &calls);
    }
    let place = services - 1;
    for n in 0..rows {
        let value = value(n);
        let calls = [heap_write(place, 0, &value), attest(0, 64), protect(16, 0, 64, DRAW)];
        host = after(host, &calls);
    }
    after(host, &[hand_over(NONE_RUNS)])
}

/// 16 services, of identities 1 and on but 20 in place 3, with heaps that are not
/// zeros; 64 rows of 64 bytes in the escrow, and so many in the log, of identities
/// 2, 3 and 5 to 16 in turn. The 64th of the log is identity 1's. None runs.
pub fn many_identities(rows: u8) -> Host {
    let mut host = Host::fresh();
    for place in 0..16 {
        let identity = if place == 3 { 20 } else { u64::from(place) + 1 };
        let calls = [create(place, identity), hand_over(place), heap_write(place, 0, &[3; 256])];
        host = after(host, &calls);
    }
    let loggers: Vec<u8> = (1..16).filter(|&place| place != 3).collect();
    for n in 0..rows {
        let place = if n == 63 { 0 } else { loggers[usize::from(n) % loggers.len()] };
        let bytes = value(n);
        host = after(host, &[hand_over(place), heap_write(place, 0, &bytes), attest(0, 64)]);
    }
    host = after(host, &[hand_over(0), heap_write(0, 0, &value(63))]);
    for n in 0..64 {
        host = after(host, &[protect(16, 0, 64, n)]);
    }
    after(host, &[hand_over(NONE_RUNS)])
}

/// The n-th value of a box of mixed lengths. The lengths go from 1 to 120, no two of
/// 64 are the same, and together they are the 4,096 bytes that a table has.
pub fn mixed_value(n: u16) -> Vec<u8> {
    vec![9; usize::from(1 + 17 * n % 120)]
}

/// Services as in [`full`] and 64 rows of mixed lengths in log and escrow, all of
/// identity 16, which runs with the last value at the front of its heap.
pub fn mixed_lengths() -> Host {
    let mut host = after(full(16, 0), &[hand_over(15)]);
    for n in 0..64 {
        let value = mixed_value(n);
        let length = value.len() as u16;
        let calls = [heap_write(15, 0, &value), attest(0, length), protect(16, 0, length, DRAW)];
        host = after(host, &calls);
    }
    host
}

/// The number that the call gets on this box, which accepts it.
pub fn number(host: &Host, call: &Call) -> u64 {
    let answer = host.clone().call(&mut [0; OUTPUT_SIZE], &record_of(call));
    assert_eq!(answer.code, 0, "{call:?}");
    answer.number
}

/// The box after these calls, which are accepted.
pub fn after(mut host: Host, calls: &[Call]) -> Host {
    for call in calls {
        let answer = host.call(&mut [0; OUTPUT_SIZE], &record_of(call));
        assert_eq!(answer.code, 0, "{call:?}");
    }
    host
}

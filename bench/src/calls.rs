//! One call on a box, by kind.

use std::io::{self, ErrorKind};
use std::sync::atomic::{AtomicU64, Ordering};
use std::time::{Duration, Instant};

use differential::calls::{
    attest, chain, check, create, hand_over, heap_read, heap_write, protect, record_of, release,
    retrieve, shared_read, shared_write,
};
use differential::{counted, draws};
use interface::Sides;
use second::{tag_of, Call, Host, Link, DRAW_LIMIT, NONE_RUNS, OUTPUT_SIZE};

use crate::boxes::{
    after, chained, full, many_identities, mixed_lengths, mixed_value, number, value, DRAW,
};
use crate::table;

pub struct Case {
    name: String,
    sides: Sides,
    record: Vec<u8>,
}

impl Case {
    fn new(box_name: &str, name: &str, host: &Host, code: u8, record: Vec<u8>) -> Self {
        let mut host = host.clone();
        let sides = Sides::new(host.clone(), vec![0; OUTPUT_SIZE]);
        let answer = host.call(&mut [0; OUTPUT_SIZE], &record);
        assert_eq!(answer.code, code, "{box_name}, {name}");
        Case { name: format!("{box_name}: {name}"), sides, record }
    }

    /// Compares the two sides, then times them. Each call gets the box anew, and
    /// the side that comes first changes from round to round.
    pub fn time(self, rounds: usize) -> io::Result<()> {
        let compared = self.sides.clone().call(&self.record);
        compared.map_err(|message| {
            io::Error::new(ErrorKind::Other, format!("{}: {message}", self.name))
        })?;
        let (mut proved, mut plain) = (Vec::new(), Vec::new());
        let mut sides = self.sides.clone();
        for round in 0..rounds {
            sides.clone_from(&self.sides);
            if round % 2 == 0 {
                proved.push(time_by_value(&mut sides, &self.record));
                plain.push(time_plain(&mut sides, &self.record));
            } else {
                plain.push(time_plain(&mut sides, &self.record));
                proved.push(time_by_value(&mut sides, &self.record));
            }
        }
        table::line(&self.name, proved, plain);
        Ok(())
    }
}

/// The host passes its box record, and keeps the one that comes back.
#[inline(never)]
pub fn time_by_value(sides: &mut Sides, record: &[u8]) -> Duration {
    let began = Instant::now();
    let reply = sides.host.call(record);
    let took = began.elapsed();
    keep(reply.number);
    took
}

#[inline(never)]
pub fn time_plain(sides: &mut Sides, record: &[u8]) -> Duration {
    let began = Instant::now();
    let answer = sides.second.call(&mut sides.output, record);
    let took = began.elapsed();
    keep(answer.number);
    took
}

/// An answer that is kept cannot be left uncomputed.
pub fn keep(number: u64) {
    static KEPT: AtomicU64 = AtomicU64::new(0);
    KEPT.fetch_xor(number, Ordering::Relaxed);
}

/// Every kind accepted, on a box that holds only what the kind needs and on a
/// full one; what the full one refuses; the soundness test alone; some kinds on full
/// boxes of other rows.
pub fn cases() -> Vec<Case> {
    let mut cases = Vec::new();
    add_soundness(&mut cases);
    add_empty(&mut cases);
    add_full(&mut cases);
    add_others(&mut cases);
    cases
}

/// An empty record is answered 1, after the soundness test.
fn add_soundness(cases: &mut Vec<Case>) {
    cases.push(Case::new("fresh box", "soundness alone", &Host::fresh(), 1, Vec::new()));
    cases.push(Case::new("full box", "soundness alone", &full(16, 64), 1, Vec::new()));
}

fn add_empty(cases: &mut Vec<Case>) {
    let fresh = Host::fresh();
    let created = after(fresh.clone(), &[create(0, 1)]);
    let running = after(created.clone(), &[hand_over(0)]);
    let escrowed = after(running.clone(), &[protect(1, 0, 64, 7)]);
    let bytes = [5; 1_024];
    let mut add = |name: &str, host: &Host, call: Call| {
        cases.push(Case::new("empty box", name, host, 0, record_of(&call)));
    };
    add("create", &fresh, create(0, 1));
    add("exit", &running, Call::Exit);
    add("heap write, 256 bytes", &running, heap_write(0, 0, &bytes[..256]));
    add("heap read, 256 bytes", &running, heap_read(0, 0, 256));
    add("shared write, 1,024 bytes", &fresh, shared_write(0, &bytes));
    add("shared read, 1,024 bytes", &fresh, shared_read(0, 1_024));
    add("attest, 64 bytes", &running, attest(0, 64));
    add("check, 64 bytes", &fresh, check(1, 7, &bytes[..64]));
    add("protect, 64 bytes", &running, protect(1, 0, 64, 7));
    add("retrieve, 64 bytes", &escrowed, retrieve(1, 0, 64 * DRAW_LIMIT + 7));
    add("release, 64 bytes", &escrowed, release(1, 64 * DRAW_LIMIT + 7));
    add("report", &fresh, Call::Report);
    add("hand over, none runs", &created, hand_over(0));
    add("hand over to 16", &running, hand_over(NONE_RUNS));
    let logged = after(running.clone(), &[heap_write(0, 0, &[1; 64]), attest(0, 64)]);
    let bytes = counted(&[1; 64]);
    add("a chain of one link", &logged, chain(2, 1, tag_of(1, &[1; 64]).0, &bytes));
}

fn add_full(cases: &mut Vec<Case>) {
    let stopped = full(16, 64);
    let running = after(stopped.clone(), &[hand_over(15)]);
    let one_left = after(full(16, 63), &[hand_over(15)]);
    let bytes = [5; 1_024];
    let value = value(63);
    let last = 64 * DRAW_LIMIT + draws::after(DRAW, 63);
    assert_eq!(number(&one_left, &protect(1, 64, 64, DRAW)), last, "63 draws passed over");
    let mut add = |name: &str, host: &Host, code: u8, call: Call| {
        cases.push(Case::new("full box", name, host, code, record_of(&call)));
    };
    add("create, 15 services before", &full(15, 64), 0, create(15, 16));
    add("exit", &running, 0, Call::Exit);
    add("heap write, 256 bytes", &running, 0, heap_write(15, 0, &bytes[..256]));
    add("heap read, 256 bytes", &running, 0, heap_read(15, 0, 256));
    add("shared write, 1,024 bytes", &running, 0, shared_write(0, &bytes));
    add("shared read, 1,024 bytes", &running, 0, shared_read(0, 1_024));
    add("attest, the 64th row", &one_left, 0, attest(64, 64));
    add("attest, logged already", &running, 0, attest(0, 64));
    add("attest, refused 13", &running, 13, attest(64, 64));
    add("check, the last row", &running, 0, check(16, tag_of(16, &value).0, &value));
    add("protect, the 64th row, 63 draws passed over", &one_left, 0, protect(1, 64, 64, DRAW));
    add("protect, refused 14", &running, 14, protect(1, 64, 64, DRAW));
    add("retrieve, the last row", &running, 0, retrieve(16, 0, last));
    // The values of 63 rows close up, 4,032 bytes.
    add("release, the first of 64 rows", &running, 0, release(16, 64 * DRAW_LIMIT + DRAW));
    add("release, the last of 64 rows", &running, 0, release(16, last));
    add("report", &running, 0, Call::Report);
    add("hand over, none runs", &stopped, 0, hand_over(15));
    add("hand over to another place", &running, 0, hand_over(7));
    add("hand over to 16", &running, 0, hand_over(NONE_RUNS));
    let (linked, Link { way, identity, number }, bytes) = chained();
    let chain = chain(way, identity, number, &bytes);
    add("a chain of sixteen links, alternating", &linked, 0, chain);
}

/// Full boxes with rows of many identities, and with rows of many lengths.
fn add_others(cases: &mut Vec<Case>) {
    let mut add = |box_name: &str, name: &str, host: &Host, call: Call| {
        cases.push(Case::new(box_name, name, host, 0, record_of(&call)));
    };
    let (many, name) = (many_identities(64), "full box of many identities");
    let last = value(63);
    add(name, "report", &many, Call::Report);
    add(name, "check, the last row", &many, check(1, tag_of(1, &last).0, &last));
    let (mixed, name) = (mixed_lengths(), "full box of mixed lengths");
    let last = mixed_value(63);
    add(name, "report", &mixed, Call::Report);
    add(name, "check, the last row", &mixed, check(16, tag_of(16, &last).0, &last));
    add(name, "attest, logged already", &mixed, attest(0, last.len() as u16));
}

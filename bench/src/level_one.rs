//! A level-one call beside the full call of the same archive, and beside the plain
//! Rust of `second`: calls that both profiles answer alike.

use std::io::{self, ErrorKind};
use std::time::{Duration, Instant};

use differential::calls::{
    attest, check, create, hand_over, heap_read, heap_write, record_of, shared_read, shared_write,
};
use interface::{Profile, Sides};
use second::{tag_of, Call, Host, NONE_RUNS, OUTPUT_SIZE};

use crate::boxes::{after, many_identities, value};
use crate::calls::keep;
use crate::rounds::{self, Timed};
use crate::table;

pub struct Case {
    name: String,
    sides: Sides,
    record: Vec<u8>,
}

/// What is timed: the archive under each profile, and plain Rust.
const TIMED: [Timed; 3] = [time_level_one, time_full, time_plain];

impl Case {
    fn new(box_name: &str, name: &str, host: &Host, code: u8, call: &Call) -> Self {
        let record = record_of(call);
        let sides = Sides::new(host.clone(), vec![0; OUTPUT_SIZE]);
        let answer = host.clone().call(&mut [0; OUTPUT_SIZE], &record);
        assert_eq!(answer.code, code, "{box_name}, {name}");
        Case { name: format!("{box_name}: {name}"), sides, record }
    }

    /// Compares the sides under both profiles, then times them.
    pub fn time(self, rounds: usize) -> io::Result<()> {
        let compared = self.sides.call_both(&self.record);
        let both = compared.map_err(|message| {
            io::Error::new(ErrorKind::Other, format!("{}: {message}", self.name))
        })?;
        assert_eq!(both.level_one.0, both.full.0, "{}", self.name);
        table::line_of_three(&self.name, rounds::times(rounds, &self.sides, &self.record, TIMED));
        Ok(())
    }
}

#[inline(never)]
fn time_level_one(sides: &mut Sides, record: &[u8]) -> Duration {
    time_archive(Profile::LevelOne, sides, record)
}

#[inline(never)]
fn time_full(sides: &mut Sides, record: &[u8]) -> Duration {
    time_archive(Profile::Full, sides, record)
}

#[inline(never)]
fn time_archive(profile: Profile, sides: &mut Sides, record: &[u8]) -> Duration {
    let began = Instant::now();
    let reply = sides.host.call_under(profile, record);
    let took = began.elapsed();
    keep(reply.number);
    took
}

#[inline(never)]
fn time_plain(sides: &mut Sides, record: &[u8]) -> Duration {
    let began = Instant::now();
    let answer = sides.second.call_level_one(&mut sides.output, record);
    let took = began.elapsed();
    keep(answer.number);
    took
}

/// The kinds of a level-one paper, on a box that holds only what the kind needs and
/// on a full one.
pub fn cases() -> Vec<Case> {
    let mut cases = Vec::new();
    add_empty(&mut cases);
    add_full(&mut cases);
    cases
}

fn add_empty(cases: &mut Vec<Case>) {
    let fresh = Host::fresh();
    let created = after(fresh.clone(), &[create(0, 1)]);
    let running = after(created.clone(), &[hand_over(0)]);
    let logged = after(running.clone(), &[attest(0, 64)]);
    let bytes = [5; 1_024];
    let mut add = |name: &str, host: &Host, call: Call| {
        cases.push(Case::new("empty box", name, host, 0, &call));
    };
    add("create", &fresh, create(0, 1));
    add("exit", &running, Call::Exit);
    add("heap write, 256 bytes", &running, heap_write(0, 0, &bytes[..256]));
    add("heap read, 256 bytes", &running, heap_read(0, 0, 256));
    add("shared read, 1,024 bytes", &fresh, shared_read(0, 1_024));
    add("attest, 64 bytes", &running, attest(0, 64));
    add("attest, 64 bytes, logged already", &logged, attest(0, 64));
    add("check, 64 bytes", &logged, check(1, tag_of(1, &[0; 64]).0, &[0; 64]));
    add("report", &fresh, Call::Report);
    add("hand over, none runs", &created, hand_over(0));
    add("hand over to 16", &running, hand_over(NONE_RUNS));
}

fn add_full(cases: &mut Vec<Case>) {
    let stopped = many_identities(64);
    let running = after(stopped.clone(), &[hand_over(0)]);
    let one_left = after(many_identities(63), &[hand_over(0)]);
    let one_less = after(running.clone(), &[hand_over(3), Call::Exit]);
    let other = after(stopped.clone(), &[hand_over(3), heap_write(3, 0, &[1; 64])]);
    let bytes = [5; 1_024];
    let (last, others) = (value(63), value(62));
    let mut add = |name: &str, host: &Host, code: u8, call: Call| {
        cases.push(Case::new("full box of many identities", name, host, code, &call));
    };
    add("create, 15 services before", &one_less, 0, create(3, 99));
    add("exit", &running, 0, Call::Exit);
    add("heap write, 256 bytes", &running, 0, heap_write(0, 0, &bytes[..256]));
    add("heap read, 256 bytes", &running, 0, heap_read(0, 0, 256));
    add("shared write, 1,024 bytes", &running, 0, shared_write(0, &bytes));
    add("attest, the 64th row", &one_left, 0, attest(0, 64));
    add("attest again, its row behind 63 of others", &running, 0, attest(0, 64));
    add("attest, refused 13, no row of its own", &other, 13, attest(0, 64));
    add("check, the last row", &running, 0, check(1, tag_of(1, &last).0, &last));
    add("check, never logged", &running, 0, check(1, tag_of(1, &others).0, &others));
    add("report", &running, 0, Call::Report);
    add("hand over, none runs", &stopped, 0, hand_over(0));
    add("hand over to another place", &running, 0, hand_over(3));
    add("hand over to 16", &running, 0, hand_over(NONE_RUNS));
}

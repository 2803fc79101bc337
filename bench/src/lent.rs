//! A call on a box record that is lent beside the same call with the record by value,
//! and beside the plain Rust of `second`.

use std::io::{self, ErrorKind};
use std::time::{Duration, Instant};

use differential::calls::{attest, check, create, hand_over, record_of};
use interface::Sides;
use second::{tag_of, Call, Host, OUTPUT_SIZE};

use crate::boxes::{after, full, value};
use crate::calls::{keep, time_by_value, time_plain};
use crate::rounds::{self, Timed};
use crate::table;

pub struct Case {
    name: String,
    sides: Sides,
    record: Vec<u8>,
}

/// What is timed: both entries of the archive, and plain Rust.
const TIMED: [Timed; 3] = [time_lent, time_by_value, time_plain];

impl Case {
    fn new(box_name: &str, name: &str, host: &Host, code: u8, record: Vec<u8>) -> Self {
        let sides = Sides::new(host.clone(), vec![0; OUTPUT_SIZE]);
        let answer = host.clone().call(&mut [0; OUTPUT_SIZE], &record);
        assert_eq!(answer.code, code, "{box_name}, {name}");
        Case { name: format!("{box_name}: {name}"), sides, record }
    }

    /// Compares the sides, through both entries, then times them.
    pub fn time(self, rounds: usize) -> io::Result<()> {
        let compared = self.sides.clone().call(&self.record);
        compared.map_err(|message| {
            io::Error::new(ErrorKind::Other, format!("{}: {message}", self.name))
        })?;
        table::line_of_three(&self.name, rounds::times(rounds, &self.sides, &self.record, TIMED));
        Ok(())
    }
}

/// The host's own record is lent.
#[inline(never)]
fn time_lent(sides: &mut Sides, record: &[u8]) -> Duration {
    let began = Instant::now();
    let answer = sides.host.call_lent(record);
    let took = began.elapsed();
    keep(answer.number);
    took
}

/// Calls that move the record and calls that do not, accepted and refused, on a box that
/// holds only what the call needs and on a full one.
pub fn cases() -> Vec<Case> {
    let mut cases = Vec::new();
    let mut add = |box_name: &str, name: &str, host: &Host, code: u8, record: Vec<u8>| {
        cases.push(Case::new(box_name, name, host, code, record));
    };
    let fresh = Host::fresh();
    let created = after(fresh.clone(), &[create(0, 1)]);
    let running = after(created.clone(), &[hand_over(0)]);
    let empty = "empty box";
    add(empty, "report", &fresh, 0, record_of(&Call::Report));
    add(empty, "create", &fresh, 0, record_of(&create(0, 1)));
    add(empty, "hand over", &created, 0, record_of(&hand_over(0)));
    add(empty, "attest, 64 bytes", &running, 0, record_of(&attest(0, 64)));
    add(empty, "one bad byte, refused 2", &fresh, 2, vec![0x02]);
    add(empty, "hand over, refused 7", &fresh, 7, record_of(&hand_over(0)));
    let running = after(full(16, 64), &[hand_over(15)]);
    let (last, filled) = (value(63), "full box");
    add(filled, "report", &running, 0, record_of(&Call::Report));
    add(filled, "hand over to another place", &running, 0, record_of(&hand_over(7)));
    add(
        filled,
        "check, the last row",
        &running,
        0,
        record_of(&check(16, tag_of(16, &last).0, &last)),
    );
    add(filled, "attest, refused 13", &running, 13, record_of(&attest(64, 64)));
    cases
}

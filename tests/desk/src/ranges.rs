//! Every reading against the setpoints at the bounds, and every setpoint against the
//! readings at the bounds.

use std::ops::RangeInclusive;

use interface::Tank;
use second::tag_of;

use crate::counts::Counts;
use crate::desk::{Desk, PROBE};
use crate::wanted::{bare, Logged};

/// All that may be asked about, and some more on either side.
const EVERY: RangeInclusive<i32> = -600..=3_100;

/// What bounds a reading and a setpoint, a difference of 50, and what 16 bits would
/// take for a number in range.
#[rustfmt::skip]
const BOUNDS: [i32; 24] = [
    i32::MIN, i32::MIN + 500, -66_036, -65_536, -32_769, -32_768, -501, -500, -499, -51, -50, 0, 50,
    51, 1_500, 2_999, 3_000, 3_001, 32_767, 32_768, 65_036, 65_536, 68_536, i32::MAX,
];

/// Corrections that count, and two that are too large.
const LOGGED: [i16; 7] = [-50, -1, 0, 1, 50, -51, 51];

pub fn check(counts: &mut Counts) {
    let mut desk = Desk::with(counts, &LOGGED);
    all(counts, &mut desk, "no correction", bare);
    for value in LOGGED {
        let correction = desk.correction(value.into());
        all(counts, &mut desk, "a logged correction", |reading, setpoint| {
            correction.tank(reading, setpoint)
        });
    }
    // Its tag is right, but nobody logged it.
    let bytes = 7i16.to_le_bytes();
    let unlogged = Logged { probe: PROBE, tag: tag_of(PROBE, &bytes).0, bytes };
    all(counts, &mut desk, "an unlogged correction", |reading, setpoint| {
        unlogged.tank(reading, setpoint)
    });
}

fn all(counts: &mut Counts, desk: &mut Desk, what: &str, tank: impl Fn(i32, i32) -> Tank) {
    for bound in BOUNDS {
        for other in EVERY.chain(BOUNDS) {
            desk.ask(counts, &tank(other, bound), what);
            desk.ask(counts, &tank(bound, other), what);
        }
    }
}

//! All 65,536 corrections, each logged by a program in a box, 64 to a box; then each
//! with something about it that was not logged.

use differential::bases;
use second::{tag_of, OUTPUT_SIZE, ROWS};

use crate::counts::Counts;
use crate::desk::{Desk, OTHER_PLACE, OTHER_PROBE, OUTPUT, PLACE, PROBE};
use crate::wanted::{bare, Logged};

/// A reading that is in range with its setpoint for every correction.
const READING: i32 = 1_850;

pub fn check(counts: &mut Counts) {
    let values: Vec<i16> = (i16::MIN..=i16::MAX).collect();
    let mut small = 0;
    for (n, block) in values.chunks(ROWS).enumerate() {
        let mut desk = Desk::with(counts, block);
        for correction in desk.logged().to_vec() {
            small += logged(counts, &mut desk, &correction);
            not_logged(counts, &mut desk, n, &correction);
        }
    }
    counts.holds(values.len() == 65_536 && small == 101, "-50 to 50 are 101 of 65,536");
    longer_and_shorter(counts);
    by_both_probes(counts);
}

/// The correction counts: 1 where it is small enough, and then asked about where one
/// hundredth more or less would alter the action.
fn logged(counts: &mut Counts, desk: &mut Desk, correction: &Logged) -> u32 {
    desk.ask(counts, &correction.tank(READING, READING), "a logged correction");
    let value = correction.value();
    if value.abs() > 50 {
        return 0;
    }
    for difference in [-52, -51, -50, -49, -1, 0, 1, 49, 50, 51, 52] {
        let setpoint = READING + value - difference;
        desk.ask(counts, &correction.tank(READING, setpoint), "around a bound");
    }
    1
}

/// Another probe, another tag, the two bytes swapped, and another correction with its
/// right tag, which isn't in this box.
fn not_logged(counts: &mut Counts, desk: &mut Desk, n: usize, correction: &Logged) {
    let bit = 1 << (correction.value() & 63);
    let probes = [OTHER_PROBE, PROBE ^ bit, 0, PROBE.swap_bytes(), u64::MAX, PROBE ^ 1 << 63];
    let probe = probes[n % probes.len()];
    ask(counts, desk, "another probe", Logged { probe, ..*correction });
    let tag = correction.tag ^ bit;
    ask(counts, desk, "another tag", Logged { tag, ..*correction });
    let [low, high] = correction.bytes;
    ask(counts, desk, "swapped bytes", Logged { bytes: [high, low], ..*correction });
    let bytes = (correction.value() as i16).wrapping_add(ROWS as i16).to_le_bytes();
    let tag = tag_of(PROBE, &bytes).0;
    ask(counts, desk, "in no row", Logged { probe: PROBE, tag, bytes });
}

fn ask(counts: &mut Counts, desk: &mut Desk, what: &str, correction: Logged) {
    desk.ask(counts, &correction.tank(READING, READING), what);
}

/// A value of which the correction is a part is another value, and so is a part of it.
fn longer_and_shorter(counts: &mut Counts) {
    let mut desk = Desk::fresh(counts);
    let values: [&[u8]; 6] = [&[], &[5], &[5, 0, 0], &[5, 0, 5, 0], &[0, 5, 0], &[0; 22]];
    for value in values {
        let tag = desk.log_value(counts, PLACE, value);
        for bytes in [[5, 0], [0, 5], [0, 0]] {
            ask(counts, &mut desk, "another length", Logged { probe: PROBE, tag, bytes });
            let tag = tag_of(PROBE, &bytes).0;
            ask(counts, &mut desk, "another length", Logged { probe: PROBE, tag, bytes });
        }
    }
    desk.log(counts, PLACE, [5, 0]);
    let correction = desk.correction(5);
    ask(counts, &mut desk, "behind other lengths", correction);
    for host in bases() {
        let mut desk = Desk::over(host, vec![OUTPUT; OUTPUT_SIZE]);
        ask(counts, &mut desk, "a box without it", correction);
        desk.ask(counts, &bare(READING, READING), "a box without it");
    }
}

/// Two probes that logged the same correction: each with its own tag, and not with the
/// other's. What was asked about before it was logged counts afterwards.
fn by_both_probes(counts: &mut Counts) {
    let mut desk = Desk::fresh(counts);
    let bytes = (-3i16).to_le_bytes();
    let own = |probe| Logged { probe, tag: tag_of(probe, &bytes).0, bytes };
    let (first, other) = (own(PROBE), own(OTHER_PROBE));
    let crossed = [Logged { tag: other.tag, ..first }, Logged { tag: first.tag, ..other }];
    for place in [None, Some(PLACE), Some(OTHER_PLACE)] {
        if let Some(place) = place {
            desk.log(counts, place, bytes);
        }
        for correction in [first, other].into_iter().chain(crossed) {
            ask(counts, &mut desk, "two probes", correction);
        }
    }
    counts.holds(desk.logged() == [first, other], "both have logged it");
}

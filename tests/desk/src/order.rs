//! 24 before 25 before 26, each pair and all three, with the answers written by hand;
//! and the byte that says whether a correction is given.

use interface::{Tank, TankAnswer};
use second::tag_of;

use crate::counts::Counts;
use crate::desk::{Desk, PROBE};
use crate::unsound;
use crate::wanted::{
    bare, Logged, CHECK_SAID_NO, COOL, HOLD, IDENTITY_ZERO, NOT_SOUND, OUT_OF_RANGE, TOO_LARGE,
    WARM,
};

/// Corrections that are small enough, and that are too large.
const SMALL: [i16; 5] = [-50, -7, 0, 7, 50];
const LARGE: [i16; 6] = [i16::MIN, -256, -51, 51, 256, i16::MAX];

pub fn check(counts: &mut Counts) {
    by_hand(counts);
    every_sort(counts);
    given(counts);
}

/// The tank has this answer, whatever this test makes of the request.
fn is(counts: &mut Counts, desk: &mut Desk, tank: &Tank, answer: TankAnswer) {
    desk.ask(counts, tank, "by hand");
    let wanted = desk.answer(tank);
    counts.holds(wanted == answer, "the answer by hand is the request's");
}

fn by_hand(counts: &mut Counts) {
    let mut sound = Desk::with(counts, &[7, 51, -51]);
    let [small, large, low] = [7, 51, -51].map(|value| sound.correction(value));
    let bytes = [52, 0];
    let unlogged = Logged { probe: PROBE, tag: tag_of(PROBE, &bytes).0, bytes };
    let nobody = Logged { probe: 0, ..large };
    // 24 alone, with 25 by each of its numbers, with 26, with both
    for (reading, setpoint) in [(-501, 0), (3_001, 0), (0, -501), (0, 3_001), (3_001, -501)] {
        is(counts, &mut sound, &bare(reading, setpoint), OUT_OF_RANGE);
        for correction in [small, large, unlogged, nobody] {
            is(counts, &mut sound, &correction.tank(reading, setpoint), OUT_OF_RANGE);
        }
    }
    // 25 alone and with 26
    is(counts, &mut sound, &Logged { tag: 0, ..small }.tank(0, 0), CHECK_SAID_NO);
    is(counts, &mut sound, &unlogged.tank(0, 0), CHECK_SAID_NO);
    is(counts, &mut sound, &Logged { probe: 0, ..small }.tank(0, 0), IDENTITY_ZERO);
    is(counts, &mut sound, &nobody.tank(0, 0), IDENTITY_ZERO);
    // 26 alone
    is(counts, &mut sound, &large.tank(0, 0), TOO_LARGE);
    is(counts, &mut sound, &low.tank(0, 0), TOO_LARGE);
    // the three actions, by the correction alone
    is(counts, &mut sound, &bare(0, -50), HOLD);
    is(counts, &mut sound, &small.tank(0, -50), COOL);
    is(counts, &mut sound, &bare(0, 57), WARM);
    is(counts, &mut sound, &small.tank(0, 57), HOLD);
    for mut unsound in unsound::copies(&sound) {
        is(counts, &mut unsound, &large.tank(3_001, 0), OUT_OF_RANGE);
        is(counts, &mut unsound, &small.tank(0, 0), NOT_SOUND);
        is(counts, &mut unsound, &large.tank(0, 0), NOT_SOUND);
        is(counts, &mut unsound, &nobody.tank(0, 0), NOT_SOUND);
        is(counts, &mut unsound, &bare(51, 0), COOL);
    }
}

/// Every sort of temperature with every sort of correction, on boxes that are sound and
/// that are not.
fn every_sort(counts: &mut Counts) {
    let values = [&SMALL[..], &LARGE].concat();
    let mut sound = Desk::with(counts, &values);
    let mut corrections = sound.logged().to_vec();
    for logged in sound.logged() {
        corrections.push(Logged { probe: 0, ..*logged });
        corrections.push(Logged { probe: PROBE + 2, ..*logged });
        corrections.push(Logged { tag: logged.tag ^ 1, ..*logged });
    }
    let temperatures = [i32::MIN, -501, -500, -450, 0, 60, 2_950, 3_000, 3_001, i32::MAX];
    let mut desks = unsound::copies(&sound);
    desks.push(sound.clone());
    for desk in &mut desks {
        for reading in temperatures {
            for setpoint in temperatures {
                desk.ask(counts, &bare(reading, setpoint), "every sort");
                for correction in &corrections {
                    desk.ask(counts, &correction.tank(reading, setpoint), "every sort");
                }
            }
        }
    }
    sound.ask(counts, &bare(0, 0), "after all");
}

/// 0 is no correction, whatever stands in the fields around it; all other bytes say that
/// one is given.
fn given(counts: &mut Counts) {
    let mut sound = Desk::with(counts, &[7, 51]);
    let (small, large) = (sound.correction(7), sound.correction(51));
    let unlogged = Logged { tag: 1, ..small };
    let mut desks = unsound::copies(&sound);
    desks.push(sound.clone());
    for desk in &mut desks {
        for correction in [small, large, unlogged, Logged { probe: 0, ..small }] {
            for given in 0..=255 {
                for setpoint in [-50, 0, 57] {
                    let tank = Tank { given, ..correction.tank(0, setpoint) };
                    desk.ask(counts, &tank, "given");
                }
            }
        }
    }
    is(counts, &mut sound, &Tank { given: 0, ..large.tank(0, -50) }, HOLD);
    for given in [1, 2, 255] {
        is(counts, &mut sound, &Tank { given, ..large.tank(0, -50) }, TOO_LARGE);
    }
}

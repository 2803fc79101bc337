//! Lists of 0 to 10 tanks with 0 to 10 answers; one bad tank at each place among good
//! ones.

use interface::Tank;

use crate::counts::Counts;
use crate::desk::{Desk, PROBE};
use crate::unsound;
use crate::wanted::{bare, Logged};

pub fn check(counts: &mut Counts) {
    let sound = Desk::with(counts, &[-50, 0, 7, 50, 51, -51]);
    let mut desks = unsound::copies(&sound);
    desks.push(sound.clone());
    for desk in &mut desks {
        lengths(counts, desk, &sound);
        one_bad(counts, desk, &sound);
        one_good(counts, desk, &sound);
        in_order(counts, desk, &sound);
    }
}

/// Each is decided on a sound box; the actions follow one another.
fn good(sound: &Desk) -> Vec<Tank> {
    let [least, none, some, most] = [-50, 0, 7, 50].map(|value| sound.correction(value));
    vec![
        bare(0, 0),
        least.tank(0, -100),
        some.tank(0, 58),
        bare(1_500, 1_400),
        most.tank(3_000, 3_000),
        none.tank(-500, 3_000),
        bare(-500, -449),
        some.tank(1_000, 956),
        bare(3_000, 2_949),
        least.tank(0, 1),
    ]
}

/// Each is refused, by each number.
fn bad(sound: &Desk) -> Vec<Tank> {
    let (small, large) = (sound.correction(7), sound.correction(51));
    vec![
        bare(-501, 0),
        bare(0, 3_001),
        small.tank(i32::MAX, 0),
        Logged { tag: !small.tag, ..small }.tank(0, 0),
        Logged { probe: PROBE + 9, ..small }.tank(0, 0),
        Logged { probe: 0, ..small }.tank(0, 0),
        large.tank(0, 0),
        sound.correction(-51).tank(0, 0),
    ]
}

/// Every count of tanks with every count of answers.
fn lengths(counts: &mut Counts, desk: &mut Desk, sound: &Desk) {
    let good = good(sound);
    let bare_ones: Vec<_> = (0..10).map(|n| bare(40 * n, 200)).collect();
    let bad: Vec<_> = bad(sound).into_iter().cycle().take(10).collect();
    let mixed: Vec<_> = good.iter().zip(&bad).flat_map(|(&good, &bad)| [good, bad]).collect();
    for all in [&good[..], &bare_ones, &bad, &mixed[..10]] {
        for tanks in 0..=10 {
            for answers in 0..=10 {
                desk.list_with(counts, &all[..tanks], answers, "lengths");
            }
        }
    }
}

fn one_bad(counts: &mut Counts, desk: &mut Desk, sound: &Desk) {
    one_among(counts, desk, &bad(sound), &good(sound), "one bad tank");
}

/// And the other way round.
fn one_good(counts: &mut Counts, desk: &mut Desk, sound: &Desk) {
    let others = bad(sound);
    one_among(counts, desk, &good(sound), &others, "one good tank");
}

/// Each of these at each place of each list of the others, among 9 too.
fn one_among(counts: &mut Counts, desk: &mut Desk, ones: &[Tank], others: &[Tank], what: &str) {
    for one in ones {
        for length in 1..=9 {
            for place in 0..length {
                let mut list: Vec<_> = others.iter().cycle().copied().take(length).collect();
                list[place] = *one;
                desk.list(counts, &list, what);
            }
        }
    }
}

/// Each answer is its own tank's: every two tanks next to each other, at every place,
/// and lists turned round.
fn in_order(counts: &mut Counts, desk: &mut Desk, sound: &Desk) {
    let tanks = [good(sound), bad(sound)].concat();
    for first in &tanks {
        for second in &tanks {
            desk.list(counts, &[*first, *second], "two tanks");
            desk.list(counts, &[*second, *first, *second], "three tanks");
        }
    }
    for start in 0..tanks.len() {
        let turned: Vec<_> = tanks.iter().cycle().skip(start).copied().take(8).collect();
        desk.list(counts, &turned, "eight tanks");
        let back: Vec<_> = turned.into_iter().rev().collect();
        desk.list(counts, &back, "eight tanks");
    }
}

//! Boxes that are not sound, and lent buffers that are not of their sizes: 25 with 15
//! where a correction is given, and else the tank is decided all the same.

use differential::records::WRONG_OUTPUT_SIZES;
use differential::{bases, damages, pairs, play, Random};
use interface::Tank;
use second::{Host, OUTPUT_SIZE};

use crate::counts::Counts;
use crate::desk::{Desk, OUTPUT};
use crate::wanted::{bare, Logged};

/// The same box with a clause of its soundness broken, or lent in buffers that are not
/// of their sizes.
pub fn copies(desk: &Desk) -> Vec<Desk> {
    let host = desk.host();
    let (mut tag, mut rows, mut heaps) = (host.clone(), host.clone(), host.clone());
    tag.log[0].tag.0 ^= 1;
    rows.log.pop();
    heaps.heaps.push(0);
    let mut desks: Vec<_> = [tag, rows, heaps].into_iter().map(over).collect();
    desks.push(Desk::over(host.clone(), vec![OUTPUT; OUTPUT_SIZE - 1]));
    desks
}

fn over(host: Host) -> Desk {
    Desk::over(host, vec![OUTPUT; OUTPUT_SIZE])
}

/// Without a correction, with one of each sort, out of range.
fn tanks(sound: &Desk) -> Vec<Tank> {
    let logged = sound.logged().first().copied();
    let logged = logged.unwrap_or(Logged { probe: 77, tag: 1, bytes: [0, 0] });
    let mut tanks = vec![bare(51, 0), bare(0, 0), bare(0, 51), bare(-501, 0), bare(0, 3_001)];
    let corrections = [
        logged,
        Logged { probe: 0, ..logged },
        Logged { tag: !logged.tag, ..logged },
        Logged { bytes: [51, 0], ..logged },
    ];
    for correction in corrections {
        tanks.push(correction.tank(0, 0));
        tanks.push(correction.tank(3_001, 0));
        tanks.push(Tank { given: 0, ..correction.tank(0, -51) });
    }
    tanks
}

pub fn check(counts: &mut Counts) {
    let boxes = boxes(counts);
    sizes(counts, &boxes);
    damages_alone(counts, &boxes);
    damages_in_pairs(counts, &boxes);
}

/// The bases, one with corrections, and some that were played.
fn boxes(counts: &mut Counts) -> Vec<Desk> {
    let mut boxes = vec![Desk::with(counts, &[-50, 7, 50, 51])];
    boxes.extend(bases().into_iter().chain((0..16).map(|seed| play(seed).host)).map(over));
    counts.holds(boxes.iter().all(Desk::is_sound), "all of them are sound");
    boxes
}

/// Every tank alone, then all of them in lists.
fn ask_all(counts: &mut Counts, desk: &mut Desk, tanks: &[Tank], what: &str) {
    for tank in tanks {
        desk.ask(counts, tank, what);
    }
    for list in tanks.chunks(8) {
        desk.list(counts, list, what);
    }
}

/// The output buffer's. Those of the others are among the damages.
fn sizes(counts: &mut Counts, boxes: &[Desk]) {
    for sound in boxes {
        let tanks = tanks(sound);
        ask_all(counts, &mut sound.clone(), &tanks, "a sound box");
        for size in WRONG_OUTPUT_SIZES {
            let mut desk = Desk::over(sound.host().clone(), vec![OUTPUT; size]);
            counts.holds(!desk.is_sound(), "the output buffer is not of its size");
            ask_all(counts, &mut desk, &tanks, &format!("an output buffer of {size}"));
        }
    }
}

fn damages_alone(counts: &mut Counts, boxes: &[Desk]) {
    let mut random = Random::new(21);
    for damage in damages() {
        let mut done = false;
        for sound in boxes {
            let mut host = sound.host().clone();
            if (damage.apply)(&mut host, &mut random) {
                let mut desk = over(host);
                counts.holds(!desk.is_sound(), damage.name);
                ask_all(counts, &mut desk, &tanks(sound), damage.name);
                done = true;
            }
        }
        counts.holds(done, &format!("{}: on no box", damage.name));
    }
}

/// One list to each pair, on a box that is drawn.
fn damages_in_pairs(counts: &mut Counts, boxes: &[Desk]) {
    let mut random = Random::new(22);
    let mut done = 0;
    for (first, second) in pairs() {
        let sound = &boxes[random.index(boxes.len())];
        let mut host = sound.host().clone();
        if (first.apply)(&mut host, &mut random) && (second.apply)(&mut host, &mut random) {
            let tanks = tanks(sound);
            let list: Vec<_> = (0..4).map(|_| random.pick(&tanks)).collect();
            over(host).list(counts, &list, &format!("{}, {}", first.name, second.name));
            done += 1;
        }
    }
    counts.holds(done > 1_000, "pairs of damages");
}

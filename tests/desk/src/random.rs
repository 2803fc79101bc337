//! Random tanks and lists on boxes that were played, damaged or not. Fixed seeds.

use differential::calls::{attest, hand_over, heap_write, record_of};
use differential::records::output_size;
use differential::{damages, play, play_level_one, scramble, Random};
use interface::Tank;
use second::{Host, OUTPUT_SIZE};

use crate::counts::Counts;
use crate::desk::Desk;
use crate::wanted::{bare, Logged};

const SEEDS: u64 = 800;

pub fn check(counts: &mut Counts) {
    let (mut sound, mut logged) = (0, 0);
    for seed in 0..SEEDS {
        let mut random = Random::new(seed ^ 0xDE5C_0000_0000);
        let host = played(seed, &mut random);
        let known = Desk::over(host.clone(), vec![7; OUTPUT_SIZE]).logged().to_vec();
        logged += known.len();
        for damaged in [false, true] {
            let mut desk = drawn(&host, damaged, &mut random);
            sound += u32::from(desk.is_sound());
            round(counts, &mut desk, &known, &mut random, &format!("seed {seed}"));
        }
    }
    counts.holds(sound > 800 && sound < 1_500, "boxes that are sound, and that are not");
    counts.holds(logged > 3_000, "corrections are logged");
}

/// A box that was played, in which its programs then log corrections as long as there is
/// room.
fn played(seed: u64, random: &mut Random) -> Host {
    let mut host = if seed % 4 == 0 { play_level_one(seed).host } else { play(seed).host };
    for place in 0..16 {
        for _ in 0..random.below(4) {
            let value = if random.once_in(4) { random.u64() as i16 } else { small(random) };
            let bytes = value.to_le_bytes();
            for call in [hand_over(place), heap_write(place, 0, &bytes), attest(0, 2)] {
                host.call(&mut [0; OUTPUT_SIZE], &record_of(&call));
            }
        }
    }
    host
}

/// -55 to 55.
fn small(random: &mut Random) -> i16 {
    random.between(0, 110) as i16 - 55
}

/// The box, or the box altered somewhere, which may leave it sound.
fn drawn(host: &Host, damaged: bool, random: &mut Random) -> Desk {
    let mut host = host.clone();
    if !damaged {
        return Desk::over(host, random.bytes(OUTPUT_SIZE, 256));
    }
    scramble(&mut host, random);
    if random.once_in(3) {
        let damage = random.pick(&damages());
        (damage.apply)(&mut host, random);
    }
    let size = output_size(random);
    Desk::over(host, random.bytes(size, 256))
}

fn round(counts: &mut Counts, desk: &mut Desk, known: &[Logged], random: &mut Random, what: &str) {
    for _ in 0..60 {
        desk.ask(counts, &tank(known, random), what);
    }
    for _ in 0..20 {
        let length = random.index(11);
        let list: Vec<_> = (0..length).map(|_| tank(known, random)).collect();
        let lent = if random.once_in(6) { random.index(11) } else { length };
        desk.list_with(counts, &list, lent, what);
    }
}

fn tank(known: &[Logged], random: &mut Random) -> Tank {
    let reading = temperature(random);
    let setpoint = match random.below(3) {
        0 => temperature(random),
        _ => reading.saturating_add(i32::from(random.between(0, 210)) - 105),
    };
    if random.once_in(4) {
        return Tank { given: 0, ..correction(known, random).tank(reading, setpoint) };
    }
    if random.once_in(8) {
        return bare(reading, setpoint);
    }
    let given = random.between(1, 255) as u8;
    Tank { given, ..correction(known, random).tank(reading, setpoint) }
}

/// Mostly in range.
fn temperature(random: &mut Random) -> i32 {
    match random.below(16) {
        0 => random.u64() as i32,
        1 => i32::from(random.u64() as i16),
        2 => random.pick(&[i32::MIN, -501, -500, 3_000, 3_001, i32::MAX]),
        _ => i32::from(random.between(0, 3_500)) - 500,
    }
}

/// Half of the time one that is logged; else something about it is another.
fn correction(known: &[Logged], random: &mut Random) -> Logged {
    let any = Logged { probe: random.u64(), tag: random.u64(), bytes: [random.byte(), 0] };
    if known.is_empty() {
        return any;
    }
    let (one, other) = (random.pick(known), random.pick(known));
    match random.below(12) {
        0 => Logged { probe: 0, ..one },
        1 => Logged { probe: other.probe, ..one },
        2 => Logged { tag: one.tag ^ 1 << random.below(64), ..one },
        3 => Logged { bytes: [one.bytes[1], one.bytes[0]], ..one },
        4 => Logged { bytes: other.bytes, ..one },
        5 => any,
        _ => one,
    }
}

//! Random boxes, damaged or not, random records and random writings.

use differential::calls::{attest, create, hand_over, record_of};
use differential::hand_made::{self, alter, hand_made};
use differential::records::{any, held_chain, held_release, output_size, Known, KINDS};
use differential::{damages, play, play_chains, play_level_one, scramble, Random};
use interface::{write, Sides};
use second::{Host, OUTPUT_SIZE};

use crate::counts::Counts;

/// A script played call by call, a level-one script too, calls on the boxes that
/// they lead to, calls on damaged and on altered copies of these boxes, chains on a
/// box with links, releases until most values are gone, and writings.
pub fn round(counts: &mut Counts, seed: u64) {
    let mut random = Random::new(seed ^ 0x5EED_0000_0000);
    script(counts, seed);
    level_one_script(counts, seed);
    sound(counts, seed, &mut random);
    damaged(counts, seed, &mut random);
    altered(counts, seed, &mut random);
    chains(counts, seed, &mut random);
    releases(counts, seed, &mut random);
    for _ in 0..100 {
        writing(counts, seed, &mut random);
    }
}

/// The box record and the tables go from call to call.
fn script(counts: &mut Counts, seed: u64) {
    counts.now("scripts");
    let script = play(seed).script;
    let mut sides = Sides::new(Host::fresh(), vec![0; OUTPUT_SIZE]);
    let mut rest = &script[..];
    while !rest.is_empty() {
        match counts.call(&mut sides, rest, || format!("script, seed {seed}")) {
            Some(answer) if ![1, 2, 3].contains(&answer.code) => rest = &rest[answer.used..],
            _ => break,
        }
    }
}

/// The same as a level-one paper.
fn level_one_script(counts: &mut Counts, seed: u64) {
    counts.now("level-one scripts");
    let script = play_level_one(seed).script;
    let mut sides = Sides::new(Host::fresh(), vec![0; OUTPUT_SIZE]);
    let mut rest = &script[..];
    while !rest.is_empty() {
        match counts.call_level_one(&mut sides, rest, || format!("level one, seed {seed}")) {
            Some(answer) if ![1, 2, 3].contains(&answer.code) => rest = &rest[answer.used..],
            _ => break,
        }
    }
}

/// Any records on a sound box, one after the other: a box that was played as the
/// full box's, a hand-made one as level one's.
fn sound(counts: &mut Counts, seed: u64, random: &mut Random) {
    counts.now("sound boxes");
    let host = play(seed).host;
    let known = Known::of(&host);
    let output = random.bytes(OUTPUT_SIZE, 256);
    let mut sides = Sides::new(host, output);
    for _ in 0..150 {
        counts.call(&mut sides, &any(random, &known), || format!("sound box, seed {seed}"));
    }
    let host = one_of_hand_made(seed);
    let known = Known::of(&host);
    let mut sides = Sides::new(host, vec![7; OUTPUT_SIZE]);
    for _ in 0..50 {
        let what = || format!("hand-made box, seed {seed}");
        counts.call_level_one(&mut sides, &any(random, &known), what);
    }
}

/// One to three alterations anywhere, or a planned damage, and any record. Some of
/// the boxes stay sound.
fn damaged(counts: &mut Counts, seed: u64, random: &mut Random) {
    counts.now("damaged boxes");
    let boxes = [play(seed).host, one_of_hand_made(seed), play_level_one(seed).host];
    let damages = damages();
    for n in 0..225 {
        let played = &boxes[n / 3 % 3];
        let mut host = played.clone();
        for _ in 0..=n % 3 {
            scramble(&mut host, random);
        }
        if random.once_in(4) {
            let damage = random.pick(&damages);
            (damage.apply)(&mut host, random);
        }
        let size = output_size(random);
        let mut sides = Sides::new(host, random.bytes(size, 256));
        let record = record(random, played);
        counts.call(&mut sides, &record, || format!("damaged box {n}, seed {seed}"));
    }
}

/// Alterations after which the box is sound all the same, and any record.
fn altered(counts: &mut Counts, seed: u64, random: &mut Random) {
    counts.now("altered boxes");
    let boxes = [play(seed).host, one_of_hand_made(seed), play_level_one(seed).host];
    for n in 0..60 {
        let mut host = boxes[n % 3].clone();
        for _ in 0..=n % 4 {
            alter(&mut host, random);
        }
        let record = record(random, &host);
        let mut sides = Sides::new(host, vec![7; OUTPUT_SIZE]);
        let answer = counts.call(&mut sides, &record, || format!("altered box {n}, seed {seed}"));
        counts.holds(answer.map_or(true, |answer| answer.code != 15), "an altered box is sound");
    }
}

/// Any record, most of the time one that level one has something to say to.
fn record(random: &mut Random, host: &Host) -> Vec<u8> {
    match random.below(5) {
        0 => record_of(&attest(random.between(0, 4), random.pick(&[0, 1, 1, 2, 3, 256]))),
        1 => {
            let place = random.between(3, 17) as u8;
            record_of(&random.pick(&[create(place, 4), hand_over(place)]))
        }
        2 => {
            let mut records = hand_made::records();
            let n = random.index(records.len());
            records.swap_remove(n)
        }
        _ => any(random, &Known::of(host)),
    }
}

fn one_of_hand_made(seed: u64) -> Host {
    let mut boxes = hand_made();
    let n = seed as usize % boxes.len();
    boxes.swap_remove(n)
}

/// Chains over what a sound box holds, half of them with one thing wrong, for each
/// service in turn.
fn chains(counts: &mut Counts, seed: u64, random: &mut Random) {
    counts.now("other");
    let mut sides = Sides::new(play_chains(seed).host, vec![7; OUTPUT_SIZE]);
    for place in 0..16 {
        let chained = || format!("chains for place {place}, seed {seed}");
        let handed_over = counts.call(&mut sides, &record_of(&hand_over(place)), chained);
        if handed_over.map_or(false, |answer| answer.code == 0) {
            let known = Known::of(&sides.second);
            for _ in 0..8 {
                counts.call(&mut sides, &held_chain(random, &known), chained);
            }
        }
    }
}

/// Releases of what a sound box holds, for each service in turn, each followed by any
/// record.
fn releases(counts: &mut Counts, seed: u64, random: &mut Random) {
    counts.now("other");
    let host = if seed % 2 == 0 { play(seed).host } else { one_of_hand_made(seed) };
    let mut sides = Sides::new(host, vec![7; OUTPUT_SIZE]);
    for place in 0..16 {
        let released = || format!("releases for place {place}, seed {seed}");
        let handed_over = counts.call(&mut sides, &record_of(&hand_over(place)), released);
        if handed_over.map_or(false, |answer| answer.code == 0) {
            for _ in 0..6 {
                let known = Known::of(&sides.second);
                counts.call(&mut sides, &held_release(random, &known), released);
                let known = Known::of(&sides.second);
                counts.call(&mut sides.clone(), &any(random, &known), released);
            }
        }
    }
}

/// Any kind, the retired ones too, any fields, a buffer about as long as the
/// record.
fn writing(counts: &mut Counts, seed: u64, random: &mut Random) {
    let kind = if random.once_in(8) { random.byte() } else { random.between(0, 17) as u8 };
    let fields = interface::Fields {
        place: random.byte(),
        identity: random.u64(),
        offset: random.u64() as u16,
        length: random.u64() as u16,
        number: random.u64(),
    };
    let count = match random.below(40) {
        0 => random.pick(&[65_534, 65_535, 65_536, 65_537, 131_072]),
        _ => random.index(300),
    };
    let bytes = random.bytes(count, 256);
    let room = [0, 1, 2, 3, 6, 11, 18, 20, 22, 64, count + 6, count + 7, count + 20, count + 21];
    let room = random.pick(&room);
    let room = (room + random.index(3)).saturating_sub(1);
    let before = random.bytes(room, 256);
    let (mut out, mut wanted_out) = (before.clone(), before.clone());
    let interface::Fields { place, identity, offset, length, number } = fields;
    let wanted_fields = second::Fields { place, identity, offset, length, number };
    let wanted = second::write(kind, &wanted_fields, &bytes, &mut wanted_out);
    let written = write(kind, fields, &bytes, &mut out);
    let agrees = (written.code, written.length) == (wanted.code, wanted.length)
        && out == wanted_out
        && (wanted.code == 0 || out == before)
        && ((wanted.code == 2) != KINDS.contains(&kind));
    counts.writing(wanted.code, agrees, || {
        format!("writer, seed {seed}: kind {kind}, {fields:?}, {count} bytes, a buffer of {room}")
    });
}

//! Each damage alone, each pair of damages, each wrong size, each mark and length of a
//! row, each cut of a record.

use differential::calls::{
    attest, chain, create, hand_over, protect, record_of, release, retrieve,
};
use differential::records::WRONG_OUTPUT_SIZES;
use differential::{bases, broken, damages, hand_made, pairs, play, Cut, Next, Random, LAYOUTS};
use interface::Sides;
use second::{Answer, Call, Host, DRAW_LIMIT, NONE_RUNS, OUTPUT_SIZE, ROWS};

use crate::counts::Counts;

/// Malformed records, and whole ones of which most would alter something.
fn records() -> Vec<Vec<u8>> {
    let bytes: [&[u8]; 6] = [&[], &[2], &[1], &[3, 2, 0], &[1, 14], &[7, 1, 0, 1]];
    let chain = chain(2, 77, 1, b"\x01\x00\x01");
    let release = release(77, 3 * DRAW_LIMIT);
    let calls = [Call::Report, hand_over(NONE_RUNS), Call::Exit, create(9, 1), attest(1, 2), chain];
    let calls = calls.iter().chain([&release]);
    bytes.iter().map(|bytes| bytes.to_vec()).chain(calls.map(record_of)).collect()
}

/// Code 15 and number 0 to each record.
fn not_sound(counts: &mut Counts, sides: &mut Sides, records: &[Vec<u8>], what: &str) {
    let mut all = true;
    for record in records {
        let met = counts.call(sides, record, || what.into());
        all &= met.map_or(true, |answer| (answer.code, answer.number) == (15, 0));
    }
    counts.holds(all, what);
}

/// The output buffer's. Those of the others are among the damages.
pub fn sizes(counts: &mut Counts) {
    let records = records();
    for base in bases() {
        for size in WRONG_OUTPUT_SIZES {
            let mut sides = Sides::new(base.clone(), vec![7; size]);
            not_sound(counts, &mut sides, &records, &format!("an output buffer of {size}"));
        }
    }
}

/// On the bases and on boxes that were played.
pub fn damages_alone(counts: &mut Counts) {
    let mut random = Random::new(11);
    let records = records();
    let boxes: Vec<Host> = bases().into_iter().chain((0..32).map(|seed| play(seed).host)).collect();
    for damage in damages() {
        let mut alone = false;
        for host in &boxes {
            let mut host = host.clone();
            if (damage.apply)(&mut host, &mut random) {
                alone |= broken(&host) == [damage.clause];
                let mut sides = Sides::new(host, vec![7; OUTPUT_SIZE]);
                not_sound(counts, &mut sides, &records, damage.name);
            }
        }
        counts.holds(alone, &format!("{}: nowhere the one clause that breaks", damage.name));
    }
}

pub fn damages_in_pairs(counts: &mut Counts) {
    let mut random = Random::new(12);
    let records = records();
    let bases = bases();
    let mut done = 0;
    for (first, second) in pairs() {
        for base in &bases {
            let mut host = base.clone();
            if (first.apply)(&mut host, &mut random) && (second.apply)(&mut host, &mut random) {
                done += 1;
                let mut sides = Sides::new(host, vec![7; OUTPUT_SIZE]);
                let what = format!("{}, {}", first.name, second.name);
                let two =
                    [random.pick(&[0, 1, 2, 3, 4, 5]), random.pick(&[6, 7, 8, 9, 10, 11, 12])];
                not_sound(counts, &mut sides, &two.map(|n| records[n].clone()), &what);
            }
        }
    }
    counts.holds(done > 4_000, "pairs of damages");
}

/// Each mark in each row of each base: in a used row with a value only 0 fits, in a spent
/// one only 1, in one of no bytes either, and in an unused row only 0.
pub fn marks(counts: &mut Counts) {
    let report = record_of(&Call::Report);
    for base in bases() {
        for n in 0..ROWS {
            let is = base.escrow[n].mark;
            let used = n < usize::from(base.record.escrow_rows);
            for mark in 0..=255 {
                // All marks in a few rows, some in the others.
                if ![0, 9, 63].contains(&n) && ![0, 1, 2, 255].contains(&mark) {
                    continue;
                }
                let mut host = base.clone();
                host.escrow[n].mark = mark;
                let no_bytes = host.escrow[n].handle.0 < DRAW_LIMIT;
                let sound = mark == is || used && mark < 2 && no_bytes;
                let what = format!("row {n} with mark {mark}");
                answers_15(counts, host, &report, !sound, &what);
            }
        }
    }
}

/// The call gets 15 exactly where the box is not sound.
fn answers_15(counts: &mut Counts, host: Host, record: &[u8], unsound: bool, what: &str) {
    counts.holds(broken(&host).is_empty() != unsound, what);
    let mut sides = Sides::new(host, vec![7; OUTPUT_SIZE]);
    let answer = counts.call(&mut sides, record, || what.into());
    counts.holds(answer.map_or(true, |answer| (answer.code == 15) == unsound), what);
}

/// Two rows written by hand, the first with every mark near 1 and with lengths and handles
/// that agree or not: sound where it is unspent and its handle carries its length, or
/// where it is spent and has none. On the sound ones every kind is called.
pub fn spent_rows(counts: &mut Counts) {
    let report = record_of(&Call::Report);
    for mark in [0, 1, 2, 3, 254, 255] {
        for length in [0, 1, 2, 255, 256, 257] {
            for carried in [0, 1, 2, 255, 256, 257, 65_535] {
                let host = two_rows(mark, length, carried);
                let fits = match mark {
                    0 => u64::from(length) == carried && length < 257,
                    1 => length == 0,
                    _ => false,
                };
                let what = format!("mark {mark}, length {length}, a handle of {carried}");
                answers_15(counts, host.clone(), &report, !fits, &what);
                if fits {
                    every_kind(counts, &host, &what);
                }
            }
        }
    }
}

/// Identity 1 in place 0, running. Rows of its own, the first of them with this mark and
/// length, and a handle that carries the other; the second of two bytes.
fn two_rows(mark: u8, length: u16, carried: u64) -> Host {
    let mut host = Host::fresh();
    host.record.taken = 1;
    host.record.running = 0;
    host.record.identities[0] = 1;
    let handles = [carried * DRAW_LIMIT + 7, 2 * DRAW_LIMIT + 8];
    let rows = [(mark, 0, length), (0, length, 2)];
    for (row, (handle, (mark, first, length))) in
        host.escrow.iter_mut().zip(handles.into_iter().zip(rows))
    {
        (row.source, row.recipient, row.handle.0) = (1, 1, handle);
        (row.first, row.length, row.mark) = (first, length, mark);
    }
    host.record.escrow_rows = 2;
    host.record.escrow_bytes = length + 2;
    host.escrow_values[..usize::from(length) + 2].fill(9);
    host
}

/// The records of the hand-made boxes, and those that name the rows' handles, each on the
/// box as it was made.
fn every_kind(counts: &mut Counts, host: &Host, what: &str) {
    let mut records = hand_made::records();
    for handle in host.escrow[..2].iter().map(|row| row.handle.0) {
        let calls = [
            release(1, handle),
            release(2, handle),
            retrieve(1, 0, handle),
            retrieve(1, 256, handle),
            chain(3, 1, handle, b""),
            protect(1, 0, (handle / DRAW_LIMIT) as u16, handle % DRAW_LIMIT),
        ];
        records.extend(calls.iter().map(record_of));
    }
    let sides = Sides::new(host.clone(), vec![7; OUTPUT_SIZE]);
    for record in &records {
        counts.call(&mut sides.clone(), record, || what.into());
    }
}

/// Every field of every kind cut at every byte, the empty record too, on each
/// base.
pub fn cuts(counts: &mut Counts) {
    for base in bases() {
        let mut sides = Sides::new(base, vec![7; OUTPUT_SIZE]);
        for layout in &LAYOUTS {
            for fill in [0x00, 0x11, 0xFF] {
                for cut in layout.cuts(fill, 3) {
                    is_cut(counts, &mut sides, &cut);
                }
            }
        }
    }
}

/// Contents cut at every byte, or at some where there are too many.
pub fn contents_cut(counts: &mut Counts) {
    let [_, base, ..] = bases();
    let mut sides = Sides::new(base, vec![7; OUTPUT_SIZE]);
    for layout in LAYOUTS.iter().filter(|layout| layout.bytes) {
        for count in [1, 2, 255, 256, 257, 300, 65_535] {
            let step = if count > 300 { 4_369 } else { 1 };
            for there in (0..count).step_by(step).chain([count - 1]) {
                is_cut(counts, &mut sides, &layout.contents_cut(0xFF, count, there.into()));
            }
        }
    }
}

/// The record of a cut gets what it misses.
fn is_cut(counts: &mut Counts, sides: &mut Sides, cut: &Cut) {
    misses(counts, sides, &cut.record, cut.missing);
}

/// Code 1 with what is missing, nothing used and nothing shown.
fn misses(counts: &mut Counts, sides: &mut Sides, record: &[u8], missing: usize) {
    let what = || format!("a cut record that misses {missing}");
    let wanted = Answer { code: 1, number: missing as u64, used: 0, shown: 0 };
    let met = counts.call(sides, record, what);
    counts.holds(met.map_or(true, |answer| answer == wanted), &what());
}

/// Every cut of every kind followed by as many bytes as are missing or fewer, all
/// of them the same.
pub fn cuts_followed(counts: &mut Counts) {
    let [_, base, ..] = bases();
    for layout in &LAYOUTS {
        for (fill, filler) in [(0x00, 0x00), (0x11, 0x00), (0x11, 0x19), (0xFF, 0x01), (0xFF, 0xFF)]
        {
            for cut in layout.cuts(fill, 3) {
                let mut sides = Sides::new(base.clone(), vec![7; OUTPUT_SIZE]);
                for more in 0..cut.missing {
                    let record = cut.followed_by(filler, more);
                    misses(counts, &mut sides, &record, cut.missing - more);
                }
                field_is_read(counts, &mut sides, &cut, filler);
            }
        }
    }
}

/// With the missing bytes there a later field is missing, the kind or the map is
/// refused, or a call is read.
fn field_is_read(counts: &mut Counts, sides: &mut Sides, cut: &Cut, filler: u8) {
    let record = cut.followed_by(filler, cut.missing);
    let what = || format!("a cut record followed by {} times {filler:#04x}", cut.missing);
    let wanted = match cut.next(filler) {
        Next::Missing(missing) => return misses(counts, sides, &record, missing),
        Next::Refused(code) => (code, 0),
        Next::Whole => (0, record.len()),
    };
    if let Some(Answer { code, used, .. }) = counts.call(sides, &record, what) {
        let read = if used == 0 { (code, 0) } else { (0, used) };
        counts.holds(read == wanted, &what());
    }
}

/// Every record that 21, 22 and 23 hang on, on every hand-made box, each on the box
/// as it was made.
pub fn level_one(counts: &mut Counts) {
    counts.now("hand-made boxes");
    let records = hand_made::records();
    for (n, host) in hand_made().into_iter().enumerate() {
        let sides = Sides::new(host, vec![7; OUTPUT_SIZE]);
        for record in &records {
            counts.call(&mut sides.clone(), record, || format!("hand-made box {n}"));
        }
    }
}

/// The same boxes damaged in each way: 15 to records of level one's own numbers.
pub fn level_one_damaged(counts: &mut Counts) {
    counts.now("other");
    let mut random = Random::new(13);
    let records = hand_made::records();
    let boxes = hand_made();
    for damage in damages() {
        for _ in 0..8 {
            let mut host = boxes[random.index(boxes.len())].clone();
            if (damage.apply)(&mut host, &mut random) {
                let mut sides = Sides::new(host, vec![7; OUTPUT_SIZE]);
                let some: Vec<_> = (0..4).map(|_| random.index(records.len())).collect();
                let some: Vec<_> = some.into_iter().map(|n| records[n].clone()).collect();
                not_sound(counts, &mut sides, &some, damage.name);
            }
        }
    }
}

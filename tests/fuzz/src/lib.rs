//! One input of the fuzzer: a box, alterations of it, and records. The proved
//! box and `second` must agree after each call, in the number too, and never
//! answer 5, which is retired. Each call is made under both profiles, the full box,
//! with the box record by value and lent, and level one, and goes on with one of them.
//! What a cut record misses is tried out; where a chain leads, which handle is free, what
//! a release gets, and what level one refuses, is told from the tables.

#![deny(unsafe_op_in_unsafe_fn)]

use std::slice;

use differential::draws::after;
use differential::records::WRONG_OUTPUT_SIZES;
use differential::{bases, hand_made, play, Chains, Draws, Held, LevelOne, Releases, Traced};
use interface::{write, Both, Fields, Profile, Sides};
use second::{read, Answer, Call, EscrowRow, Host, LogRow, DRAW_LIMIT, OUTPUT_SIZE, ROWS};

thread_local! {
    static BOXES: Vec<Host> = {
        let played = (0..12).map(|seed| play(seed).host);
        bases().into_iter().chain(played).chain(hand_made()).collect()
    };
}

/// # Safety
///
/// `data` leads to `size` bytes.
#[no_mangle]
pub unsafe extern "C" fn LLVMFuzzerTestOneInput(data: *const u8, size: usize) -> i32 {
    // SAFETY: libFuzzer says so.
    let mut input =
        Input(if size == 0 { &[] } else { unsafe { slice::from_raw_parts(data, size) } });
    let first = input.byte();
    let mut host = BOXES.with(|boxes| boxes[first % boxes.len()].clone());
    let output = *WRONG_OUTPUT_SIZES.get(255 - input.byte()).unwrap_or(&OUTPUT_SIZE);
    let third = input.byte();
    for _ in 0..third % 4 {
        alter(&mut host, &mut input);
    }
    let profile = if third / 4 % 2 == 0 { Profile::Full } else { Profile::LevelOne };
    calls(profile, Sides::new(host, vec![7; output]), input.0);
    0
}

/// The bytes not yet taken; zeros follow.
struct Input<'a>(&'a [u8]);

impl Input<'_> {
    fn byte(&mut self) -> usize {
        self.0.split_first().map_or(0, |(&first, rest)| {
            self.0 = rest;
            usize::from(first)
        })
    }

    fn word(&mut self) -> usize {
        self.byte() + 256 * self.byte()
    }
}

/// One part of the box gets a number from the input.
fn alter(host: &mut Host, input: &mut Input) {
    let (part, at, value) = (input.byte(), input.word(), input.word());
    let short = value as u16;
    match part % 22 {
        0 => host.record.taken ^= short,
        1 => host.record.running = value as u8,
        2 => host.record.identities[at % 16] = value as u64,
        3 => host.record.log_rows = short,
        4 => host.record.log_bytes = short,
        5 => host.record.escrow_rows = short,
        6 => host.record.escrow_bytes = short,
        7..=10 => host.log.get_mut(at % ROWS).map_or((), |row| alter_log(row, part, at, value)),
        11..=15 => {
            host.escrow.get_mut(at % ROWS).map_or((), |row| alter_escrow(row, part, at, value))
        }
        16 => set(&mut host.heaps, at, value),
        17 => set(&mut host.log_values, at, value),
        18 => set(&mut host.escrow_values, at, value),
        19 => redraw(&mut host.escrow, at, value),
        20 => mark(&mut host.escrow, at, value),
        _ => resize(host, at, value),
    }
}

fn alter_log(row: &mut LogRow, part: usize, at: usize, value: usize) {
    match part % 4 {
        0 => row.identity = value as u64,
        1 => row.tag.0 ^= (value as u64) << (at / ROWS % 64),
        2 => row.first = value as u16,
        _ => row.length = value as u16,
    }
}

fn alter_escrow(row: &mut EscrowRow, part: usize, at: usize, value: usize) {
    match part % 5 {
        0 => row.source = value as u64,
        1 => row.recipient = value as u64,
        2 => row.handle.0 ^= (value as u64) << (at / ROWS % 64),
        3 => row.first = value as u16,
        _ => row.length = value as u16,
    }
}

/// A row's draw becomes another's, or one of the next few after it.
fn redraw(rows: &mut [EscrowRow], at: usize, value: usize) {
    let draw = rows.get(value % ROWS).map_or(0, |row| row.handle.0 % DRAW_LIMIT);
    if let Some(row) = rows.get_mut(at % ROWS) {
        let draw = after(draw, value / ROWS % 4);
        row.handle.0 = u64::from(row.length) * DRAW_LIMIT + draw;
    }
}

/// A row's mark becomes any byte, and its length 0 where the second byte says so.
fn mark(rows: &mut [EscrowRow], at: usize, value: usize) {
    if let Some(row) = rows.get_mut(at % ROWS) {
        row.mark = value as u8;
        if value / 256 % 2 == 1 {
            row.length = 0;
        }
    }
}

fn set(bytes: &mut [u8], at: usize, value: usize) {
    let at = at % bytes.len().max(1);
    if let Some(byte) = bytes.get_mut(at) {
        *byte ^= value as u8;
    }
}

/// A lent buffer of another size, at most somewhat longer than its own.
fn resize(host: &mut Host, which: usize, size: usize) {
    match which % 6 {
        0 => host.log.resize_with(size % 130, Default::default),
        1 => host.escrow.resize_with(size % 130, Default::default),
        2 => host.heaps.resize(size % 5_000, 0),
        3 => host.shared.resize(size % 2_050, 0),
        4 => host.log_values.resize(size % 5_000, 0),
        _ => host.escrow_values.resize(size % 5_000, 0),
    }
}

/// The records, one after the other, and what is left once no record can be read.
fn calls(profile: Profile, mut sides: Sides, mut rest: &[u8]) {
    loop {
        let both = sides.call_both(rest);
        let both = both.unwrap_or_else(|message| panic!("{message}: {rest:02x?}"));
        if let Ok((call, used)) = read(rest) {
            writings(&call, &rest[..used]);
        }
        chain(&sides, rest, &both.full.0);
        handle(&sides, rest, &both.full.0);
        release(&sides, rest, &both.full.0);
        level_one(&sides, rest, &both);
        let (answer, left) = match profile {
            Profile::Full => both.full,
            Profile::LevelOne => both.level_one,
        };
        sides = left;
        if answer.code == 1 {
            missing(&sides, rest, answer.number as usize);
        }
        if answer.used == 0 {
            return;
        }
        rest = &rest[answer.used..];
    }
}

/// Level one's answer is the one that follows from what the box held.
fn level_one(sides: &Sides, record: &[u8], both: &Both) {
    let (full, code) = (both.full.0.code, both.level_one.0.code);
    if full == 15 {
        return assert_eq!(code, 15, "{record:02x?}");
    }
    let traced = Traced::of(&sides.second);
    let follows = LevelOne::default().add(&traced, record, Some(full), code);
    assert!(follows, "the full box {full}, level one {code}: {record:02x?}");
}

/// A chain's answer is the one that follows from what the tables hold.
fn chain(sides: &Sides, record: &[u8], answer: &Answer) {
    if answer.used == 0 || record[1] != 15 {
        return;
    }
    let held = Held::of(&sides.second);
    let second::BoxRecord { running, identities, .. } = sides.second.record;
    let runner = identities.get(usize::from(running)).copied().unwrap_or(0);
    let follows = Chains::default().add(&held, runner, record, answer.code, answer.number);
    assert!(follows, "{answer:?}: {record:02x?}");
}

/// A protect's handle is the one that follows from what the tables hold.
fn handle(sides: &Sides, record: &[u8], answer: &Answer) {
    if answer.code != 0 || record[1] != 11 {
        return;
    }
    let held = Held::of(&sides.second);
    let follows = Draws::default().add(&held, record, answer.code, answer.number);
    assert!(follows, "{answer:?}: {record:02x?}");
}

/// The answer to a release, a retrieve, a protect or a report is the one that follows
/// from what the tables hold.
fn release(sides: &Sides, record: &[u8], answer: &Answer) {
    if answer.used == 0 || !matches!(record[1], 11 | 12 | 13 | 16) {
        return;
    }
    let traced = Traced::of(&sides.second);
    let follows = Releases::default().add(&traced, record, answer.code, answer.number);
    assert!(follows, "{answer:?}: {record:02x?}");
}

/// One byte fewer than is missing leaves one missing. As many as are missing
/// finish the field: where 1 comes again it is for a later one, of which the next
/// byte leaves one fewer missing.
fn missing(sides: &Sides, record: &[u8], missing: usize) {
    let mut sides = sides.clone();
    let filler = record.last().copied().unwrap_or(1);
    let mut longer = record.to_vec();
    let mut call = |record: &[u8]| {
        let answer = sides.call(record);
        answer.unwrap_or_else(|message| panic!("{message}: {record:02x?}"))
    };
    longer.resize(record.len() + missing - 1, filler);
    let answer = call(&longer);
    assert_eq!((answer.code, answer.number), (1, 1), "{missing} missing: {record:02x?}");
    longer.push(filler);
    let answer = call(&longer);
    if answer.code == 1 && answer.number > 1 {
        longer.push(filler);
        let next = call(&longer);
        assert_eq!((next.code, next.number), (1, answer.number - 1), "{longer:02x?}");
    }
}

/// The writer gives the record that was read, and none in one byte fewer.
fn writings(call: &Call, record: &[u8]) {
    let (kind, fields, bytes) = call.parts();
    let second::Fields { place, identity, offset, length, number } = fields;
    let fields = Fields { place, identity, offset, length, number };
    let mut out = vec![0; record.len()];
    let written = write(kind.number(), fields, bytes, &mut out);
    assert_eq!((written.code, written.length), (0, record.len()), "{call:?}");
    assert_eq!(out, record);
    let mut short = vec![0xCC; record.len() - 1];
    let written = write(kind.number(), fields, bytes, &mut short);
    assert_eq!((written.code, written.length), (17, 0), "{call:?}");
    assert!(short.iter().all(|&byte| byte == 0xCC), "{call:?}");
}

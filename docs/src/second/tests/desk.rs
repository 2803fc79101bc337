//! The tank desk of document 02's P6, through the library's own doors.

use second::*;

/// The three numbers of an answer: code, action, the box's refusal.
type Numbers = (u8, u8, u8);

const HOLD: Numbers = (0, 1, 0);
const COOL: Numbers = (0, 2, 0);
const WARM: Numbers = (0, 3, 0);
const OUT: Numbers = (24, 0, 0);
/// The check said no.
const NO: Numbers = (25, 0, 0);
const ZERO_IDENTITY: Numbers = (25, 0, 9);
const UNSOUND: Numbers = (25, 0, 15);
const TOO_LARGE: Numbers = (26, 0, 0);

const PROBE: Identity = 0x0807_0605_0403_0201;
const OTHER_PROBE: Identity = PROBE + 1;

// Corrections, written out by hand.
const ZERO: [u8; 2] = [0x00, 0x00];
const ONE: [u8; 2] = [0x01, 0x00];
const MINUS_1: [u8; 2] = [0xFF, 0xFF];
const FIFTY: [u8; 2] = [0x32, 0x00];
const FIFTY_ONE: [u8; 2] = [0x33, 0x00];
const MINUS_50: [u8; 2] = [0xCE, 0xFF];
const MINUS_51: [u8; 2] = [0xCD, 0xFF];
const GREATEST: [u8; 2] = [0xFF, 0x7F];
const LEAST: [u8; 2] = [0x00, 0x80];

/// What stands in answers before they are written. The desk never gives it.
const UNWRITTEN: TankAnswer = TankAnswer::Refused(TankRefusal::NotLogged { box_code: 99 });

fn numbers(answer: TankAnswer) -> Numbers {
    (answer.code(), answer.action(), answer.refusal())
}

fn bare(reading: i32, setpoint: i32) -> Tank {
    Tank { reading, setpoint, correction: None }
}

/// A tank with the correction and the tag that the probe gets for it.
fn corrected(reading: i32, setpoint: i32, bytes: [u8; 2]) -> Tank {
    with_correction(reading, setpoint, PROBE, tag_of(PROBE, &bytes), bytes)
}

fn with_correction(reading: i32, setpoint: i32, probe: Identity, tag: Tag, bytes: [u8; 2]) -> Tank {
    Tank { reading, setpoint, correction: Some(Correction { probe, tag, bytes }) }
}

/// A host with its output buffer, which tests at each question that nothing of the
/// box and no lent buffer is altered.
struct Bench {
    host: Host,
    output: Vec<u8>,
}

impl Bench {
    /// The probe in place 3, running.
    fn fresh() -> Self {
        let mut bench = Bench { host: Host::fresh(), output: vec![0xEE; OUTPUT_SIZE] };
        bench.accept(Call::Create { place: 3, identity: PROBE });
        bench.accept(Call::HandOver { place: 3 });
        bench
    }

    /// The probe has logged these.
    fn logged(corrections: &[[u8; 2]]) -> Self {
        let mut bench = Bench::fresh();
        for bytes in corrections {
            assert_eq!(bench.attest(bytes), tag_of(PROBE, bytes));
        }
        bench
    }

    fn accept(&mut self, call: Call) -> u64 {
        let mut record = [0; 600];
        let written = write_call(&call, &mut record);
        assert_eq!(written.code, 0);
        let answer = self.host.call(&mut self.output, &record[..written.length]);
        assert_eq!(answer.code, 0, "{call:?}");
        answer.number
    }

    /// The running service logs these bytes.
    fn attest(&mut self, bytes: &[u8]) -> Tag {
        let place = self.host.record.running;
        self.accept(Call::HeapWrite { place, offset: 7, bytes });
        Tag(self.accept(Call::Attest { offset: 7, length: bytes.len() as u16 }))
    }

    fn ask(&mut self, tank: Tank) -> Numbers {
        let (mut host, output) = (self.host.clone(), self.output.clone());
        let mut tables = self.host.lend();
        let answer = desk(&mut tables, &mut self.output, &tank);
        assert!(tables == host.lend());
        assert!(self.output == output);
        numbers(answer)
    }

    /// Asks about a list, with so many answers lent for it.
    fn list(&mut self, tanks: &[Tank], lent: usize) -> (u8, Vec<TankAnswer>) {
        let (mut host, output) = (self.host.clone(), self.output.clone());
        let mut answers = vec![UNWRITTEN; lent];
        let mut tables = self.host.lend();
        let code = shift(&mut tables, &mut self.output, tanks, &mut answers);
        assert!(tables == host.lend());
        assert!(self.output == output);
        (code, answers)
    }

    /// An accepted list's answers, which are the desk's own, tank by tank.
    fn accepted_list(&mut self, tanks: &[Tank]) -> Vec<Numbers> {
        let (code, answers) = self.list(tanks, tanks.len());
        assert_eq!(code, 0);
        let answers: Vec<_> = answers.into_iter().map(numbers).collect();
        let alone: Vec<_> = tanks.iter().map(|tank| self.ask(*tank)).collect();
        assert_eq!(answers, alone);
        answers
    }

    /// A list that is empty or longer, with as many answers.
    fn refused_list(&mut self, tanks: &[Tank]) {
        assert_eq!(self.list(tanks, tanks.len()), (24, vec![UNWRITTEN; tanks.len()]));
    }

    /// A list with answers of another count.
    fn wrong_answers(&mut self, tanks: &[Tank], lent: usize) {
        assert_eq!(self.list(tanks, lent), (15, vec![UNWRITTEN; lent]));
    }
}

// What is decided.

#[test]
fn differences_without_a_correction() {
    let mut bench = Bench::fresh();
    let cases = [
        (0, HOLD),
        (1, HOLD),
        (-1, HOLD),
        (49, HOLD),
        (50, HOLD),
        (51, COOL),
        (-49, HOLD),
        (-50, HOLD),
        (-51, WARM),
        (300, COOL),
        (-300, WARM),
    ];
    for setpoint in [-200, -1, 0, 1, 25, 1_000, 2_700] {
        for (difference, wanted) in cases {
            assert_eq!(bench.ask(bare(setpoint + difference, setpoint)), wanted, "{difference}");
        }
    }
    assert_eq!(bench.ask(bare(3_000, -500)), COOL);
    assert_eq!(bench.ask(bare(-500, 3_000)), WARM);
}

/// The correction is added to the reading: a positive one cools sooner.
#[test]
fn differences_with_a_correction() {
    let corrections = [(ZERO, 0), (ONE, 1), (MINUS_1, -1), (FIFTY, 50), (MINUS_50, -50)];
    let mut bench = Bench::logged(&corrections.map(|(bytes, _)| bytes));
    for (bytes, value) in corrections {
        for setpoint in [-300, 0, 1_000] {
            for (difference, wanted) in [(50, HOLD), (51, COOL), (-50, HOLD), (-51, WARM)] {
                let reading = setpoint + difference - value;
                assert_eq!(bench.ask(corrected(reading, setpoint, bytes)), wanted, "{value}");
            }
        }
    }
    // Each alone would be held.
    assert_eq!(bench.ask(corrected(1_001, 1_000, FIFTY)), COOL);
    assert_eq!(bench.ask(corrected(999, 1_000, MINUS_50)), WARM);
    // Each alone would not.
    assert_eq!(bench.ask(corrected(1_100, 1_000, MINUS_50)), HOLD);
    assert_eq!(bench.ask(corrected(900, 1_000, FIFTY)), HOLD);
}

/// Every correction from -60 to 60, at the four boundaries. The log has room for 64.
#[test]
fn every_small_correction() {
    for first in [-60i16, 0] {
        let values = first..=first + 60;
        let logged: Vec<_> = values.clone().map(i16::to_le_bytes).collect();
        let mut bench = Bench::logged(&logged);
        for value in values {
            for (difference, decided) in [(50, HOLD), (51, COOL), (-50, HOLD), (-51, WARM)] {
                let wanted = if value.abs() > 50 { TOO_LARGE } else { decided };
                let reading = 1_000 + difference - i32::from(value);
                assert_eq!(bench.ask(corrected(reading, 1_000, value.to_le_bytes())), wanted);
            }
        }
    }
}

/// The bounds are the reading's own, not those of the corrected one.
#[test]
fn corrected_beyond_the_bounds_of_a_reading() {
    let mut bench = Bench::logged(&[FIFTY, MINUS_50]);
    assert_eq!(bench.ask(corrected(3_000, 3_000, FIFTY)), HOLD);
    assert_eq!(bench.ask(corrected(3_000, 2_999, FIFTY)), COOL);
    assert_eq!(bench.ask(corrected(-500, -500, MINUS_50)), HOLD);
    assert_eq!(bench.ask(corrected(-500, -499, MINUS_50)), WARM);
    assert_eq!(bench.ask(corrected(3_000, -500, FIFTY)), COOL);
    assert_eq!(bench.ask(corrected(-500, 3_000, MINUS_50)), WARM);
    // Nor is a reading beyond them brought back by its correction.
    assert_eq!(bench.ask(corrected(3_001, 3_000, MINUS_50)), OUT);
    assert_eq!(bench.ask(corrected(-501, -500, FIFTY)), OUT);
}

// What is refused.

#[test]
fn readings_and_setpoints() {
    let mut bench = Bench::logged(&[ZERO]);
    let within = [-500, -499, 0, 2_999, 3_000];
    let outside = [-501, 3_001, -3_000, 65_536, -65_536, i32::MIN, i32::MIN + 1, i32::MAX];
    for good in within {
        for tank in [bare(good, good), corrected(good, good, ZERO)] {
            assert_eq!(bench.ask(tank), HOLD, "{good}");
        }
        for bad in outside {
            for (reading, setpoint) in [(bad, good), (good, bad), (bad, bad)] {
                assert_eq!(bench.ask(bare(reading, setpoint)), OUT);
                assert_eq!(bench.ask(corrected(reading, setpoint, ZERO)), OUT);
            }
        }
    }
    for (reading, setpoint) in [(i32::MIN, i32::MAX), (i32::MAX, i32::MIN)] {
        assert_eq!(bench.ask(bare(reading, setpoint)), OUT);
    }
}

#[test]
fn corrections() {
    let cases = [
        (ZERO, HOLD),
        (ONE, HOLD),
        (MINUS_1, HOLD),
        (FIFTY, HOLD),
        (MINUS_50, HOLD),
        (FIFTY_ONE, TOO_LARGE),
        (MINUS_51, TOO_LARGE),
        (GREATEST, TOO_LARGE),
        (LEAST, TOO_LARGE),
        // 128 and 255, -256 and 256: each byte by itself could be small.
        ([0x80, 0x00], TOO_LARGE),
        ([0xFF, 0x00], TOO_LARGE),
        ([0x00, 0xFF], TOO_LARGE),
        ([0x00, 0x01], TOO_LARGE),
    ];
    let mut bench = Bench::logged(&cases.map(|(bytes, _)| bytes));
    for (bytes, wanted) in cases {
        assert_eq!(bench.ask(corrected(1_000, 1_000, bytes)), wanted, "{bytes:?}");
    }
}

#[test]
fn each_of_probe_tag_and_bytes_must_be_right() {
    let bytes = [0x12, 0x00];
    let mut bench = Bench::logged(&[bytes, ONE]);
    let tag = tag_of(PROBE, &bytes);
    assert_eq!(bench.ask(with_correction(0, 0, PROBE, tag, bytes)), HOLD);
    let swapped = [0x00, 0x12];
    let wrong = [
        (OTHER_PROBE, tag, bytes),
        (OTHER_PROBE, tag_of(OTHER_PROBE, &bytes), bytes),
        (PROBE.swap_bytes(), tag, bytes),
        (PROBE, Tag(tag.0 ^ 1), bytes),
        (PROBE, Tag(tag.0 ^ 1 << 63), bytes),
        (PROBE, Tag(tag.0.swap_bytes()), bytes),
        (PROBE, Tag(0), bytes),
        (PROBE, tag_of(PROBE, &ONE), bytes),
        (PROBE, tag, ONE),
        (PROBE, tag, [0x13, 0x00]),
        (PROBE, tag, [0x12, 0x01]),
        (PROBE, tag, swapped),
        (PROBE, tag_of(PROBE, &swapped), swapped),
    ];
    for (probe, tag, bytes) in wrong {
        assert_eq!(bench.ask(with_correction(0, 0, probe, tag, bytes)), NO, "{bytes:?}");
    }
}

/// The right tag is no proof: the bytes are in the heap, shared, escrowed, logged by
/// another or as a part of another value, but not logged.
#[test]
fn what_is_not_logged_does_not_count() {
    let mut bench = Bench::fresh();
    let tank = corrected(0, 0, ONE);
    assert_eq!(bench.ask(tank), NO);
    bench.accept(Call::HeapWrite { place: 3, offset: 0, bytes: &ONE });
    bench.accept(Call::SharedWrite { offset: 0, bytes: &ONE });
    bench.accept(Call::Protect { identity: PROBE, offset: 0, length: 2, draw: Draw(0) });
    assert_eq!(bench.ask(tank), NO);
    for value in [&[0x01][..], &[0x01, 0x00, 0x00], &[0x00, 0x01, 0x00], &[]] {
        bench.attest(value);
        assert_eq!(bench.ask(tank), NO, "{value:?}");
    }
    bench.accept(Call::Create { place: 0, identity: OTHER_PROBE });
    bench.accept(Call::HandOver { place: 0 });
    bench.attest(&ONE);
    assert_eq!(bench.ask(tank), NO);
    bench.accept(Call::HandOver { place: 3 });
    bench.attest(&ONE);
    assert_eq!(bench.ask(tank), HOLD);
}

/// A log of 64 rows is searched to its end.
#[test]
fn the_last_of_64_rows() {
    let corrections: Vec<_> = (0..64).map(|low| [low, 0x00]).collect();
    let mut bench = Bench::logged(&corrections);
    for (value, bytes) in corrections.into_iter().enumerate() {
        let wanted = if value > 50 { TOO_LARGE } else { HOLD };
        assert_eq!(bench.ask(corrected(0, 0, bytes)), wanted);
    }
    assert_eq!(bench.ask(corrected(0, 0, [64, 0x00])), NO);
}

/// Whoever runs, and after the probe's exit.
#[test]
fn any_service_may_run() {
    let mut bench = Bench::logged(&[FIFTY]);
    bench.accept(Call::Create { place: 0, identity: OTHER_PROBE });
    for place in [3, 0, 16] {
        bench.accept(Call::HandOver { place });
        assert_eq!(bench.ask(corrected(1, 0, FIFTY)), COOL);
        assert_eq!(bench.ask(corrected(1, 0, MINUS_50)), NO);
    }
    bench.accept(Call::HandOver { place: 3 });
    bench.accept(Call::Exit);
    assert_eq!(bench.ask(corrected(1, 0, FIFTY)), COOL);
}

/// The box refuses to check for identity 0, whatever the tag and the bytes.
#[test]
fn identity_0() {
    let mut bench = Bench::logged(&[ONE]);
    for bytes in [ZERO, ONE, FIFTY_ONE] {
        for tag in [Tag(0), tag_of(0, &bytes), tag_of(PROBE, &bytes)] {
            assert_eq!(bench.ask(with_correction(0, 0, 0, tag, bytes)), ZERO_IDENTITY);
        }
    }
}

/// A box that the box itself refuses: 25 with 15 for a correction, even a logged one
/// or one of identity 0. Without one the box isn't asked.
fn refused_by_the_box(mut bench: Bench) {
    assert_eq!(bench.ask(corrected(0, 0, ONE)), UNSOUND);
    assert_eq!(bench.ask(corrected(0, 0, FIFTY_ONE)), UNSOUND);
    assert_eq!(bench.ask(with_correction(0, 0, 0, Tag(0), ONE)), UNSOUND);
    assert_eq!(bench.ask(corrected(3_001, 0, ONE)), OUT);
    assert_eq!(bench.ask(bare(51, 0)), COOL);
    let tanks = [corrected(0, 0, ONE), bare(-51, 0), bare(0, -501)];
    assert_eq!(bench.accepted_list(&tanks), [UNSOUND, WARM, OUT]);
}

#[test]
fn output_of_another_size() {
    for size in [0, 1, 22, 1_023, 1_025, 4_096] {
        let mut bench = Bench::logged(&[ONE, FIFTY_ONE]);
        bench.output.resize(size, 0xEE);
        refused_by_the_box(bench);
    }
}

#[test]
fn tables_of_another_size() {
    fn wrong<T: Clone + Default>(buffer: fn(&mut Host) -> &mut Vec<T>) {
        let size = buffer(&mut Host::fresh()).len();
        for other in [0, size - 1, size + 1] {
            let mut bench = Bench::logged(&[ONE, FIFTY_ONE]);
            buffer(&mut bench.host).resize(other, T::default());
            refused_by_the_box(bench);
        }
    }
    wrong(|host| &mut host.heaps);
    wrong(|host| &mut host.shared);
    wrong(|host| &mut host.log);
    wrong(|host| &mut host.log_values);
    wrong(|host| &mut host.escrow);
    wrong(|host| &mut host.escrow_values);
}

#[test]
fn unsound_boxes() {
    let changes: [fn(&mut Host); 8] = [
        |host| host.record.running = 17,
        |host| host.record.identities[3] = 0,
        |host| host.record.log_rows = 65,
        |host| host.record.escrow_bytes = 1,
        |host| host.heaps[0] = 1,
        |host| host.log[1].tag.0 ^= 1,
        |host| host.log_values[4_095] = 1,
        |host| host.escrow[63].handle = Handle(1),
    ];
    for change in changes {
        let mut bench = Bench::logged(&[ONE, FIFTY_ONE]);
        assert_eq!(bench.ask(corrected(0, 0, ONE)), HOLD);
        change(&mut bench.host);
        refused_by_the_box(bench);
    }
}

/// 24, then 25, then 26: each alone and all that come together.
#[test]
fn order_of_the_refusals() {
    let mut bench = Bench::logged(&[ONE, FIFTY_ONE]);
    let tank = |out: bool, not_logged: bool, too_large: bool| {
        let bytes = if too_large { FIFTY_ONE } else { ONE };
        let tag = tag_of(PROBE, &bytes);
        let tag = if not_logged { Tag(tag.0 + 1) } else { tag };
        with_correction(if out { 3_001 } else { 0 }, 0, PROBE, tag, bytes)
    };
    let cases = [
        (tank(false, false, false), HOLD),
        (tank(false, false, true), TOO_LARGE),
        (tank(false, true, false), NO),
        (tank(false, true, true), NO),
        (tank(true, false, false), OUT),
        (tank(true, false, true), OUT),
        (tank(true, true, false), OUT),
        (tank(true, true, true), OUT),
    ];
    for (tank, wanted) in cases {
        assert_eq!(bench.ask(tank), wanted, "{tank:?}");
    }
    // A box's own refusal comes before 26 too, and after 24.
    let tag = tag_of(0, &FIFTY_ONE);
    assert_eq!(bench.ask(with_correction(0, 0, 0, tag, FIFTY_ONE)), ZERO_IDENTITY);
    assert_eq!(bench.ask(with_correction(0, -501, 0, tag, FIFTY_ONE)), OUT);
    bench.output.pop();
    assert_eq!(bench.ask(with_correction(0, 0, 0, tag, FIFTY_ONE)), UNSOUND);
    assert_eq!(bench.ask(with_correction(0, -501, 0, tag, FIFTY_ONE)), OUT);
}

// The shift list.

/// One tank for each answer that a sound box brings about, two for a hold.
fn all_answers() -> [(Tank, Numbers); 8] {
    [
        (bare(51, 0), COOL),
        (corrected(49, 0, ONE), HOLD),
        (corrected(50, 0, FIFTY_ONE), TOO_LARGE),
        (bare(-51, 0), WARM),
        (corrected(50, 0, FIFTY), NO),
        (bare(0, 3_001), OUT),
        (with_correction(0, 0, 0, Tag(0), ONE), ZERO_IDENTITY),
        (bare(50, 0), HOLD),
    ]
}

/// Lists of 0 to 20 tanks, as many answers lent.
#[test]
fn lists_of_every_length() {
    let mut bench = Bench::logged(&[ONE, FIFTY_ONE]);
    let (tanks, wanted): (Vec<_>, Vec<_>) = all_answers().into_iter().cycle().take(20).unzip();
    for length in 0..=20 {
        if (1..=8).contains(&length) {
            assert_eq!(bench.accepted_list(&tanks[..length]), wanted[..length]);
        } else {
            bench.refused_list(&tanks[..length]);
        }
    }
    assert_eq!(SHIFT_MAX, 8);
}

/// In order, wherever the list begins and whichever way it runs.
#[test]
fn lists_in_order() {
    let mut bench = Bench::logged(&[ONE, FIFTY_ONE]);
    let mut cases = all_answers();
    for _ in 0..8 {
        cases.rotate_left(1);
        assert_eq!(bench.accepted_list(&cases.map(|case| case.0)), cases.map(|case| case.1));
    }
    cases.reverse();
    assert_eq!(bench.accepted_list(&cases.map(|case| case.0)), cases.map(|case| case.1));
}

/// A bad tank is answered itself, and those about it as ever.
#[test]
fn one_bad_tank_among_good_ones() {
    let mut bench = Bench::logged(&[ONE, FIFTY_ONE]);
    for (bad, refused) in all_answers().into_iter().filter(|(_, wanted)| wanted.0 != 0) {
        for length in 1..=8 {
            for index in 0..length {
                let mut tanks = vec![corrected(50, 0, ONE); length];
                let mut wanted = vec![COOL; length];
                (tanks[index], wanted[index]) = (bad, refused);
                assert_eq!(bench.accepted_list(&tanks), wanted);
            }
        }
    }
}

/// One tank more than once is answered more than once.
#[test]
fn one_tank_eight_times() {
    let mut bench = Bench::logged(&[FIFTY]);
    assert_eq!(bench.accepted_list(&[corrected(1, 0, FIFTY); 8]), [COOL; 8]);
}

/// Of empty and of longer lists too: 15 comes before 24.
#[test]
fn answers_of_another_count() {
    let mut bench = Bench::logged(&[ONE]);
    for count in 0..=10 {
        let tanks = vec![corrected(50, 0, ONE); count];
        for lent in (0..=10).filter(|&lent| lent != count) {
            bench.wrong_answers(&tanks, lent);
        }
    }
}

/// A list is refused whole before the box is asked.
#[test]
fn lists_over_an_unsound_box() {
    let mut bench = Bench::logged(&[ONE]);
    bench.host.record.running = 17;
    let tank = corrected(50, 0, ONE);
    bench.refused_list(&[]);
    bench.refused_list(&[tank; 9]);
    bench.wrong_answers(&[tank; 8], 7);
    bench.wrong_answers(&[tank; 9], 8);
    assert_eq!(bench.accepted_list(&[tank; 8]), [UNSOUND; 8]);
}

// Random tanks, against the request read a second time.

struct Random(u64);

impl Random {
    fn below(&mut self, limit: u64) -> u64 {
        self.0 ^= self.0 << 13;
        self.0 ^= self.0 >> 7;
        self.0 ^= self.0 << 17;
        (self.0 >> 11) % limit
    }

    fn one_of<T: Copy>(&mut self, choices: &[T]) -> T {
        choices[self.below(choices.len() as u64) as usize]
    }

    fn near(&mut self, centre: i32, reach: u64) -> i32 {
        centre - reach as i32 + self.below(2 * reach + 1) as i32
    }

    fn tank(&mut self, logged: &[[u8; 2]]) -> Tank {
        let setpoint = self.one_of(&[-500, 0, 1_000, 3_000]);
        let setpoint = self.near(setpoint, 3);
        let reading = self.near(setpoint, 110);
        if self.below(8) == 0 {
            return bare(reading, setpoint);
        }
        let bytes = self.one_of(logged);
        let mut claimed = bytes;
        if self.below(8) == 0 {
            claimed[self.below(2) as usize] ^= 1 << self.below(8);
        }
        let probe = self.one_of(&[PROBE, PROBE, PROBE, PROBE, PROBE, OTHER_PROBE, 0]);
        with_correction(reading, setpoint, probe, tag_of(PROBE, &bytes), claimed)
    }
}

/// What the request wants, from the values that the probe logged.
fn wanted(logged: &[[u8; 2]], tank: &Tank) -> Numbers {
    let mut sum = i64::from(tank.reading);
    let out = |value: i32| !(-500..=3_000).contains(&value);
    if out(tank.reading) || out(tank.setpoint) {
        return OUT;
    }
    if let Some(Correction { probe, tag, bytes }) = tank.correction {
        let is_there = logged.iter().any(|value| *value == bytes && tag_of(PROBE, value) == tag);
        match probe {
            0 => return ZERO_IDENTITY,
            PROBE if is_there => sum += i64::from(i16::from_le_bytes(bytes)),
            _ => return NO,
        }
        if (sum - i64::from(tank.reading)).abs() > 50 {
            return TOO_LARGE;
        }
    }
    match sum - i64::from(tank.setpoint) {
        51.. => COOL,
        -50..=50 => HOLD,
        _ => WARM,
    }
}

/// Every answer of a sound box is met.
#[test]
fn random_lists() {
    let mut random = Random(0x9E37_79B9_7F4A_7C15);
    let logged: Vec<_> = (0..60).map(|n| (2 * n - 59i16).to_le_bytes()).collect();
    let mut bench = Bench::logged(&logged);
    let mut met = Vec::new();
    for _ in 0..300 {
        let count = 1 + random.below(8);
        let tanks: Vec<_> = (0..count).map(|_| random.tank(&logged)).collect();
        let answers = bench.accepted_list(&tanks);
        for (tank, answer) in tanks.iter().zip(answers) {
            assert_eq!(answer, wanted(&logged, tank), "{tank:?}");
            met.push(answer);
        }
    }
    met.sort_unstable();
    met.dedup();
    assert_eq!(met, [HOLD, COOL, WARM, OUT, NO, ZERO_IDENTITY, TOO_LARGE]);
}

//! The tank desk, over a box in which a program logs its corrections.

use interface::{Buffer, Host, Tally, Tank, TankAnswer};

/// FNV-1a of identity 5 and the corrections 7 and 51, and of identity 6 and 7, which
/// nobody logs.
const TAG_5_7: u64 = 17_199_577_631_704_119_871;
const TAG_5_51: u64 = 17_180_446_129_377_032_971;
const TAG_6_7: u64 = 4_074_679_888_414_084_644;

/// Code, action, the box's refusal.
type Answer = (u8, u8, u8);
const HOLD: Answer = (0, 1, 0);
const COOL: Answer = (0, 2, 0);
const WARM: Answer = (0, 3, 0);
const OUT_OF_RANGE: Answer = (24, 0, 0);
const CHECK_SAID_NO: Answer = (25, 0, 0);
const IDENTITY_ZERO: Answer = (25, 0, 9);
const NOT_SOUND: Answer = (25, 0, 15);
const TOO_LARGE: Answer = (26, 0, 0);

const fn bare(reading: i32, setpoint: i32) -> Tank {
    Tank { reading, setpoint, probe: 5, tag: TAG_5_51, given: 0, correction: [51, 0] }
}

const fn seven(reading: i32, setpoint: i32) -> Tank {
    Tank { reading, setpoint, probe: 5, tag: TAG_5_7, given: 1, correction: [7, 0] }
}

const LARGE: Tank = Tank { tag: TAG_5_51, correction: [51, 0], ..seven(0, 0) };

/// A tank and its answer, in the order in which a list of all of them is asked about.
const TANKS: [(Tank, Answer); 8] = [
    (bare(1_850, 1_800), HOLD),
    (seven(1_844, 1_800), COOL),
    (Tank { probe: 6, ..seven(0, 0) }, CHECK_SAID_NO),
    (bare(1_749, 1_800), WARM),
    (Tank { probe: 0, ..seven(0, 0) }, IDENTITY_ZERO),
    (seven(1_743, 1_800), HOLD),
    (LARGE, TOO_LARGE),
    (bare(3_001, 1_800), OUT_OF_RANGE),
];

/// Others that are asked about alone: bounds, and two refusals at once.
const ALONE: [(Tank, Answer); 12] = [
    (bare(1_851, 1_800), COOL),
    (bare(1_750, 1_800), HOLD),
    (seven(1_843, 1_800), HOLD),
    (seven(1_742, 1_800), WARM),
    (bare(-500, 3_000), WARM),
    (bare(0, -501), OUT_OF_RANGE),
    (Tank { reading: i32::MAX, setpoint: i32::MIN, ..LARGE }, OUT_OF_RANGE),
    (Tank { reading: -501, probe: 0, ..LARGE }, OUT_OF_RANGE),
    (Tank { probe: 6, ..LARGE }, CHECK_SAID_NO),
    (Tank { probe: 6, tag: TAG_6_7, ..seven(0, 0) }, CHECK_SAID_NO),
    (Tank { correction: [0, 7], ..seven(0, 0) }, CHECK_SAID_NO),
    (Tank { given: 255, ..seven(1_844, 1_800) }, COOL),
];

pub fn check(tally: &mut Tally) {
    let mut host = probes(tally);
    for (tank, answer) in TANKS.into_iter().chain(ALONE) {
        asked(tally, &mut host, tank, answer);
    }
    lists(tally, &mut host);
    not_sound(tally, &host);
}

/// Identity 5, in place 2, logs 7 and 51.
fn probes(tally: &mut Tally) -> Host {
    let mut host = Host::fresh();
    host.output().fill(0xEE);
    let records: [(&[u8], u64); 5] = [
        (&[0x07, 0x01, 2, 5, 0, 0, 0, 0, 0, 0, 0], 2),
        (&[0x03, 0x0E, 2], 0),
        (&[0x4B, 0x05, 2, 0, 0, 4, 0, 7, 0, 51, 0], 4),
        (&[0x19, 0x09, 0, 0, 2, 0], TAG_5_7),
        (&[0x19, 0x09, 2, 0, 2, 0], TAG_5_51),
    ];
    for (record, number) in records {
        let reply = host.call(record);
        let answer = (reply.code, reply.number);
        tally.check(answer == (0, number), || format!("desk, {record:02x?}: {answer:?}"));
    }
    host
}

fn numbers(answer: &TankAnswer) -> Answer {
    (answer.code, answer.action, answer.refusal)
}

/// The tank has this answer, and nothing is altered.
fn asked(tally: &mut Tally, host: &mut Host, tank: Tank, wanted: Answer) {
    let before = host.clone();
    let answer = numbers(&host.desk(tank));
    tally.check(answer == wanted, || format!("{tank:?}: {answer:?}"));
    tally.check(*host == before, || format!("{tank:?}: the box or a buffer"));
}

/// A list of so many tanks, with so many answers: each its own, or 15 or 24 and none
/// written.
fn lists(tally: &mut Tally, host: &mut Host) {
    let unwritten = TankAnswer { code: 99, action: 99, refusal: 99 };
    let all: Vec<_> = TANKS.into_iter().chain(ALONE).collect();
    let before = host.clone();
    for (count, lent) in (0..=9).flat_map(|count| (0..=9).map(move |lent| (count, lent))) {
        let tanks: Vec<_> = all[..count].iter().map(|(tank, _)| *tank).collect();
        let code = match count {
            _ if lent != count => 15,
            1..=8 => 0,
            _ => 24,
        };
        let mut answers = vec![unwritten; lent];
        let is = host.shift(&tanks, &mut answers);
        let each = answers.iter().enumerate().all(|(n, answer)| match code {
            0 => numbers(answer) == all[n].1,
            _ => *answer == unwritten,
        });
        let what = || format!("a list of {count}, {lent} answers: {is}, {answers:?}");
        tally.check(is == code && each, what);
        tally.check(*host == before, || format!("{}: the box or a buffer", what()));
    }
}

/// 25 with 15 where a correction is given; a tank without one is decided all the same.
fn not_sound(tally: &mut Tally, sound: &Host) {
    let mut damaged = sound.clone();
    damaged.log()[1].tag += 1;
    let mut boxes = vec![damaged];
    let sizes = [(Buffer::Log, 64), (Buffer::Escrow, 64), (Buffer::Heaps, 4_096)];
    let more = [(Buffer::Shared, 1_024), (Buffer::LogValues, 4_096), (Buffer::EscrowValues, 4_096)];
    for (buffer, size) in sizes.into_iter().chain(more).chain([(Buffer::Output, 1_024)]) {
        for wrong in [0, size - 1, size + 1] {
            boxes.push(sound.clone());
            boxes.last_mut().expect("there is one").resize(buffer, wrong);
        }
    }
    for host in &mut boxes {
        for (tank, answer) in TANKS.into_iter().chain(ALONE) {
            let depends_on_the_box = tank.given != 0 && answer != OUT_OF_RANGE;
            asked(tally, host, tank, if depends_on_the_box { NOT_SOUND } else { answer });
        }
    }
}

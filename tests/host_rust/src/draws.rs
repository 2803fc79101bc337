//! Protects with draws that are in use. The draws are what a C library's drand48 goes
//! through, written by hand.

use interface::{write, EscrowRow, Fields, Host, Tally};

/// From srand48(0), from the draws of exam cases A to D, and from one of the highest
/// bit alone.
const DRAWS: [[u64; 5]; 4] = [
    [13_070, 48_083_817_484_545, 211_078_642_492_280, 27_126_209_522_211, 245_014_179_504_882],
    [7, 176_504_327_430, 33_146_457_173_913, 240_610_503_670_320, 160_153_793_685_115],
    [
        281_474_976_710_655,
        281_449_761_806_750,
        76_003_201_113_169,
        59_440_590_197_896,
        275_208_562_306_547,
    ],
    [
        140_737_488_355_328,
        140_737_488_355_339,
        141_014_852_298_426,
        152_455_573_559_613,
        190_457_972_051_204,
    ],
];

pub fn check(tally: &mut Tally) {
    for draws in &DRAWS {
        for length in [0, 5, 256] {
            again(tally, length, draws);
            free_in_the_middle(tally, length, draws);
        }
        lengths_apart(tally, draws);
    }
    exam(tally);
}

/// Identity 1 runs in place 0, with a heap of zeros.
fn running() -> Host {
    let mut host = Host::fresh();
    host.call(&[0x07, 0x01, 0, 1, 0, 0, 0, 0, 0, 0, 0]);
    host.call(&[0x03, 0x0E, 0]);
    host
}

/// With this draw the handle is given, and a row is all that is altered.
fn given(tally: &mut Tally, host: &mut Host, length: u16, draw: u64, handle: u64) {
    let mut record = [0; 22];
    let fields = Fields { identity: 1, length, number: draw, ..Fields::default() };
    write(11, fields, &[], &mut record);
    let mut wanted = host.clone();
    let used = wanted.held.escrow;
    wanted.escrow()[usize::from(used.rows)] =
        EscrowRow { source: 1, recipient: 1, handle, first: used.bytes, length, mark: 0 };
    wanted.held.escrow.rows += 1;
    wanted.held.escrow.bytes += length;
    let reply = host.call(&record);
    let what = || format!("{length} bytes with draw {draw}");
    tally.check(reply.code == 0, || format!("{}: code {}", what(), reply.code));
    tally.check(reply.number == handle, || format!("{}: number {}", what(), reply.number));
    tally.check(*host == wanted, || format!("{}: the box or a buffer", what()));
}

fn handle(length: u16, draw: u64) -> u64 {
    (u64::from(length) << 48) + draw
}

/// The same draw again and again.
fn again(tally: &mut Tally, length: u16, draws: &[u64; 5]) {
    let mut host = running();
    for draw in draws {
        given(tally, &mut host, length, draws[0], handle(length, *draw));
    }
}

/// The third draw is free between others in use, and not passed over. Nor are the
/// first, and the number beside it.
fn free_in_the_middle(tally: &mut Tally, length: u16, draws: &[u64; 5]) {
    let mut host = running();
    for n in [3, 1, 0] {
        given(tally, &mut host, length, draws[n], handle(length, draws[n]));
    }
    let beside = (draws[0] + 1) % (1 << 48);
    given(tally, &mut host, length, beside, handle(length, beside));
    given(tally, &mut host, length, draws[0], handle(length, draws[2]));
    given(tally, &mut host, length, draws[1], handle(length, draws[4]));
}

/// A draw in use under another length is free.
fn lengths_apart(tally: &mut Tally, draws: &[u64; 5]) {
    let mut host = running();
    for draw in &draws[..2] {
        for length in [0, 1, 2, 255, 256] {
            given(tally, &mut host, length, draws[0], handle(length, *draw));
        }
    }
}

/// Exam cases A to D.
fn exam(tally: &mut Tally) {
    let mut host = running();
    given(tally, &mut host, 5, 7, 1_407_374_883_553_287);
    given(tally, &mut host, 5, 7, 1_407_551_387_880_710);
    given(tally, &mut host, 0, 281_474_976_710_655, 281_474_976_710_655);
    given(tally, &mut host, 0, 281_474_976_710_655, 281_449_761_806_750);
}

//! The entry to which the box record is lent: a call that moves the record leaves the
//! new state in it, a refusal leaves every byte of it, and one box may go from entry to
//! entry.

use interface::{Answer, Buffer, EscrowRow, Host, LogRow, Tally, Used};

/// FNV-1a of 01 00 00 00 00 00 00 00 41.
const TAG: u64 = 5_952_190_651_599_004_191;
/// The handle of length 1 and draw 7.
const HANDLE: u64 = 281_474_976_710_663;

const CREATE: &[u8] = &[0x07, 0x01, 0, 1, 0, 0, 0, 0, 0, 0, 0];
const CREATE_9: &[u8] = &[0x07, 0x01, 9, 2, 0, 0, 0, 0, 0, 0, 0];
const HAND_OVER: &[u8] = &[0x03, 0x0E, 0];
const YIELD: &[u8] = &[0x03, 0x0E, 16];
const EXIT: &[u8] = &[0x01, 0x04];
const HEAP_WRITE: &[u8] = &[0x4B, 0x05, 0, 0, 0, 1, 0, 0x41];
const HEAP_READ: &[u8] = &[0x1B, 0x06, 0, 0, 0, 1, 0];
const ATTEST: &[u8] = &[0x19, 0x09, 0, 0, 1, 0];
const PROTECT: &[u8] = &[0x3D, 0x0B, 1, 0, 0, 0, 0, 0, 0, 0, 0, 0, 1, 0, 7, 0, 0, 0, 0, 0, 0, 0];
const RELEASE: &[u8] = &[0x25, 0x10, 1, 0, 0, 0, 0, 0, 0, 0, 7, 0, 0, 0, 0, 0, 1, 0];
const REPORT: &[u8] = &[0x01, 0x0D];

pub fn check(tally: &mut Tally) {
    moves(tally);
    refusals(tally);
    not_sound(tally);
    in_turn(tally);
}

/// A record, the number and the count shown that it is accepted with, and what it
/// alters. All of it is used.
struct Step(&'static [u8], u64, u16, fn(&mut Host));

/// Each kind that moves the record, and some that do not.
#[rustfmt::skip]
const STEPS: [Step; 12] = [
    Step(CREATE, 0, 0, |host| { host.held.taken = 1; host.held.identities[0] = 1; }),
    Step(CREATE_9, 9, 0, |host| { host.held.taken = 0x201; host.held.identities[9] = 2; }),
    Step(HAND_OVER, 0, 0, |host| host.held.running = 0),
    Step(HEAP_WRITE, 1, 0, |host| host.heaps()[0] = 0x41),
    Step(HEAP_READ, 1, 1, |host| host.output()[0] = 0x41),
    Step(ATTEST, TAG, 0, |host| {
        host.held.log = Used { rows: 1, bytes: 1 };
        host.log()[0] = LogRow { identity: 1, tag: TAG, first: 0, length: 1 };
        host.log_values()[0] = 0x41;
    }),
    Step(PROTECT, HANDLE, 0, |host| {
        host.held.escrow = Used { rows: 1, bytes: 1 };
        host.escrow()[0] =
            EscrowRow { source: 1, recipient: 1, handle: HANDLE, first: 0, length: 1, mark: 0 };
        host.escrow_values()[0] = 0x41;
    }),
    Step(RELEASE, 0, 0, |host| {
        host.held.escrow = Used { rows: 1, bytes: 0 };
        host.escrow()[0] =
            EscrowRow { source: 1, recipient: 1, handle: HANDLE, first: 0, length: 0, mark: 1 };
        host.escrow_values()[0] = 0;
    }),
    Step(YIELD, 0, 0, |host| host.held.running = 16),
    Step(REPORT, 65_794, 0, |_| ()),
    Step(HAND_OVER, 0, 0, |host| host.held.running = 0),
    Step(EXIT, 0, 0, |host| {
        host.held.taken = 0x200;
        host.held.running = 16;
        host.held.identities[0] = 0;
        host.heaps()[0] = 0;
    }),
];

/// The host's own record is lent, and a guarded copy of it.
fn moves(tally: &mut Tally) {
    let mut host = Host::fresh();
    for (n, &Step(record, number, shown, alters)) in STEPS.iter().enumerate() {
        let right = Answer { code: 0, number, used: record.len(), shown };
        let (mut wanted, mut guarded) = (host.clone(), host.clone());
        alters(&mut wanted);
        let answers = (host.call_lent(record), guarded.call_lent_guarded(record));
        tally.check(answers == (right, Ok(right)), || format!("move {n}: {answers:?}"));
        tally.check(host == wanted, || format!("move {n}: {:?}", host.held));
        tally.check(guarded == wanted, || format!("move {n}, guarded: {:?}", guarded.held));
    }
}

/// Place 0 runs, whose identity is 1 and whose heap begins with 63; its rows fill log
/// and escrow.
fn full() -> Host {
    let mut host = Host::fresh();
    let mut accepted = |record: &[u8]| assert_eq!(host.call(record).code, 0, "{record:02x?}");
    accepted(CREATE);
    accepted(HAND_OVER);
    for n in 0..64 {
        accepted(&[&HEAP_WRITE[..7], &[n]].concat());
        accepted(ATTEST);
        accepted(PROTECT);
    }
    host
}

/// The call is refused so, twice, and alters nothing.
fn refused(tally: &mut Tally, host: &Host, record: &[u8], (code, number): (u8, u64)) {
    let used = if [1, 2, 3, 15].contains(&code) { 0 } else { record.len() };
    let right = Answer { code, number, used, shown: 0 };
    let mut left = host.clone();
    let answers = (left.call_lent(record), left.call_lent_guarded(record));
    let what = || format!("lent, {record:02x?}, {code}: {answers:?}");
    tally.check(answers == (right, Ok(right)), what);
    tally.check(left == *host, || format!("{}: something was altered", what()));
}

/// Every number of the full box but 15, and those of a chain.
fn refusals(tally: &mut Tally) {
    let running = full();
    let mut stopped = running.clone();
    stopped.held.running = 16;
    refused(tally, &stopped, EXIT, (4, 0));
    refused(tally, &stopped, ATTEST, (4, 0));
    let refusals: [(&[u8], u8, u64); 14] = [
        (&[], 1, 1),
        (&CREATE[..5], 1, 6),
        (&[0x02], 2, 0),
        (&[0x01, 0x11], 2, 0),
        (&[0x03, 0x0D, 0], 3, 0),
        (&[0x03, 0x0E, 17], 6, 0),
        (&[0x03, 0x0E, 1], 7, 0),
        (&[0x4B, 0x05, 1, 0, 0, 1, 0, 0x41], 8, 0),
        (&[0x07, 0x01, 1, 0, 0, 0, 0, 0, 0, 0, 0], 9, 0),
        (&[0x25, 0x10, 2, 0, 0, 0, 0, 0, 0, 0, 7, 0, 0, 0, 0, 0, 1, 0], 10, 0),
        (&[0x19, 0x09, 0, 1, 1, 0], 11, 0),
        (&[0x3D, 0x0B, 1, 0, 0, 0, 0, 0, 0, 0, 0, 0, 1, 0, 0, 0, 0, 0, 0, 0, 1, 0], 12, 0),
        (&[0x19, 0x09, 0, 0, 2, 0], 13, 0),
        (PROTECT, 14, 0),
    ];
    for (record, code, number) in refusals {
        refused(tally, &running, record, (code, number));
    }
}

/// 15, by the size of each buffer and by what is held, whatever the record.
fn not_sound(tally: &mut Tally) {
    let sound = full();
    let sizes = [(Buffer::Log, 64), (Buffer::Escrow, 64), (Buffer::Heaps, 4_096)];
    let more = [(Buffer::Shared, 1_024), (Buffer::LogValues, 4_096), (Buffer::EscrowValues, 4_096)];
    let mut boxes = Vec::new();
    for (buffer, size) in sizes.into_iter().chain(more).chain([(Buffer::Output, 1_024)]) {
        for wrong in [0, size - 1, size + 1] {
            let mut host = sound.clone();
            host.resize(buffer, wrong);
            boxes.push(host);
        }
    }
    let damages: [fn(&mut Host); 6] = [
        |host| host.held.running = 1,
        |host| host.held.taken = 3,
        |host| host.held.identities[15] = 1,
        |host| host.held.log.rows = 65,
        |host| host.held.escrow.bytes -= 1,
        |host| host.log()[63].tag += 1,
    ];
    for damage in damages {
        let mut host = sound.clone();
        damage(&mut host);
        boxes.push(host);
    }
    for host in &boxes {
        for record in [REPORT, EXIT, YIELD, RELEASE, &[], &[0x02]] {
            refused(tally, host, record, (15, 0));
        }
    }
}

/// Each record through each of the three entries, which take turns on one box: it is as
/// if all had gone through the entry by value.
fn in_turn(tally: &mut Tally) {
    let records = [CREATE, HAND_OVER, HEAP_WRITE, ATTEST, HEAP_READ, YIELD, EXIT, HAND_OVER, EXIT];
    for first in 0..3 {
        let (mut host, mut wanted) = (Host::fresh(), Host::fresh());
        for (n, record) in records.into_iter().chain([&[][..], &[0x02]]).enumerate() {
            let answer = match (first + n) % 3 {
                0 => host.call(record).into(),
                1 => host.call_lent(record),
                _ => host.call_level_one(record).into(),
            };
            let same = answer == Answer::from(wanted.call(record)) && host == wanted;
            tally.check(same, || format!("in turn, {first}, record {n}: {answer:?}"));
        }
    }
}

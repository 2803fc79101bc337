//! The level-one entry beside the full one, on the same boxes: 21, 22 and 23, each
//! with its neighbours in the order, and the full box's answers and states
//! everywhere else.

use interface::{Buffer, EscrowRow, Host, LogRow, Profile, Tally, Used};

/// FNV-1a of identity and value.
const TAG_1_A: u64 = 5_952_190_651_599_004_191;
const TAG_1_B: u64 = 5_952_191_751_110_632_402;
const TAG_2_A: u64 = 925_889_899_717_361_906;
const TAG_2_B: u64 = 925_888_800_205_733_695;
/// The handles of length 1 and draws 7 and 9.
const HANDLE_7: u64 = 281_474_976_710_663;
const HANDLE_9: u64 = 281_474_976_710_665;

const PROTECT: &[u8] = &[0x3D, 0x0B, 1, 0, 0, 0, 0, 0, 0, 0, 0, 0, 1, 0, 9, 0, 0, 0, 0, 0, 0, 0];
const PROTECT_FOR_0: &[u8] =
    &[0x3D, 0x0B, 0, 0, 0, 0, 0, 0, 0, 0, 0, 0, 1, 0, 9, 0, 0, 0, 0, 0, 0, 0];
const PROTECT_BEYOND: &[u8] =
    &[0x3D, 0x0B, 1, 0, 0, 0, 0, 0, 0, 0, 0, 1, 1, 0, 9, 0, 0, 0, 0, 0, 0, 0];
const PROTECT_BAD_DRAW: &[u8] =
    &[0x3D, 0x0B, 1, 0, 0, 0, 0, 0, 0, 0, 0, 0, 1, 0, 0, 0, 0, 0, 0, 0, 1, 0];
const RETRIEVE: &[u8] = &[0x2D, 0x0C, 2, 0, 0, 0, 0, 0, 0, 0, 4, 0, 7, 0, 0, 0, 0, 0, 1, 0];
const RETRIEVE_FROM_0: &[u8] = &[0x2D, 0x0C, 0, 0, 0, 0, 0, 0, 0, 0, 4, 0, 7, 0, 0, 0, 0, 0, 1, 0];
const RETRIEVE_NO_ROW: &[u8] = &[0x2D, 0x0C, 2, 0, 0, 0, 0, 0, 0, 0, 4, 0, 8, 0, 0, 0, 0, 0, 1, 0];
const CHAIN: &[u8] = &[0x67, 0x0F, 3, 2, 0, 0, 0, 0, 0, 0, 0, 7, 0, 0, 0, 0, 0, 1, 0, 0, 0];
const CHAIN_NO_ROW: &[u8] = &[0x67, 0x0F, 3, 2, 0, 0, 0, 0, 0, 0, 0, 8, 0, 0, 0, 0, 0, 1, 0, 0, 0];
const CHAIN_BY_1: &[u8] = &[0x67, 0x0F, 1, 2, 0, 0, 0, 0, 0, 0, 0, 7, 0, 0, 0, 0, 0, 1, 0, 0, 0];
const RELEASE: &[u8] = &[0x25, 0x10, 2, 0, 0, 0, 0, 0, 0, 0, 7, 0, 0, 0, 0, 0, 1, 0];
const RELEASE_FROM_0: &[u8] = &[0x25, 0x10, 0, 0, 0, 0, 0, 0, 0, 0, 7, 0, 0, 0, 0, 0, 1, 0];
const RELEASE_NO_ROW: &[u8] = &[0x25, 0x10, 2, 0, 0, 0, 0, 0, 0, 0, 8, 0, 0, 0, 0, 0, 1, 0];
const ATTEST_A: &[u8] = &[0x19, 0x09, 0, 0, 1, 0];
const ATTEST_B: &[u8] = &[0x19, 0x09, 2, 0, 1, 0];
const ATTEST_BEYOND: &[u8] = &[0x19, 0x09, 0, 1, 1, 0];
const REPORT: &[u8] = &[0x01, 0x0D];

pub fn check(tally: &mut Tally) {
    escrow(tally);
    creates(tally);
    hand_overs(tally);
    values(tally);
    full_log(tally);
    not_sound(tally);
    reader(tally);
}

/// A record, its codes through the level-one entry and the full one, and where
/// the code is 0 the number and what is altered. Nothing is shown.
struct Step(&'static [u8], (u8, u8), u64, fn(&mut Host));

/// The call through each entry on a copy of the box; with one of them it goes on.
fn called(tally: &mut Tally, what: &str, host: &mut Host, step: &Step) {
    let Step(record, (level_one, full), number, alters) = *step;
    let mut left = host.clone();
    for (profile, code) in [(Profile::Full, full), (Profile::LevelOne, level_one)] {
        let (mut wanted, number) = (host.clone(), if code == 0 { number } else { 0 });
        if code == 0 {
            alters(&mut wanted);
        }
        left = host.clone();
        let reply = left.call_under(profile, record);
        let answer = (reply.code, reply.number, reply.used, reply.shown);
        let what = || format!("{what}, {profile:?}, {record:02x?}: {answer:?}");
        tally.check(answer == (code, number, record.len(), 0), what);
        tally.check(left == wanted, || format!("{}: the box or a buffer", what()));
    }
    *host = left;
}

fn all_called(tally: &mut Tally, what: &str, host: &mut Host, steps: &[Step]) {
    steps.iter().for_each(|step| called(tally, what, host, step));
}

/// Identities 1, 2 and 3 in places 0, 1 and 5, "AAB" at the front of the heaps of
/// 0 and 1. A value of identity 2's for 1 ends a chain.
fn services(running: u8) -> Host {
    let mut host = Host::fresh();
    host.output().fill(0xEE);
    host.held.taken = 0b10_0011;
    host.held.identities[..6].copy_from_slice(&[1, 2, 0, 0, 0, 3]);
    host.held.running = running;
    host.heaps()[..3].copy_from_slice(b"AAB");
    host.heaps()[256..259].copy_from_slice(b"AAB");
    host.held.escrow = Used { rows: 1, bytes: 1 };
    host.escrow()[0] =
        EscrowRow { source: 2, recipient: 1, handle: HANDLE_7, first: 0, length: 1, mark: 0 };
    host.escrow_values()[0] = 1;
    host
}

/// A row of one byte.
fn logs(host: &mut Host, identity: u64, tag: u64, byte: u8) {
    let Used { rows, bytes } = host.held.log;
    host.log()[usize::from(rows)] = LogRow { identity, tag, first: bytes, length: 1 };
    host.log_values()[usize::from(bytes)] = byte;
    host.held.log = Used { rows: rows + 1, bytes: bytes + 1 };
}

fn takes(host: &mut Host, place: u8) {
    host.held.taken |= 1 << place;
    host.held.identities[usize::from(place)] = 4;
}

fn nothing(_: &mut Host) {}

/// The only value is released.
fn spends(host: &mut Host) {
    host.held.escrow = Used { rows: 1, bytes: 0 };
    host.escrow()[0] =
        EscrowRow { source: 2, recipient: 1, handle: HANDLE_7, first: 0, length: 0, mark: 1 };
    host.escrow_values()[0] = 0;
}

/// 21 before 4 and every number behind it.
fn escrow(tally: &mut Tally) {
    let mut idle = services(16);
    let escrowed = [PROTECT, PROTECT_FOR_0, PROTECT_BAD_DRAW, RETRIEVE, CHAIN, CHAIN_BY_1];
    for record in escrowed.into_iter().chain([RELEASE, RELEASE_FROM_0]) {
        called(tally, "none runs", &mut idle, &Step(record, (21, 4), 0, nothing));
    }
    let protected = |host: &mut Host| {
        host.held.escrow = Used { rows: 2, bytes: 2 };
        host.escrow()[1] =
            EscrowRow { source: 1, recipient: 1, handle: HANDLE_9, first: 1, length: 1, mark: 0 };
        host.escrow_values()[1] = b'A';
    };
    let steps = [
        Step(PROTECT, (21, 0), HANDLE_9, protected),
        Step(PROTECT_FOR_0, (21, 9), 0, nothing),
        Step(PROTECT_BEYOND, (21, 11), 0, nothing),
        Step(PROTECT_BAD_DRAW, (21, 12), 0, nothing),
        Step(RETRIEVE, (21, 0), 1, |host| host.heaps()[4] = 1),
        Step(RETRIEVE_FROM_0, (21, 9), 0, nothing),
        Step(RETRIEVE_NO_ROW, (21, 10), 0, nothing),
        Step(CHAIN, (21, 0), 1, nothing),
        Step(CHAIN_NO_ROW, (21, 18), 0, nothing),
        Step(CHAIN_BY_1, (21, 19), 0, nothing),
        Step(RELEASE, (21, 0), 0, spends),
        Step(RELEASE_FROM_0, (21, 9), 0, nothing),
        Step(RELEASE_NO_ROW, (21, 10), 0, nothing),
        Step(REPORT, (0, 0), 3 + 65_536, nothing),
    ];
    all_called(tally, "one runs", &mut services(0), &steps);
    let mut spent = services(0);
    spends(&mut spent);
    let steps = [
        Step(RELEASE, (21, 10), 0, nothing),
        Step(RETRIEVE, (21, 10), 0, nothing),
        Step(CHAIN, (21, 18), 0, nothing),
        Step(REPORT, (0, 0), 3 + 65_536, nothing),
    ];
    all_called(tally, "a spent row", &mut spent, &steps);
}

/// 22 after 6, before 7 and 9.
fn creates(tally: &mut Tally) {
    let steps = [
        Step(b"\x07\x01\x04\x04\0\0\0\0\0\0\0", (22, 0), 4, |host| takes(host, 4)),
        Step(b"\x07\x01\x04\0\0\0\0\0\0\0\0", (22, 9), 0, nothing),
        Step(b"\x07\x01\x05\x04\0\0\0\0\0\0\0", (22, 7), 0, nothing),
        Step(b"\x07\x01\x0F\x04\0\0\0\0\0\0\0", (22, 0), 15, |host| takes(host, 15)),
        Step(b"\x07\x01\x10\x04\0\0\0\0\0\0\0", (6, 6), 0, nothing),
        Step(b"\x07\x01\0\x04\0\0\0\0\0\0\0", (7, 7), 0, nothing),
        Step(b"\x07\x01\x03\0\0\0\0\0\0\0\0", (9, 9), 0, nothing),
        Step(b"\x07\x01\x03\x04\0\0\0\0\0\0\0", (0, 0), 3, |host| takes(host, 3)),
        Step(b"\x07\x01\x03\x04\0\0\0\0\0\0\0", (7, 7), 0, nothing),
    ];
    for running in [16, 0, 5] {
        all_called(tally, "creates", &mut services(running), &steps);
    }
}

/// 22 after 6, before 7, to the running place too. 16 only yields.
fn hand_overs(tally: &mut Tally) {
    for running in [16, 0, 5] {
        let steps = [
            Step(&[0x03, 0x0E, 4], (22, 7), 0, nothing),
            Step(&[0x03, 0x0E, 5], (22, 0), 0, |host| host.held.running = 5),
            Step(&[0x03, 0x0E, 15], (22, 7), 0, nothing),
            Step(&[0x03, 0x0E, 17], (6, 6), 0, nothing),
            Step(&[0x03, 0x0E, 255], (6, 6), 0, nothing),
            Step(&[0x03, 0x0E, 2], (7, 7), 0, nothing),
            Step(&[0x03, 0x0E, 16], (0, 0), 0, |host| host.held.running = 16),
            Step(&[0x03, 0x0E, 1], (0, 0), 0, |host| host.held.running = 1),
        ];
        all_called(tally, "hand overs", &mut services(running), &steps);
    }
}

/// 23 after 4 and 11; the same tag again; another identity's rows do not count.
fn values(tally: &mut Tally) {
    let mut host = services(0);
    logs(&mut host, 2, TAG_2_B, b'B');
    let steps = [
        Step(ATTEST_A, (0, 0), TAG_1_A, |host| logs(host, 1, TAG_1_A, b'A')),
        Step(ATTEST_A, (0, 0), TAG_1_A, nothing),
        Step(&[0x19, 0x09, 1, 0, 1, 0], (0, 0), TAG_1_A, nothing),
        Step(ATTEST_B, (23, 0), TAG_1_B, |host| logs(host, 1, TAG_1_B, b'B')),
        Step(ATTEST_BEYOND, (11, 11), 0, nothing),
        Step(&[0x03, 0x0E, 1], (0, 0), 0, |host| host.held.running = 1),
        Step(ATTEST_B, (0, 0), TAG_2_B, nothing),
        Step(ATTEST_A, (23, 0), TAG_2_A, |host| logs(host, 2, TAG_2_A, b'A')),
        Step(&[0x03, 0x0E, 16], (0, 0), 0, |host| host.held.running = 16),
        Step(ATTEST_A, (4, 4), 0, nothing),
    ];
    all_called(tally, "attests", &mut host, &steps);
    let both = [(TAG_1_A, b'A'), (TAG_1_B, b'B')];
    for [first, second] in [both, [both[1], both[0]]] {
        let mut host = services(0);
        logs(&mut host, 1, first.0, first.1);
        logs(&mut host, 1, second.0, second.1);
        let steps = [
            Step(ATTEST_A, (23, 0), TAG_1_A, nothing),
            Step(ATTEST_B, (23, 0), TAG_1_B, nothing),
            Step(ATTEST_BEYOND, (11, 11), 0, nothing),
        ];
        all_called(tally, "both values logged", &mut host, &steps);
    }
}

/// 23 before 13. The log is filled by place 1's service through the full entry,
/// where `own` has a row first, last or not at all.
fn full_log(tally: &mut Tally) {
    for own in [Some(0), Some(63), None] {
        let mut host = services(1);
        for n in 0..64 {
            if own == Some(n) {
                logs(&mut host, 1, TAG_1_A, b'A');
            } else {
                host.heaps()[256] = n;
                let code = host.call(ATTEST_A).code;
                tally.check(code == 0, || format!("row {n} of the log: {code}"));
            }
        }
        host.held.running = 0;
        let (again, other) = if own.is_some() { ((0, 0), (23, 13)) } else { ((13, 13), (13, 13)) };
        called(tally, "a full log", &mut host, &Step(ATTEST_A, again, TAG_1_A, nothing));
        called(tally, "a full log", &mut host, &Step(ATTEST_B, other, 0, nothing));
    }
}

/// Both entries answer this, with no bytes used and nothing altered.
fn refused(tally: &mut Tally, what: &str, host: &Host, record: &[u8], wanted: (u8, u64)) {
    for profile in [Profile::Full, Profile::LevelOne] {
        let mut left = host.clone();
        let reply = left.call_under(profile, record);
        let answer = (reply.code, reply.number, reply.used, reply.shown);
        let right = answer == (wanted.0, wanted.1, 0, 0) && left == *host;
        tally.check(right, || format!("{what}, {profile:?}, {record:02x?}: {answer:?}"));
    }
}

const CREATE_4: &[u8] = &[0x07, 0x01, 4, 4, 0, 0, 0, 0, 0, 0, 0];
const HAND_OVER_5: &[u8] = &[0x03, 0x0E, 5];
/// Level one gives these 21, 22 and 23 where "A" is logged by identity 1, which
/// runs.
const OWN_NUMBERS: [&[u8]; 7] =
    [PROTECT, RETRIEVE, CHAIN, RELEASE, CREATE_4, HAND_OVER_5, ATTEST_B];

/// 15 before all.
fn not_sound(tally: &mut Tally) {
    let mut sound = services(0);
    logs(&mut sound, 1, TAG_1_A, b'A');
    let mut damaged = sound.clone();
    damaged.log()[0].tag += 1;
    let mut boxes = vec![damaged];
    let sizes = [(Buffer::Log, 64), (Buffer::Escrow, 64), (Buffer::Heaps, 4_096)];
    let more = [(Buffer::Shared, 1_024), (Buffer::LogValues, 4_096), (Buffer::EscrowValues, 4_096)];
    for (buffer, size) in sizes.into_iter().chain(more).chain([(Buffer::Output, 1_024)]) {
        for wrong in [0, size - 1, size + 1] {
            boxes.push(sound.clone());
            boxes.last_mut().expect("there is one").resize(buffer, wrong);
        }
    }
    for host in &boxes {
        for record in OWN_NUMBERS.into_iter().chain([&[][..], &[0x02]]) {
            refused(tally, "not sound, or a wrong size", host, record, (15, 0));
        }
    }
    for (record, code) in OWN_NUMBERS.into_iter().zip([21, 21, 21, 21, 22, 22, 23]) {
        let reply = sound.clone().call_level_one(record);
        tally.check(reply.code == code, || format!("{record:02x?}: {}", reply.code));
    }
}

/// The reader's numbers before 21, 22 and 23.
fn reader(tally: &mut Tally) {
    let host = services(16);
    for record in OWN_NUMBERS {
        refused(tally, "no record", &host, &record[..0], (1, 1));
        refused(tally, "a map alone", &host, &record[..1], (1, 1));
        refused(tally, "cut by a byte", &host, &record[..record.len() - 1], (1, 1));
        let (mut map, mut kind) = (record.to_vec(), record.to_vec());
        map[0] ^= 0x80;
        refused(tally, "another map", &host, &map, (3, 0));
        kind[1] = 17;
        refused(tally, "kind 17", &host, &kind, (2, 0));
    }
    for (end, missing) in [(2, 8), (3, 7), (10, 2), (13, 1), (14, 8), (21, 1)] {
        refused(tally, "protect cut", &host, &PROTECT[..end], (1, missing));
    }
}

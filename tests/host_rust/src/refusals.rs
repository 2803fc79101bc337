//! Refusals through the header, with the box record by value and lent. Each alters
//! nothing. A cut record gets how many bytes finish the field being read, every other
//! refusal number 0.

use interface::{write, Answer, Buffer, Fields, Host, Tally, Written};

use crate::calls::after_example;

const REPORT: &[u8] = &[0x01, 0x0D];

pub fn check(tally: &mut Tally) {
    sizes(tally);
    damaged(tally);
    records(tally);
    cut_records(tally);
    cut_contents(tally);
    finished(tally);
    writer(tally);
}

/// The call has this code, which isn't 1, number 0, so many bytes used and none
/// shown.
fn refused(tally: &mut Tally, what: &str, host: &mut Host, record: &[u8], wanted: (u8, usize)) {
    answered(tally, what, host, record, (wanted.0, 0, wanted.1));
}

/// The call has code 1, so many bytes missing, none used and none shown.
fn cut(tally: &mut Tally, what: &str, host: &mut Host, record: &[u8], missing: u64) {
    answered(tally, what, host, record, (1, missing, 0));
}

/// The call has this code, number and count of bytes used, shows nothing and
/// alters nothing.
fn answered(
    tally: &mut Tally,
    what: &str,
    host: &mut Host,
    record: &[u8],
    (code, number, used): (u8, u64, usize),
) {
    let before = host.clone();
    let lent = host.call_lent_guarded(record);
    let right = lent == Ok(Answer { code, number, used, shown: 0 }) && *host == before;
    tally.check(right, || format!("{what}, lent: {lent:?}, or something was altered"));
    let reply = host.call(record);
    tally.check(reply.code == code, || format!("{what}: code {}", reply.code));
    tally.check(reply.number == number, || format!("{what}: number {}", reply.number));
    tally.check(reply.used == used, || format!("{what}: used {}", reply.used));
    tally.check(reply.shown == 0, || format!("{what}: shown {}", reply.shown));
    tally.check(*host == before, || format!("{what}: something was altered"));
}

fn sizes(tally: &mut Tally) {
    let buffers = [
        (Buffer::Log, 64),
        (Buffer::Escrow, 64),
        (Buffer::Heaps, 4_096),
        (Buffer::Shared, 1_024),
        (Buffer::LogValues, 4_096),
        (Buffer::EscrowValues, 4_096),
        (Buffer::Output, 1_024),
    ];
    for (buffer, size) in buffers {
        for wrong in [0, size - 1, size + 1] {
            let mut host = after_example();
            host.resize(buffer, wrong);
            refused(tally, &format!("{buffer:?} of {wrong}"), &mut host, REPORT, (15, 0));
        }
    }
}

fn damaged(tally: &mut Tally) {
    let mut host = after_example();
    host.held.running = 3;
    refused(tally, "an empty place runs", &mut host, REPORT, (15, 0));
    let mut host = after_example();
    host.escrow()[0].handle += 1 << 48;
    refused(tally, "a handle of another length", &mut host, REPORT, (15, 0));
    for mark in 1..=255 {
        let mut host = after_example();
        host.escrow()[0].mark = mark;
        refused(tally, "a value's row with a mark", &mut host, REPORT, (15, 0));
        let mut host = after_example();
        host.escrow()[1].mark = mark;
        refused(tally, "an unused row with a mark", &mut host, REPORT, (15, 0));
    }
    let mut host = after_example();
    host.log_values()[4_095] = 1;
    refused(tally, "an unused value byte", &mut host, &[], (15, 0));
}

fn records(tally: &mut Tally) {
    let mut host = after_example();
    refused(tally, "no kind", &mut host, &[0x02], (2, 0));
    refused(tally, "kind 17", &mut host, &[0x01, 0x11], (2, 0));
    refused(tally, "kind 17 with a release's map", &mut host, &[0x25, 0x11, 2], (2, 0));
    refused(tally, "kind 2, retired", &mut host, &[0x03, 0x02, 0], (2, 0));
    refused(tally, "kind 2, retired, cut", &mut host, &[0x03, 0x02], (2, 0));
    refused(tally, "kind 3, retired", &mut host, &[0x01, 0x03], (2, 0));
    refused(tally, "another map", &mut host, &[0x03, 0x0D, 0], (3, 0));
    refused(tally, "hand over with another map", &mut host, &[0x01, 0x0E], (3, 0));
    refused(tally, "chain with check's map", &mut host, &[0x65, 0x0F, 2], (3, 0));
    refused(tally, "release with a chain's map", &mut host, &[0x67, 0x10, 2], (3, 0));
    refused(tally, "release with retrieve's map", &mut host, &[0x2D, 0x10], (3, 0));
    refused(tally, "a cut record with another map", &mut host, &[0x4B, 0x07, 0], (3, 0));
    refused(tally, "a cut record of kind 0", &mut host, &[0x07, 0], (2, 0));
    refused(tally, "exit while none runs", &mut host, &[0x01, 0x04, 0xFF], (4, 2));
    let chain = [&[0x67, 0x0F][..], &[0; 19], &[0xFF]].concat();
    refused(tally, "chain while none runs", &mut host, &chain, (4, 21));
    let release = [&[0x25, 0x10][..], &[0; 16], &[0xFF]].concat();
    refused(tally, "release while none runs", &mut host, &release, (4, 18));
    refused(tally, "hand over to 17", &mut host, &[0x03, 0x0E, 17], (6, 3));
    refused(tally, "hand over to an empty place", &mut host, &[0x03, 0x0E, 1], (7, 3));
}

/// What each record misses, cut at every byte from no byte of it on.
fn cut_records(tally: &mut Tally) {
    let create = b"\x07\x01\x03\x09\xFF\xFF\xFF\xFF\xFF\xFF\xFF";
    let hand_over = b"\x03\x0E\x00";
    let heap_read = b"\x1B\x06\x00\x00\x00\xFF\xFF";
    let shared_write = b"\x49\x07\x00\x00\x04\x00abcd";
    let check = b"\x65\x0A\x01\0\0\0\0\0\0\0\x1F\xA2\xF5\x8F\xDC\x6D\x9A\x52\x01\x00A";
    let protect = b"\x3D\x0B\x01\0\0\0\0\0\0\0\x00\x00\x01\x00\x07\0\0\0\0\0\0\0";
    let chain = b"\x67\x0F\x02\x01\0\0\0\0\0\0\0\x1F\xA2\xF5\x8F\xDC\x6D\x9A\x52\x03\x00\x01\x00A";
    let release = b"\x25\x10\x01\0\0\0\0\0\0\0\x07\0\0\0\0\0\x01\0";
    let records: [(&str, &[u8], &[u64]); 9] = [
        ("create", create, &[1, 1, 1, 8, 7, 6, 5, 4, 3, 2, 1]),
        ("hand over", hand_over, &[1, 1, 1]),
        ("report", REPORT, &[1, 1]),
        ("heap read", heap_read, &[1, 1, 1, 2, 1, 2, 1]),
        ("shared write", shared_write, &[1, 1, 2, 1, 2, 1, 4, 3, 2, 1]),
        ("check", check, &[1, 1, 8, 7, 6, 5, 4, 3, 2, 1, 8, 7, 6, 5, 4, 3, 2, 1, 2, 1, 1]),
        ("chain", chain, &[1, 1, 1, 8, 7, 6, 5, 4, 3, 2, 1, 8, 7, 6, 5, 4, 3, 2, 1, 2, 1, 3, 2, 1]),
        ("release", release, &[1, 1, 8, 7, 6, 5, 4, 3, 2, 1, 8, 7, 6, 5, 4, 3, 2, 1]),
        ("protect", protect, &[1, 1, 8, 7, 6, 5, 4, 3, 2, 1, 2, 1, 2, 1, 8, 7, 6, 5, 4, 3, 2, 1]),
    ];
    for (name, record, missing) in records {
        tally.check(missing.len() == record.len(), || format!("{name}: as many as its bytes"));
        let mut host = after_example();
        for (end, missing) in missing.iter().enumerate() {
            cut(tally, &format!("{name} cut at {end}"), &mut host, &record[..end], *missing);
        }
    }
}

/// A heap write of many bytes. Its count is read before its contents.
fn cut_contents(tally: &mut Tally) {
    let mut host = after_example();
    let cuts: [(u16, usize, u64); 8] = [
        (1, 0, 1),
        (256, 0, 256),
        (256, 1, 255),
        (256, 255, 1),
        (257, 1, 256),
        (65_535, 0, 65_535),
        (65_535, 255, 65_280),
        (65_535, 65_534, 1),
    ];
    for (count, there, missing) in cuts {
        let mut record = vec![0x4B, 0x05, 0, 0, 0];
        record.extend(count.to_le_bytes());
        record.resize(7 + there, 0xFF);
        cut(tally, &format!("{there} of {count} bytes"), &mut host, &record, missing);
    }
}

/// Two bytes are missing: one leaves one missing, two finish the field, whatever
/// they are.
fn finished(tally: &mut Tally) {
    let mut host = after_example();
    let offset = [0x1B, 0x06, 0];
    for byte in [0x00, 0x01, 0xFF] {
        cut(tally, "an offset", &mut host, &offset, 2);
        let one = [&offset[..], &[byte]].concat();
        cut(tally, "an offset's second byte", &mut host, &one, 1);
        let two = [&offset[..], &[byte; 2]].concat();
        cut(tally, "a length behind an offset", &mut host, &two, 2);
        let whole = [&offset[..], &[byte; 4]].concat();
        refused(tally, "a heap read while none runs", &mut host, &whole, (4, 7));
    }
}

fn writer(tally: &mut Tally) {
    let mut refused = |what: &str, kind: u8, bytes: &[u8], size: usize, code: u8| {
        let mut out = vec![0xCC; size];
        let written = write(kind, Fields::default(), bytes, &mut out);
        tally.check(written == Written { code, length: 0 }, || format!("{what}: {written:?}"));
        tally.check(out == vec![0xCC; size], || format!("{what}: the buffer was altered"));
    };
    refused("a create in 10 bytes", 1, &[], 10, 17);
    refused("a report in no bytes", 13, &[], 0, 17);
    refused("65,536 bytes", 5, &[1; 65_536], 70_000, 17);
    refused("a hand over in 2 bytes", 14, &[], 2, 17);
    refused("kind 0", 0, &[], 64, 2);
    refused("kind 2, retired", 2, &[], 64, 2);
    refused("kind 3, retired, in no bytes", 3, &[], 0, 2);
    refused("kind 17 in no bytes", 17, &[], 0, 2);
    refused("a release in 17 bytes", 16, &[], 17, 17);
    refused("a chain in 20 bytes", 15, &[], 20, 17);
    refused("a chain with 65,536 bytes", 15, &[1; 65_536], 70_000, 17);
}

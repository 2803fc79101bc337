//! The example paper, then every other kind of call, then hand overs of each
//! sort, then chains, then releases, each with the box record by value and lent.

use interface::{fresh, write, Answer, BoxRecord, EscrowRow, Fields, Host, LogRow, Tally, Used};

/// The handle of length 1 and draw 7.
const HANDLE: u64 = 281_474_976_710_663;
/// FNV-1a of 01 00 00 00 00 00 00 00 41.
const TAG: u64 = 5_952_190_651_599_004_191;

/// FNV-1a of 03 00 00 00 00 00 00 00 01.
const END_TAG: u64 = 8_750_169_272_185_725_317;
/// The handles of length 17 and draws 9 and 10.
const LINK: u64 = 4_785_074_604_081_161;
const OWN: u64 = 4_785_074_604_081_162;
/// The handle of length 17 and the draw after 9, which is 226,934,135,264.
const AFTER_LINK: u64 = 4_785_301_538_216_416;
/// The first names the end that identity 3 logged, the second its own handle.
const LINK_VALUE: [u8; 17] =
    [2, 3, 0, 0, 0, 0, 0, 0, 0, 0x85, 0x21, 0x2B, 0xB9, 0x97, 0xD8, 0x6E, 0x79];
const OWN_VALUE: [u8; 17] = [3, 3, 0, 0, 0, 0, 0, 0, 0, 0x0A, 0, 0, 0, 0, 0, 0x11, 0];

/// What the output buffer holds before the first call.
pub const BEFORE: u8 = 0xEE;

/// A call: how it is written, its record, its answer, and what it alters.
struct Step {
    kind: u8,
    fields: Fields,
    bytes: &'static [u8],
    record: &'static [u8],
    /// Code, number and count shown. All of the record is used.
    answer: (u8, u64, u16),
    alters: fn(&mut Host),
}

const NO_FIELDS: Fields = Fields { place: 0, identity: 0, offset: 0, length: 0, number: 0 };

/// Document 01's input by hand overs, record by record.
#[rustfmt::skip]
const EXAMPLE: [Step; 7] = [
    Step {
        kind: 1, fields: Fields { identity: 1, ..NO_FIELDS }, bytes: &[],
        record: &[0x07, 0x01, 0, 1, 0, 0, 0, 0, 0, 0, 0], answer: (0, 0, 0),
        alters: |host| { host.held.taken = 1; host.held.identities[0] = 1; },
    },
    Step {
        kind: 14, fields: NO_FIELDS, bytes: &[],
        record: &[0x03, 0x0E, 0], answer: (0, 0, 0),
        alters: |host| host.held.running = 0,
    },
    Step {
        kind: 5, fields: NO_FIELDS, bytes: &[0x41],
        record: &[0x4B, 0x05, 0, 0, 0, 1, 0, 0x41], answer: (0, 1, 0),
        alters: |host| host.heaps()[0] = 0x41,
    },
    Step {
        kind: 11, fields: Fields { identity: 1, length: 1, number: 7, ..NO_FIELDS }, bytes: &[],
        record: &[0x3D, 0x0B, 1, 0, 0, 0, 0, 0, 0, 0, 0, 0, 1, 0, 7, 0, 0, 0, 0, 0, 0, 0],
        answer: (0, HANDLE, 0),
        alters: |host| {
            host.held.escrow = Used { rows: 1, bytes: 1 };
            host.escrow()[0] =
                EscrowRow { source: 1, recipient: 1, handle: HANDLE, first: 0, length: 1, mark: 0 };
            host.escrow_values()[0] = 0x41;
        },
    },
    Step {
        kind: 13, fields: NO_FIELDS, bytes: &[],
        record: &[0x01, 0x0D], answer: (0, 65_537, 0), alters: |_| (),
    },
    Step {
        kind: 14, fields: Fields { place: 16, ..NO_FIELDS }, bytes: &[],
        record: &[0x03, 0x0E, 0x10], answer: (0, 0, 0),
        alters: |host| host.held.running = 16,
    },
    Step {
        kind: 4, fields: NO_FIELDS, bytes: &[],
        record: &[0x01, 0x04], answer: (4, 0, 0), alters: |_| (),
    },
];

#[rustfmt::skip]
const OTHER_KINDS: [Step; 9] = [
    Step {
        kind: 14, fields: NO_FIELDS, bytes: &[],
        record: &[0x03, 0x0E, 0], answer: (0, 0, 0),
        alters: |host| host.held.running = 0,
    },
    Step {
        kind: 9, fields: Fields { length: 1, ..NO_FIELDS }, bytes: &[],
        record: &[0x19, 0x09, 0, 0, 1, 0], answer: (0, TAG, 0),
        alters: |host| {
            host.held.log = Used { rows: 1, bytes: 1 };
            host.log()[0] = LogRow { identity: 1, tag: TAG, first: 0, length: 1 };
            host.log_values()[0] = 0x41;
        },
    },
    Step {
        kind: 10, fields: Fields { identity: 1, number: TAG, ..NO_FIELDS }, bytes: &[0x41],
        record: &[
            0x65, 0x0A, 1, 0, 0, 0, 0, 0, 0, 0,
            0x1F, 0xA2, 0xF5, 0x8F, 0xDC, 0x6D, 0x9A, 0x52, 1, 0, 0x41,
        ],
        answer: (0, 1, 0), alters: |_| (),
    },
    Step {
        kind: 12, fields: Fields { identity: 1, offset: 255, number: HANDLE, ..NO_FIELDS },
        bytes: &[],
        record: &[0x2D, 0x0C, 1, 0, 0, 0, 0, 0, 0, 0, 0xFF, 0, 7, 0, 0, 0, 0, 0, 1, 0],
        answer: (0, 1, 0),
        alters: |host| host.heaps()[255] = 0x41,
    },
    Step {
        kind: 6, fields: Fields { offset: 254, length: 2, ..NO_FIELDS }, bytes: &[],
        record: &[0x1B, 0x06, 0, 0xFE, 0, 2, 0], answer: (0, 2, 2),
        alters: |host| host.output()[..2].copy_from_slice(&[0, 0x41]),
    },
    Step {
        kind: 7, fields: Fields { offset: 1_023, ..NO_FIELDS }, bytes: &[0x42],
        record: &[0x49, 0x07, 0xFF, 3, 1, 0, 0x42], answer: (0, 1, 0),
        alters: |host| host.shared()[1_023] = 0x42,
    },
    Step {
        kind: 8, fields: Fields { offset: 1_022, length: 2, ..NO_FIELDS }, bytes: &[],
        record: &[0x19, 0x08, 0xFE, 3, 2, 0], answer: (0, 2, 2),
        alters: |host| host.output()[..2].copy_from_slice(&[0, 0x42]),
    },
    Step {
        kind: 13, fields: NO_FIELDS, bytes: &[],
        record: &[0x01, 0x0D], answer: (0, 65_793, 0), alters: |_| (),
    },
    Step {
        kind: 4, fields: NO_FIELDS, bytes: &[],
        record: &[0x01, 0x04], answer: (0, 0, 0),
        alters: |host| {
            host.held.taken = 0;
            host.held.running = 16;
            host.held.identities[0] = 0;
            host.heaps()[0] = 0;
            host.heaps()[255] = 0;
        },
    },
];

/// After an exit: to 16 and refused while none runs; to a place, to the running
/// one, to another, refused and to 16 while one runs. What ran keeps its heap.
#[rustfmt::skip]
const HAND_OVERS: [Step; 15] = [
    Step {
        kind: 14, fields: Fields { place: 16, ..NO_FIELDS }, bytes: &[],
        record: &[0x03, 0x0E, 0x10], answer: (0, 0, 0),
        alters: |_| (),
    },
    Step {
        kind: 14, fields: NO_FIELDS, bytes: &[],
        record: &[0x03, 0x0E, 0], answer: (7, 0, 0),
        alters: |_| (),
    },
    Step {
        kind: 14, fields: Fields { place: 17, ..NO_FIELDS }, bytes: &[],
        record: &[0x03, 0x0E, 0x11], answer: (6, 0, 0),
        alters: |_| (),
    },
    Step {
        kind: 1, fields: Fields { place: 2, identity: 3, ..NO_FIELDS }, bytes: &[],
        record: &[0x07, 0x01, 2, 3, 0, 0, 0, 0, 0, 0, 0], answer: (0, 2, 0),
        alters: |host| { host.held.taken = 4; host.held.identities[2] = 3; },
    },
    Step {
        kind: 1, fields: Fields { place: 15, identity: 4, ..NO_FIELDS }, bytes: &[],
        record: &[0x07, 0x01, 15, 4, 0, 0, 0, 0, 0, 0, 0], answer: (0, 15, 0),
        alters: |host| { host.held.taken = 0x8004; host.held.identities[15] = 4; },
    },
    Step {
        kind: 14, fields: Fields { place: 2, ..NO_FIELDS }, bytes: &[],
        record: &[0x03, 0x0E, 2], answer: (0, 0, 0),
        alters: |host| host.held.running = 2,
    },
    Step {
        kind: 5, fields: Fields { place: 2, ..NO_FIELDS }, bytes: &[0x43],
        record: &[0x4B, 0x05, 2, 0, 0, 1, 0, 0x43], answer: (0, 1, 0),
        alters: |host| host.heaps()[512] = 0x43,
    },
    Step {
        kind: 14, fields: Fields { place: 2, ..NO_FIELDS }, bytes: &[],
        record: &[0x03, 0x0E, 2], answer: (0, 0, 0),
        alters: |_| (),
    },
    Step {
        kind: 14, fields: NO_FIELDS, bytes: &[],
        record: &[0x03, 0x0E, 0], answer: (7, 0, 0),
        alters: |_| (),
    },
    Step {
        kind: 14, fields: Fields { place: 17, ..NO_FIELDS }, bytes: &[],
        record: &[0x03, 0x0E, 0x11], answer: (6, 0, 0),
        alters: |_| (),
    },
    Step {
        kind: 14, fields: Fields { place: 255, ..NO_FIELDS }, bytes: &[],
        record: &[0x03, 0x0E, 0xFF], answer: (6, 0, 0),
        alters: |_| (),
    },
    Step {
        kind: 14, fields: Fields { place: 15, ..NO_FIELDS }, bytes: &[],
        record: &[0x03, 0x0E, 15], answer: (0, 0, 0),
        alters: |host| host.held.running = 15,
    },
    Step {
        kind: 14, fields: Fields { place: 2, ..NO_FIELDS }, bytes: &[],
        record: &[0x03, 0x0E, 2], answer: (0, 0, 0),
        alters: |host| host.held.running = 2,
    },
    Step {
        kind: 6, fields: Fields { place: 2, length: 1, ..NO_FIELDS }, bytes: &[],
        record: &[0x1B, 0x06, 2, 0, 0, 1, 0], answer: (0, 1, 1),
        alters: |host| host.output()[0] = 0x43,
    },
    Step {
        kind: 14, fields: Fields { place: 16, ..NO_FIELDS }, bytes: &[],
        record: &[0x03, 0x0E, 0x10], answer: (0, 0, 0),
        alters: |host| host.held.running = 16,
    },
];

/// After the hand overs: an end that identity 3 logs, a link that it escrows for
/// itself and that names the end, and one that names its own handle. Chains are
/// accepted, and refused with each of their numbers. They alter nothing.
#[rustfmt::skip]
const CHAINS: [Step; 22] = [
    Step {
        kind: 15, fields: Fields { place: 2, identity: 3, number: END_TAG, ..NO_FIELDS },
        bytes: &[1, 0, 1],
        record: &[
            0x67, 0x0F, 2, 3, 0, 0, 0, 0, 0, 0, 0,
            0x85, 0x21, 0x2B, 0xB9, 0x97, 0xD8, 0x6E, 0x79, 3, 0, 1, 0, 1,
        ],
        answer: (4, 0, 0),
        alters: |_| (),
    },
    Step {
        kind: 14, fields: Fields { place: 2, ..NO_FIELDS }, bytes: &[],
        record: &[0x03, 0x0E, 2], answer: (0, 0, 0),
        alters: |host| host.held.running = 2,
    },
    Step {
        kind: 15, fields: Fields { place: 2, identity: 3, number: END_TAG, ..NO_FIELDS },
        bytes: &[1, 0, 1],
        record: &[
            0x67, 0x0F, 2, 3, 0, 0, 0, 0, 0, 0, 0,
            0x85, 0x21, 0x2B, 0xB9, 0x97, 0xD8, 0x6E, 0x79, 3, 0, 1, 0, 1,
        ],
        answer: (18, 0, 0),
        alters: |_| (),
    },
    Step {
        kind: 5, fields: Fields { place: 2, ..NO_FIELDS }, bytes: &[1],
        record: &[0x4B, 0x05, 2, 0, 0, 1, 0, 1], answer: (0, 1, 0),
        alters: |host| host.heaps()[512] = 1,
    },
    Step {
        kind: 9, fields: Fields { length: 1, ..NO_FIELDS }, bytes: &[],
        record: &[0x19, 0x09, 0, 0, 1, 0], answer: (0, END_TAG, 0),
        alters: |host| {
            host.held.log = Used { rows: 2, bytes: 2 };
            host.log()[1] = LogRow { identity: 3, tag: END_TAG, first: 1, length: 1 };
            host.log_values()[1] = 1;
        },
    },
    Step {
        kind: 15, fields: Fields { place: 2, identity: 3, number: END_TAG, ..NO_FIELDS },
        bytes: &[1, 0, 1],
        record: &[
            0x67, 0x0F, 2, 3, 0, 0, 0, 0, 0, 0, 0,
            0x85, 0x21, 0x2B, 0xB9, 0x97, 0xD8, 0x6E, 0x79, 3, 0, 1, 0, 1,
        ],
        answer: (0, 1, 0),
        alters: |_| (),
    },
    Step {
        kind: 5, fields: Fields { place: 2, ..NO_FIELDS },
        bytes: &[2, 3, 0, 0, 0, 0, 0, 0, 0, 0x85, 0x21, 0x2B, 0xB9, 0x97, 0xD8, 0x6E, 0x79],
        record: &[
            0x4B, 0x05, 2, 0, 0, 0x11, 0,
            2, 3, 0, 0, 0, 0, 0, 0, 0, 0x85, 0x21, 0x2B, 0xB9, 0x97, 0xD8, 0x6E, 0x79,
        ],
        answer: (0, 17, 0),
        alters: |host| host.heaps()[512..529].copy_from_slice(&LINK_VALUE),
    },
    Step {
        kind: 11, fields: Fields { identity: 3, length: 17, number: 9, ..NO_FIELDS }, bytes: &[],
        record: &[
            0x3D, 0x0B, 3, 0, 0, 0, 0, 0, 0, 0, 0, 0,
            0x11, 0, 9, 0, 0, 0, 0, 0, 0, 0,
        ],
        answer: (0, LINK, 0),
        alters: |host| {
            host.held.escrow = Used { rows: 2, bytes: 18 };
            host.escrow()[1] =
                EscrowRow { source: 3, recipient: 3, handle: LINK, first: 1, length: 17, mark: 0 };
            host.escrow_values()[1..18].copy_from_slice(&LINK_VALUE);
        },
    },
    Step {
        kind: 15, fields: Fields { place: 3, identity: 3, number: LINK, ..NO_FIELDS },
        bytes: &[1, 0, 1],
        record: &[
            0x67, 0x0F, 3, 3, 0, 0, 0, 0, 0, 0, 0,
            9, 0, 0, 0, 0, 0, 0x11, 0, 3, 0, 1, 0, 1,
        ],
        answer: (0, 2, 0),
        alters: |_| (),
    },
    Step {
        kind: 15, fields: Fields { place: 3, identity: 3, number: LINK, ..NO_FIELDS }, bytes: &[],
        record: &[
            0x67, 0x0F, 3, 3, 0, 0, 0, 0, 0, 0, 0,
            9, 0, 0, 0, 0, 0, 0x11, 0, 0, 0,
        ],
        answer: (19, 0, 0),
        alters: |_| (),
    },
    Step {
        kind: 15, fields: Fields { place: 3, identity: 3, number: LINK, ..NO_FIELDS },
        bytes: &[1, 0],
        record: &[
            0x67, 0x0F, 3, 3, 0, 0, 0, 0, 0, 0, 0,
            9, 0, 0, 0, 0, 0, 0x11, 0, 2, 0, 1, 0,
        ],
        answer: (19, 0, 0),
        alters: |_| (),
    },
    Step {
        kind: 15, fields: Fields { place: 3, identity: 3, number: LINK, ..NO_FIELDS },
        bytes: &[1, 0, 1, 0],
        record: &[
            0x67, 0x0F, 3, 3, 0, 0, 0, 0, 0, 0, 0,
            9, 0, 0, 0, 0, 0, 0x11, 0, 4, 0, 1, 0, 1,
            0,
        ],
        answer: (19, 0, 0),
        alters: |_| (),
    },
    Step {
        kind: 15, fields: Fields { place: 3, number: LINK, ..NO_FIELDS }, bytes: &[1, 0, 1],
        record: &[
            0x67, 0x0F, 3, 0, 0, 0, 0, 0, 0, 0, 0,
            9, 0, 0, 0, 0, 0, 0x11, 0, 3, 0, 1, 0, 1,
        ],
        answer: (9, 0, 0),
        alters: |_| (),
    },
    Step {
        kind: 15, fields: Fields { place: 1, identity: 3, number: LINK, ..NO_FIELDS },
        bytes: &[1, 0, 1],
        record: &[
            0x67, 0x0F, 1, 3, 0, 0, 0, 0, 0, 0, 0,
            9, 0, 0, 0, 0, 0, 0x11, 0, 3, 0, 1, 0, 1,
        ],
        answer: (19, 0, 0),
        alters: |_| (),
    },
    Step {
        kind: 15, fields: Fields { place: 3, identity: 3, number: OWN, ..NO_FIELDS },
        bytes: &[1, 0, 1],
        record: &[
            0x67, 0x0F, 3, 3, 0, 0, 0, 0, 0, 0, 0,
            0x0A, 0, 0, 0, 0, 0, 0x11, 0, 3, 0, 1, 0, 1,
        ],
        answer: (18, 0, 0),
        alters: |_| (),
    },
    Step {
        kind: 5, fields: Fields { place: 2, ..NO_FIELDS },
        bytes: &[3, 3, 0, 0, 0, 0, 0, 0, 0, 0x0A, 0, 0, 0, 0, 0, 0x11, 0],
        record: &[
            0x4B, 0x05, 2, 0, 0, 0x11, 0,
            3, 3, 0, 0, 0, 0, 0, 0, 0, 0x0A, 0, 0, 0, 0, 0, 0x11, 0,
        ],
        answer: (0, 17, 0),
        alters: |host| host.heaps()[512..529].copy_from_slice(&OWN_VALUE),
    },
    Step {
        kind: 11, fields: Fields { identity: 3, length: 17, number: 10, ..NO_FIELDS }, bytes: &[],
        record: &[
            0x3D, 0x0B, 3, 0, 0, 0, 0, 0, 0, 0, 0, 0,
            0x11, 0, 0x0A, 0, 0, 0, 0, 0, 0, 0,
        ],
        answer: (0, OWN, 0),
        alters: |host| {
            host.held.escrow = Used { rows: 3, bytes: 35 };
            host.escrow()[2] =
                EscrowRow { source: 3, recipient: 3, handle: OWN, first: 18, length: 17, mark: 0 };
            host.escrow_values()[18..35].copy_from_slice(&OWN_VALUE);
        },
    },
    Step {
        kind: 15, fields: Fields { place: 3, identity: 3, number: OWN, ..NO_FIELDS }, bytes: &[],
        record: &[
            0x67, 0x0F, 3, 3, 0, 0, 0, 0, 0, 0, 0,
            0x0A, 0, 0, 0, 0, 0, 0x11, 0, 0, 0,
        ],
        answer: (20, 0, 0),
        alters: |_| (),
    },
    Step {
        kind: 14, fields: Fields { place: 15, ..NO_FIELDS }, bytes: &[],
        record: &[0x03, 0x0E, 0x0F], answer: (0, 0, 0),
        alters: |host| host.held.running = 15,
    },
    Step {
        kind: 15, fields: Fields { place: 3, identity: 3, number: LINK, ..NO_FIELDS },
        bytes: &[1, 0, 1],
        record: &[
            0x67, 0x0F, 3, 3, 0, 0, 0, 0, 0, 0, 0,
            9, 0, 0, 0, 0, 0, 0x11, 0, 3, 0, 1, 0, 1,
        ],
        answer: (18, 0, 0),
        alters: |_| (),
    },
    Step {
        kind: 15, fields: Fields { place: 2, identity: 3, number: END_TAG, ..NO_FIELDS },
        bytes: &[1, 0, 1],
        record: &[
            0x67, 0x0F, 2, 3, 0, 0, 0, 0, 0, 0, 0,
            0x85, 0x21, 0x2B, 0xB9, 0x97, 0xD8, 0x6E, 0x79, 3, 0, 1, 0, 1,
        ],
        answer: (0, 1, 0),
        alters: |_| (),
    },
    Step {
        kind: 14, fields: Fields { place: 16, ..NO_FIELDS }, bytes: &[],
        record: &[0x03, 0x0E, 0x10], answer: (0, 0, 0),
        alters: |host| host.held.running = 16,
    },
];

/// After the chains: identity 3 gives up its first value, between another's and its
/// second, which moves down; then that one, behind it; then identity 4 what 3 protects for
/// it. What the chains named is gone.
#[rustfmt::skip]
const RELEASES: [Step; 17] = [
    Step {
        kind: 16, fields: Fields { identity: 3, number: LINK, ..NO_FIELDS }, bytes: &[],
        record: &[0x25, 0x10, 3, 0, 0, 0, 0, 0, 0, 0, 9, 0, 0, 0, 0, 0, 0x11, 0],
        answer: (4, 0, 0),
        alters: |_| (),
    },
    Step {
        kind: 14, fields: Fields { place: 15, ..NO_FIELDS }, bytes: &[],
        record: &[0x03, 0x0E, 0x0F], answer: (0, 0, 0),
        alters: |host| host.held.running = 15,
    },
    Step {
        kind: 16, fields: Fields { identity: 3, number: LINK, ..NO_FIELDS }, bytes: &[],
        record: &[0x25, 0x10, 3, 0, 0, 0, 0, 0, 0, 0, 9, 0, 0, 0, 0, 0, 0x11, 0],
        answer: (10, 0, 0),
        alters: |_| (),
    },
    Step {
        kind: 14, fields: Fields { place: 2, ..NO_FIELDS }, bytes: &[],
        record: &[0x03, 0x0E, 2], answer: (0, 0, 0),
        alters: |host| host.held.running = 2,
    },
    Step {
        kind: 16, fields: Fields { number: LINK, ..NO_FIELDS }, bytes: &[],
        record: &[0x25, 0x10, 0, 0, 0, 0, 0, 0, 0, 0, 9, 0, 0, 0, 0, 0, 0x11, 0],
        answer: (9, 0, 0),
        alters: |_| (),
    },
    Step {
        kind: 16, fields: Fields { identity: 1, number: HANDLE, ..NO_FIELDS }, bytes: &[],
        record: &[0x25, 0x10, 1, 0, 0, 0, 0, 0, 0, 0, 7, 0, 0, 0, 0, 0, 1, 0],
        answer: (10, 0, 0),
        alters: |_| (),
    },
    Step {
        kind: 16, fields: Fields { identity: 3, number: LINK, ..NO_FIELDS }, bytes: &[],
        record: &[0x25, 0x10, 3, 0, 0, 0, 0, 0, 0, 0, 9, 0, 0, 0, 0, 0, 0x11, 0],
        answer: (0, 0, 0),
        alters: |host| {
            host.held.escrow = Used { rows: 3, bytes: 18 };
            host.escrow()[1].length = 0;
            host.escrow()[1].mark = 1;
            host.escrow()[2].first = 1;
            host.escrow_values()[1..18].copy_from_slice(&OWN_VALUE);
            host.escrow_values()[18..35].fill(0);
        },
    },
    Step {
        kind: 16, fields: Fields { identity: 3, number: LINK, ..NO_FIELDS }, bytes: &[],
        record: &[0x25, 0x10, 3, 0, 0, 0, 0, 0, 0, 0, 9, 0, 0, 0, 0, 0, 0x11, 0],
        answer: (10, 0, 0),
        alters: |_| (),
    },
    Step {
        kind: 12, fields: Fields { identity: 3, number: LINK, ..NO_FIELDS }, bytes: &[],
        record: &[0x2D, 0x0C, 3, 0, 0, 0, 0, 0, 0, 0, 0, 0, 9, 0, 0, 0, 0, 0, 0x11, 0],
        answer: (10, 0, 0),
        alters: |_| (),
    },
    Step {
        kind: 15, fields: Fields { place: 3, identity: 3, number: LINK, ..NO_FIELDS },
        bytes: &[1, 0, 1],
        record: &[
            0x67, 0x0F, 3, 3, 0, 0, 0, 0, 0, 0, 0,
            9, 0, 0, 0, 0, 0, 0x11, 0, 3, 0, 1, 0, 1,
        ],
        answer: (18, 0, 0),
        alters: |_| (),
    },
    Step {
        kind: 12, fields: Fields { identity: 3, offset: 100, number: OWN, ..NO_FIELDS },
        bytes: &[],
        record: &[0x2D, 0x0C, 3, 0, 0, 0, 0, 0, 0, 0, 100, 0, 0x0A, 0, 0, 0, 0, 0, 0x11, 0],
        answer: (0, 17, 0),
        alters: |host| host.heaps()[612..629].copy_from_slice(&OWN_VALUE),
    },
    Step {
        kind: 16, fields: Fields { identity: 3, number: OWN, ..NO_FIELDS }, bytes: &[],
        record: &[0x25, 0x10, 3, 0, 0, 0, 0, 0, 0, 0, 0x0A, 0, 0, 0, 0, 0, 0x11, 0],
        answer: (0, 0, 0),
        alters: |host| {
            host.held.escrow = Used { rows: 3, bytes: 1 };
            host.escrow()[2].length = 0;
            host.escrow()[2].mark = 1;
            host.escrow_values()[1..18].fill(0);
        },
    },
    Step {
        kind: 11, fields: Fields { identity: 4, length: 17, number: 9, ..NO_FIELDS }, bytes: &[],
        record: &[
            0x3D, 0x0B, 4, 0, 0, 0, 0, 0, 0, 0, 0, 0,
            0x11, 0, 9, 0, 0, 0, 0, 0, 0, 0,
        ],
        answer: (0, AFTER_LINK, 0),
        alters: |host| {
            host.held.escrow = Used { rows: 4, bytes: 18 };
            host.escrow()[3] =
                EscrowRow { source: 3, recipient: 4, handle: AFTER_LINK, first: 1, length: 17, mark: 0 };
            host.escrow_values()[1..18].copy_from_slice(&OWN_VALUE);
        },
    },
    Step {
        kind: 16, fields: Fields { identity: 3, number: AFTER_LINK, ..NO_FIELDS }, bytes: &[],
        record: &[0x25, 0x10, 3, 0, 0, 0, 0, 0, 0, 0, 0xE0, 0x19, 0x54, 0xD6, 0x34, 0, 0x11, 0],
        answer: (10, 0, 0),
        alters: |_| (),
    },
    Step {
        kind: 14, fields: Fields { place: 15, ..NO_FIELDS }, bytes: &[],
        record: &[0x03, 0x0E, 0x0F], answer: (0, 0, 0),
        alters: |host| host.held.running = 15,
    },
    Step {
        kind: 16, fields: Fields { identity: 3, number: AFTER_LINK, ..NO_FIELDS }, bytes: &[],
        record: &[0x25, 0x10, 3, 0, 0, 0, 0, 0, 0, 0, 0xE0, 0x19, 0x54, 0xD6, 0x34, 0, 0x11, 0],
        answer: (0, 0, 0),
        alters: |host| {
            host.held.escrow = Used { rows: 4, bytes: 1 };
            host.escrow()[3].length = 0;
            host.escrow()[3].mark = 1;
            host.escrow_values()[1..18].fill(0);
        },
    },
    Step {
        kind: 13, fields: NO_FIELDS, bytes: &[],
        record: &[0x01, 0x0D], answer: (0, 262_658, 0), alters: |_| (),
    },
];

pub fn check(tally: &mut Tally) {
    let all_zeros = BoxRecord {
        taken: 0,
        running: 16,
        identities: [0; 16],
        log: Used { rows: 0, bytes: 0 },
        escrow: Used { rows: 0, bytes: 0 },
    };
    tally.check(fresh() == all_zeros, || "the fresh box".into());
    let mut host = Host::fresh();
    host.output().fill(BEFORE);
    let steps = EXAMPLE.iter().chain(&OTHER_KINDS).chain(&HAND_OVERS).chain(&CHAINS);
    let steps = steps.chain(&RELEASES);
    for (n, step) in steps.enumerate() {
        written(tally, n, step);
        called(tally, n, step, &mut host);
    }
}

/// The box after the example.
pub fn after_example() -> Host {
    let mut host = Host::fresh();
    host.output().fill(BEFORE);
    for step in &EXAMPLE {
        host.call(step.record);
    }
    host
}

/// The writer gives the record and alters nothing behind it.
fn written(tally: &mut Tally, n: usize, step: &Step) {
    let mut out = [0xCC; 64];
    let mut wanted = out;
    wanted[..step.record.len()].copy_from_slice(step.record);
    let written = write(step.kind, step.fields, step.bytes, &mut out);
    tally.check(written.code == 0, || format!("step {n}: the writer's code {}", written.code));
    tally.check(written.length == step.record.len(), || format!("step {n}: the record's length"));
    tally.check(out == wanted, || format!("step {n}: the record is {out:02x?}"));
}

fn called(tally: &mut Tally, n: usize, step: &Step, host: &mut Host) {
    let mut wanted = host.clone();
    (step.alters)(&mut wanted);
    let (code, number, shown) = step.answer;
    let answer = Answer { code, number, used: step.record.len(), shown };
    let (mut copy, right) = (host.clone(), Ok(answer));
    let lent = copy.call_lent_guarded(step.record);
    tally.check(lent == right, || format!("step {n}, lent: {lent:?}"));
    tally.check(copy == wanted, || format!("step {n}, lent: the box, a buffer, or beside one"));
    let reply = host.call(step.record);
    tally.check(reply.code == code, || format!("step {n}: code {}", reply.code));
    tally.check(reply.number == number, || format!("step {n}: number {}", reply.number));
    tally.check(reply.used == step.record.len(), || format!("step {n}: used {}", reply.used));
    tally.check(reply.shown == shown, || format!("step {n}: shown {}", reply.shown));
    tally.check(*host == wanted, || format!("step {n}: the box, a buffer, or memory beside one"));
}

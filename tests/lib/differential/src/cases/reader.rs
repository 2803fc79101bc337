//! Malformed records: every kind, every map, and every field of every kind cut at
//! every byte. What a cut record misses comes from document 01's widths.

use second::{tag_of, Call};

use super::handle;
use crate::calls::{
    attest, chain, check, create, hand_over, heap_read, heap_write, protect, record_of, release,
    retrieve, shared_read, shared_write,
};
use crate::case::Case;
use crate::cuts::{missing, Cut, Layout, Next, LAYOUTS};

/// The longest script.
const LONGEST: usize = 65_536;

/// Each kind's one legal map, from kind 0 on. 0, 2 and 3 are no kinds.
const MAPS: [Option<u8>; 17] = [
    None,
    Some(0x07),
    None,
    None,
    Some(0x01),
    Some(0x4B),
    Some(0x1B),
    Some(0x49),
    Some(0x19),
    Some(0x19),
    Some(0x65),
    Some(0x3D),
    Some(0x2D),
    Some(0x01),
    Some(0x03),
    Some(0x67),
    Some(0x25),
];

pub fn cases() -> Vec<Case> {
    let mut cases = vec![Case::new("an empty script")];
    cases.extend((0..=255).map(one_byte));
    // The retired kinds with every map too, their old ones among them.
    for kind in 1..=16 {
        cases.extend((0..=255).map(|map| map_and_kind(map, kind)));
    }
    for kind in (0..=255).filter(|kind| !(1..=16).contains(kind)) {
        cases.extend([0x01, 0x03, 0x19, 0x25, 0x67, 0xFF, 0x00].map(|map| map_and_kind(map, kind)));
    }
    cases.extend(cut_at_every_byte());
    cases.extend(orders());
    cases.extend(every_field_cut());
    cases.extend(followed());
    cases.extend(contents_cut());
    cases.extend(contents_cut_at_every_byte());
    cases.extend(no_contents());
    cases
}

/// A map with no kind behind it.
fn one_byte(map: u8) -> Case {
    let mut case = Case::new(format!("map {map:#04x} alone"));
    match map & 1 {
        0 => case.malformed(2, &[map]),
        _ => case.cut(1, &[map]),
    }
    case
}

/// Any map with any kind, in a box in use, with good records behind them. Of
/// the legal maps no sheet is written by hand.
fn map_and_kind(map: u8, kind: u8) -> Case {
    let mut case = Case::new(format!("map {map:#04x} with kind {kind}"));
    case.accept(0, create(0, 1));
    case.accept(0, hand_over(0));
    case.accept(3, heap_write(0, 0, b"abc"));
    let behind = [1, 13].repeat(20);
    let record = [&[map, kind], &behind[..]].concat();
    match MAPS.get(usize::from(kind)).copied().flatten() {
        _ if map & 1 == 0 => case.malformed(2, &record),
        None => case.malformed(2, &record),
        Some(legal) if legal != map => case.malformed(3, &record),
        Some(_) => {
            case.script.extend(record);
            case.sheet = None;
        }
    }
    case
}

/// A script with every kind, cut at each of its bytes. Where the cut is inside
/// a record the last line is 1.
fn cut_at_every_byte() -> Vec<Case> {
    let mut whole = Case::new("a script of every kind");
    let tag = tag_of(9, b"bcd").0;
    whole.accept(3, create(3, 9));
    whole.accept(0, hand_over(3));
    whole.accept(8, heap_write(3, 10, b"abcdefgh"));
    whole.show(b"bcd", heap_read(3, 11, 3));
    whole.accept(5, shared_write(20, b"12345"));
    whole.show(b"345", shared_read(22, 3));
    whole.accept(tag, attest(11, 3));
    whole.accept(1, check(9, tag, b"bcd"));
    whole.accept(handle(4, 7), protect(9, 10, 4, 7));
    whole.accept(4, retrieve(9, 0, handle(4, 7)));
    whole.accept(1, heap_write(3, 40, &[1]));
    whole.accept(tag_of(9, &[1]).0, attest(40, 1));
    whole.accept(1, chain(2, 9, tag_of(9, &[1]).0, b"\x01\x00\x01"));
    whole.refuse(19, chain(3, 9, handle(4, 7), b""));
    whole.accept(0, release(9, handle(4, 7)));
    whole.refuse(10, retrieve(9, 0, handle(4, 7)));
    whole.refuse(18, chain(3, 9, handle(4, 7), b""));
    whole.accept(1 + 256 * 2 + 65_536, Call::Report);
    whole.accept(0, hand_over(16));
    whole.accept(4, create(4, 10));
    whole.accept(0, hand_over(4));
    whole.accept(0, Call::Exit);
    whole.refuse(7, hand_over(4));
    whole.refuse(4, heap_write(3, 10, b"late"));
    whole.accept(1, check(9, tag, b"bcd"));
    let mut cases: Vec<Case> = (0..whole.script.len()).map(|end| cut(&whole, end)).collect();
    cases.push(whole);
    cases
}

/// The script's first `end` bytes, with the lines of the records that are whole
/// and one for the record that is cut.
fn cut(whole: &Case, end: usize) -> Case {
    let mut case = Case::new(format!("a script of every kind cut at {end}"));
    let lines = whole.sheet.as_deref().unwrap_or_default().split_inclusive('\n');
    let mut sheet: String = lines.clone().take(1).collect();
    let mut used = 0;
    for line in lines.skip(1) {
        let length: usize = line.split(' ').nth(2).and_then(|n| n.parse().ok()).unwrap_or(0);
        if used + length > end {
            break;
        }
        used += length;
        sheet.push_str(line);
    }
    case.sheet = Some(sheet);
    if used < end {
        case.line(1, missing(&whole.script[used..], end - used) as u64, 0, &[]);
    }
    case.script = whole.script[..end].to_vec();
    case
}

/// Kind before map, map before a cut field, the record before the call. Good
/// records stand in front, and behind where that cuts nothing.
fn orders() -> Vec<Case> {
    let mut cases = Vec::new();
    for (code, record) in MALFORMED {
        for reports in 0..2 {
            let mut case = Case::new(format!("{record:02x?} and {reports} reports"));
            case.accept(0, Call::Report);
            case.refuse(4, Call::Exit);
            case.malformed(code, record);
            case.script.extend(record_of(&Call::Report).repeat(reports));
            cases.push(case);
        }
    }
    for (missing, record) in CUT {
        let mut case = Case::new(format!("{record:02x?}, which misses {missing}"));
        case.accept(0, Call::Report);
        case.refuse(4, Call::Exit);
        case.cut(missing, record);
        cases.push(case);
    }
    cases
}

/// Records with 2 or 3. Many of them are cut too.
const MALFORMED: [(u8, &[u8]); 40] = [
    (2, &[0x00]),
    (2, &[0x06, 1]),
    (2, &[0x06, 15]),
    (2, &[0x02, 14, 0]),
    (2, &[0xFE, 5, 0, 0]),
    (2, &[0x66, 15, 2]),
    (2, &[0xFF, 17]),
    (2, &[0x01, 17]),
    (2, &[0x25, 17, 2]),
    (2, &[0x67, 17, 2]),
    (2, &[0x24, 16, 2]),
    (2, &[0xFF, 0]),
    (2, &[0x07, 0]),
    (2, &[0x03, 2]),
    (2, &[0x03, 2, 0]),
    (2, &[0x01, 2]),
    (2, &[0x01, 3]),
    (2, &[0x03, 3, 0]),
    (2, &[0x81, 3]),
    (3, &[0xFF, 1]),
    (3, &[0x81, 4]),
    (3, &[0x87, 1]),
    (3, &[0x03, 1]),
    (3, &[0x47, 1, 0]),
    (3, &[0x4B, 7, 0]),
    (3, &[0x01, 14]),
    (3, &[0x07, 14, 0]),
    (3, &[0xFF, 14]),
    (3, &[0x65, 12, 1]),
    (3, &[0x01, 15]),
    (3, &[0x65, 15, 2]),
    (3, &[0x67, 10, 2]),
    (3, &[0xE7, 15, 2]),
    (3, &[0xFF, 15]),
    (3, &[0x67, 16, 2]),
    (3, &[0x65, 16]),
    (3, &[0x2D, 16]),
    (3, &[0x05, 16]),
    (3, &[0xA5, 16, 2]),
    (3, &[0x25, 12]),
];

/// Records with 1, and what they miss. Their calls would be refused, or their
/// fields name more than there is.
const CUT: [(usize, &[u8]); 23] = [
    (1, &[0xFF]),
    (1, &[0x03]),
    (1, &[0x03, 14]),
    (1, &[0x07, 1]),
    (8, &[0x07, 1, 16]),
    (1, &[0x07, 1, 16, 0, 0, 0, 0, 0, 0, 0]),
    (2, &[0x4B, 5, 16]),
    (1, &[0x4B, 5, 16, 0xFF]),
    (2, &[0x4B, 5, 16, 0xFF, 0xFF]),
    (1, &[0x4B, 5, 16, 0xFF, 0xFF, 0xFF]),
    (65_535, &[0x4B, 5, 16, 0xFF, 0xFF, 0xFF, 0xFF]),
    (1, &[0x4B, 5, 16, 0, 0, 1, 0]),
    (255, &[0x49, 7, 0, 0, 0, 1, 0x41]),
    (2, &[0x1B, 6, 99, 0xFF, 0xFF]),
    (1, &[0x67, 15]),
    (8, &[0x67, 15, 1]),
    (8, &[0x67, 15, 0, 0, 0, 0, 0, 0, 0, 0, 0]),
    (2, &[0x67, 15, 2, 0, 0, 0, 0, 0, 0, 0, 0, 9, 9, 9, 9, 9, 9, 9, 9]),
    (1, &[0x67, 15, 2, 0, 0, 0, 0, 0, 0, 0, 0, 9, 9, 9, 9, 9, 9, 9, 9, 2, 0, 1]),
    (8, &[0x25, 16]),
    (1, &[0x25, 16, 0, 0, 0, 0, 0, 0, 0]),
    (8, &[0x25, 16, 0, 0, 0, 0, 0, 0, 0, 0]),
    (1, &[0x25, 16, 0, 0, 0, 0, 0, 0, 0, 0, 0xFF, 0xFF, 0xFF, 0xFF, 0xFF, 0xFF, 0xFF]),
];

/// Good records of a service, which runs on or yields.
fn served(name: String, runs: bool) -> Case {
    let mut case = Case::new(name);
    case.accept(3, create(3, 9));
    case.accept(0, hand_over(3));
    case.accept(4, heap_write(3, 0, b"good"));
    case.accept(tag_of(9, b"good").0, attest(0, 4));
    case.show(b"good", heap_read(3, 0, 4));
    if !runs {
        case.accept(0, hand_over(16));
    }
    case
}

/// Every field of every kind cut at every byte, at the front of a script and
/// behind good records. A script has no empty record.
fn every_field_cut() -> Vec<Case> {
    let mut cases = Vec::new();
    for layout in &LAYOUTS {
        for fill in [0x00, 0x11, 0xFF] {
            for Cut { record, missing, .. } in layout.cuts(fill, 3).into_iter().skip(1) {
                let (kind, length) = (layout.kind, record.len());
                let name = format!("kind {kind} filled with {fill:#04x}, cut at {length}");
                let mut front = Case::new(name.clone());
                front.cut(missing, &record);
                let mut behind = served(format!("{name}, behind good records"), true);
                behind.cut(missing, &record);
                cases.extend([front, behind]);
            }
        }
    }
    cases
}

/// Every cut of every kind, followed by as many bytes as are missing or fewer.
fn followed() -> Vec<Case> {
    let mut cases = Vec::new();
    for (fill, filler) in [(0x11, 0x00), (0x11, 0xFF), (0xFF, 0x01), (0xFF, 0x0D)] {
        for layout in &LAYOUTS {
            for cut in layout.cuts(fill, 3).iter().skip(1) {
                let (kind, length) = (layout.kind, cut.record.len());
                let name = format!("kind {kind} filled with {fill:#04x}, cut at {length}");
                cases.extend((1..=cut.missing).map(|more| {
                    let case = served(format!("{name}, then {more} times {filler:#04x}"), false);
                    followed_by(case, cut, filler, more)
                }));
            }
        }
    }
    cases
}

/// Fewer bytes than are missing leave as many fewer missing. As many as are
/// missing finish the field: a later field is missing, the kind or the map is
/// refused, or a call is read.
fn followed_by(mut case: Case, cut: &Cut, filler: u8, more: usize) -> Case {
    let bytes = cut.followed_by(filler, more);
    if more < cut.missing {
        case.cut(cut.missing - more, &bytes);
        return case;
    }
    match cut.next(filler) {
        Next::Refused(code) => case.malformed(code, &bytes),
        Next::Missing(missing) => case.cut(missing, &bytes),
        Next::Whole => whole(&mut case, &bytes),
    }
    case
}

/// A whole record while none runs and place 3 is taken. All its fields but the
/// last are filled with 0x11 or 0xFF, which makes a place above 16, an offset
/// beyond 1,024, and an identity that logged nothing.
fn whole(case: &mut Case, record: &[u8]) {
    let (code, number) = match *record {
        [_, 1, ..] => (6, 0),
        [_, 4 | 5 | 6 | 9 | 11 | 12 | 15 | 16, ..] => (4, 0),
        [_, 7 | 8, ..] => (11, 0),
        [_, 10, ..] => (0, 0),
        // One service and one log row.
        [_, 13] => (0, 257),
        [_, 14, 3 | 16] => (0, 0),
        [_, 14, 0..=15] => (7, 0),
        [_, 14, _] => (6, 0),
        _ => panic!("no record: {record:02x?}"),
    };
    case.line(code, number, record.len(), &[]);
    case.script.extend(record);
}

/// The contents of every kind that has bytes, with several counts, cut at several
/// bytes, at the front of a script and behind good records.
fn contents_cut() -> Vec<Case> {
    let good = served(String::new(), true).script.len();
    let mut cases = Vec::new();
    for layout in LAYOUTS.iter().filter(|layout| layout.bytes) {
        for count in [1, 2, 255, 256, 257, 1_024, 65_535] {
            for (fill, behind) in [(0xFF, false), (0x41, true)] {
                let front = layout.record(fill, 0).len() + if behind { good } else { 0 };
                let there = parts(count.into(), LONGEST - front).into_iter();
                cases.extend(there.map(|there| contents(layout, fill, count, there, behind)));
            }
        }
    }
    cases
}

/// How many of the contents are there: none, a few, all but one or two, and as
/// many as the script has room for.
fn parts(count: usize, room: usize) -> Vec<usize> {
    let mut parts = vec![0, 1, 2, 3, 127, 128, 253, 254, 255, 256, 1_000, 32_768, 65_000];
    parts.extend([count - 1, count.saturating_sub(2), room]);
    parts.retain(|&there| there < count && there <= room);
    parts.sort_unstable();
    parts.dedup();
    parts
}

/// One cut in the contents, at the front of a script or behind good records.
fn contents(layout: &Layout, fill: u8, count: u16, there: usize, behind: bool) -> Case {
    let cut = layout.contents_cut(fill, count, there);
    let name = format!("kind {}, {there} of {count} bytes {fill:#04x}", layout.kind);
    let mut case = if behind { served(name, true) } else { Case::new(name) };
    case.cut(cut.missing, &cut.record);
    case
}

/// A shared write of 300 bytes cut at each of them.
fn contents_cut_at_every_byte() -> Vec<Case> {
    let layout = Layout::of(7).expect("kind 7 has a layout");
    let case = |there| contents(layout, 0x5A, 300, there, there % 2 == 1);
    (0..300).map(case).collect()
}

/// A count of 0 ends the record: nothing of it is missing, and what follows is
/// another record.
fn no_contents() -> Vec<Case> {
    let mut cases = Vec::new();
    for layout in LAYOUTS.iter().filter(|layout| layout.bytes) {
        for fill in [0x11, 0xFF] {
            let name = format!("kind {} filled with {fill:#04x}, no bytes", layout.kind);
            let mut case = served(name, false);
            whole(&mut case, &layout.record(fill, 0));
            let mut then =
                Case { name: format!("{}, then a cut record", case.name), ..case.clone() };
            then.cut(1, &[0x49]);
            cases.extend([case, then]);
        }
    }
    cases
}

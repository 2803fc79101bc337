//! Record bytes made with no regard to what a call on them would answer, and
//! sizes of output buffers.

use second::{tag_of, write, Fields, Host, Link, DRAW_LIMIT, HEAP_SIZE, OUTPUT_SIZE, SHARED_SIZE};

use crate::calls::{chain, record_of, release};
use crate::draws::near_a_row;
use crate::held::{counted, Held};
use crate::random::Random;

/// Offsets, lengths and counts at the limits of heap and shared memory.
const EDGES: [u16; 18] =
    [0, 1, 2, 3, 5, 128, 254, 255, 256, 257, 300, 512, 1_022, 1_023, 1_024, 1_025, 65_280, 65_535];

/// Numbers that no box gave: draws and handles at their limits.
const NUMBERS: [u64; 8] =
    [0, 1, 2, DRAW_LIMIT - 1, DRAW_LIMIT, DRAW_LIMIT + 1, 256 * DRAW_LIMIT, u64::MAX];

/// The numbers of the kinds. 2 and 3 are retired.
pub const KINDS: [u8; 14] = [1, 4, 5, 6, 7, 8, 9, 10, 11, 12, 13, 14, 15, 16];

/// What a record may name so that it fits a box.
#[derive(Default)]
pub struct Known {
    pub identities: Vec<u64>,
    /// Tags and handles.
    pub numbers: Vec<u64>,
    /// The rows with their values, and for whom chains over them are.
    pub held: Held,
    pub recipient: u64,
}

impl Known {
    /// What stands in a host's tables.
    pub fn of(host: &Host) -> Self {
        let running = usize::from(host.record.running);
        let places = host.record.identities.iter().copied();
        let loggers = host.log.iter().map(|row| row.identity);
        let sources = host.escrow.iter().map(|row| row.source);
        let recipients = host.escrow.iter().map(|row| row.recipient);
        let tags = host.log.iter().map(|row| row.tag.0);
        let handles = host.escrow.iter().map(|row| row.handle.0);
        Known {
            identities: places.chain(loggers).chain(sources).chain(recipients).collect(),
            numbers: tags.chain(handles).collect(),
            held: Held::of(host),
            recipient: host.record.identities.get(running).copied().unwrap_or(0),
        }
    }
}

/// A whole record of a random kind. Any field may be at fault, or several.
pub fn whole(random: &mut Random, known: &Known) -> Vec<u8> {
    let kind = random.pick(&KINDS);
    if kind == 15 && !random.once_in(3) {
        return held_chain(random, known);
    }
    if kind == 16 && !random.once_in(3) {
        return held_release(random, known);
    }
    let mut fields = Fields {
        place: match kind {
            14 => handed_over_to(random),
            15 => way(random),
            _ => place(random),
        },
        identity: identity(random, known),
        offset: edge(random),
        length: edge(random),
        number: number(random, known),
    };
    if kind == 11 && random.once_in(2) {
        used_draw(random, known, &mut fields);
    }
    let bytes = bytes(random);
    let mut record = vec![0; 32 + bytes.len()];
    let written = write(kind, &fields, &bytes, &mut record);
    assert_eq!(written.code, 0);
    record.truncate(written.length);
    record
}

/// The length of an escrowed value and a draw near its own, where there is one.
fn used_draw(random: &mut Random, known: &Known, fields: &mut Fields) {
    let rows = &known.held.escrowed;
    if !rows.is_empty() {
        fields.length = rows[random.index(rows.len())].length();
        fields.number = near_a_row(random, rows, fields.length).unwrap_or(fields.number);
    }
}

fn place(random: &mut Random) -> u8 {
    match random.below(8) {
        0 => random.byte(),
        1 => random.pick(&[14, 15, 16, 17, 255]),
        _ => random.below(4) as u8,
    }
}

/// As in other calls, or about 16, which only yields.
fn handed_over_to(random: &mut Random) -> u8 {
    match random.below(4) {
        0 => random.between(0, 17) as u8,
        1 => random.pick(&[15, 16, 17, 255]),
        _ => place(random),
    }
}

/// Mostly logged or escrowed.
fn way(random: &mut Random) -> u8 {
    match random.below(8) {
        0 => random.byte(),
        1 => random.pick(&[0, 1, 4, 255]),
        _ => random.pick(&[2, 3]),
    }
}

/// A chain over the rows that are held, with the bytes that it wants, half of the
/// time with one thing wrong. One of no plan where no row begins a chain.
pub fn held_chain(random: &mut Random, known: &Known) -> Vec<u8> {
    let rows = known.held.rows(known.recipient);
    let links = known.held.links(known.recipient);
    let first = match random.below(8) {
        0 if !rows.is_empty() => random.pick(&rows),
        1 => any_link(random, known),
        2 if random.once_in(2) => return unlogged_chain(random, known),
        _ if links.is_empty() => any_link(random, known),
        2 | 3 => longest(&links, known),
        _ => random.pick(&links),
    };
    let bytes = known.held.bytes_for(first);
    let (first, bytes) =
        if random.once_in(2) { spoilt(random, known, first, bytes) } else { (first, bytes) };
    record_of(&chain(first.way, first.identity, first.number, &bytes))
}

/// The release of a row that is held, spent or not: half of the time of one for who
/// runs, and now and then with one thing wrong. One of no plan where no row is held.
pub fn held_release(random: &mut Random, known: &Known) -> Vec<u8> {
    let rows = &known.held.escrowed;
    let mine: Vec<_> = rows.iter().filter(|row| row.recipient == known.recipient).collect();
    let (mut source, mut named) = match random.below(2) {
        0 if !mine.is_empty() => {
            let row = random.pick(&mine);
            (row.source, row.handle)
        }
        _ if !rows.is_empty() => {
            let row = &rows[random.index(rows.len())];
            (row.source, row.handle)
        }
        _ => (identity(random, known), number(random, known)),
    };
    match random.below(12) {
        0 => source = identity(random, known),
        1 => named ^= 1 << random.below(64),
        2 => named = number(random, known),
        _ => {}
    }
    record_of(&release(source, named))
}

/// A logged link that most often was never logged, with the tag that it would
/// have. It ends the chain, and may be longer than any value.
fn unlogged_chain(random: &mut Random, known: &Known) -> Vec<u8> {
    let identity = identity(random, known);
    let count = random.pick(&[0, 1, 2, 3, 255, 256, 257, 300]);
    let value = [vec![1], random.bytes(count, 3)].concat();
    record_of(&chain(2, identity, tag_of(identity, &value).0, &counted(&value)))
}

/// The link with most links behind it. Of chains that are too long the first has
/// a single link too many, if any has.
fn longest(links: &[Link], known: &Known) -> Link {
    let whole = |link: &&Link| known.held.whole(known.recipient, **link).unwrap_or(0);
    let longest = links.iter().rev().max_by_key(whole);
    *longest.expect("there is a link")
}

fn any_link(random: &mut Random, known: &Known) -> Link {
    Link { way: way(random), identity: identity(random, known), number: number(random, known) }
}

/// Where the last of the chain bytes' values begins, its count included.
fn last_value(bytes: &[u8]) -> usize {
    let mut last = 0;
    let mut rest = bytes;
    while let [low, high, behind @ ..] = rest {
        last = bytes.len() - rest.len();
        rest = behind.get(usize::from(*low) + 256 * usize::from(*high)..).unwrap_or_default();
    }
    last
}

/// One thing wrong in the call: its way, identity or number, or its bytes cut,
/// lengthened or altered.
fn spoilt(
    random: &mut Random,
    known: &Known,
    mut first: Link,
    mut bytes: Vec<u8>,
) -> (Link, Vec<u8>) {
    match random.below(10) {
        0 => first.way = way(random),
        1 => first.identity = 0,
        2 => first.identity = identity(random, known),
        3 => first.number ^= 1 << random.below(64),
        4 => bytes.truncate(bytes.len().saturating_sub(1)),
        5 => bytes.truncate(random.index(bytes.len() + 1)),
        6 => bytes.truncate(last_value(&bytes) + random.index(2)),
        7 => bytes.push(random.below(3) as u8),
        8 => bytes.extend([&[0, 0][..], &[1, 0, 1], &bytes.clone()][random.index(3)]),
        _ if bytes.is_empty() => bytes.push(0),
        _ => {
            let at = random.index(bytes.len());
            bytes[at] ^= 1 << random.below(8);
        }
    }
    (first, bytes)
}

fn identity(random: &mut Random, known: &Known) -> u64 {
    match random.below(8) {
        0 => 0,
        1 => random.u64(),
        2 => random.below(4),
        _ if known.identities.is_empty() => 1,
        _ => random.pick(&known.identities),
    }
}

/// Half of them are small, so that whole calls are accepted too.
fn edge(random: &mut Random) -> u16 {
    match random.below(4) {
        0 => random.between(0, 300),
        1 => random.pick(&EDGES),
        _ => random.between(0, 8),
    }
}

fn number(random: &mut Random, known: &Known) -> u64 {
    match random.below(6) {
        0 => random.u64(),
        1 | 2 => random.pick(&NUMBERS),
        _ if known.numbers.is_empty() => 7,
        _ => random.pick(&known.numbers),
    }
}

fn bytes(random: &mut Random) -> Vec<u8> {
    let most = if random.once_in(8) { SHARED_SIZE + 1 } else { 8 };
    let count = match random.below(8) {
        0 => random.pick(&[HEAP_SIZE - 1, HEAP_SIZE, HEAP_SIZE + 1]),
        _ => random.index(most + 1),
    };
    random.bytes(count, 256)
}

/// A whole record spoilt in one way, or one of a retired kind. A few of these
/// are still records.
pub fn malformed(random: &mut Random, known: &Known) -> Vec<u8> {
    let mut record = whole(random, known);
    match random.below(5) {
        0 => record[0] ^= 1 << random.below(8),
        1 => record[1] = random.byte(),
        2 => record[0] = random.byte(),
        3 => record = retired(random),
        _ => shorten(random, &mut record),
    }
    record
}

/// A whole record cut anywhere, perhaps to no byte.
pub fn cut(random: &mut Random, known: &Known) -> Vec<u8> {
    let mut record = whole(random, known);
    shorten(random, &mut record);
    record
}

/// Half of the time within the first 25 bytes, so that every field is cut often.
fn shorten(random: &mut Random, record: &mut Vec<u8>) {
    let most = if random.once_in(2) { record.len() } else { record.len().min(25) };
    record.truncate(random.index(most));
}

/// A start or a yield as it once was, kind 2 or 3 with its old map, or a start
/// cut behind its kind. All of them are of an unknown kind.
pub fn retired(random: &mut Random) -> Vec<u8> {
    match random.below(3) {
        0 => vec![0x03, 2, place(random)],
        1 => vec![0x03, 2],
        _ => vec![0x01, 3],
    }
}

/// Bytes of no plan, half of them with a known kind in front.
pub fn noise(random: &mut Random) -> Vec<u8> {
    let count = random.index(41);
    let mut noise = random.bytes(count, 256);
    if random.once_in(2) && count >= 2 {
        noise[0] =
            random.pick(&[0x01, 0x03, 0x07, 0x19, 0x1B, 0x25, 0x2D, 0x3D, 0x49, 0x4B, 0x65, 0x67]);
        noise[1] = random.between(0, 17) as u8;
    }
    noise
}

/// Whole, whole with bytes behind it, malformed or noise.
pub fn any(random: &mut Random, known: &Known) -> Vec<u8> {
    match random.below(8) {
        0 => noise(random),
        1 | 2 => malformed(random, known),
        3 => [whole(random, known), noise(random)].concat(),
        _ => whole(random, known),
    }
}

/// Sizes of an output buffer that isn't of its size.
pub const WRONG_OUTPUT_SIZES: [usize; 7] = [0, 1, 256, 1_023, 1_025, 2_048, 4_096];

/// Mostly the right size.
pub fn output_size(random: &mut Random) -> usize {
    if random.once_in(8) {
        random.pick(&WRONG_OUTPUT_SIZES)
    } else {
        OUTPUT_SIZE
    }
}

#[cfg(test)]
mod tests {
    use super::*;
    use crate::cuts::missing;
    use second::{read, Refusal};

    /// Whole records read whole; the others meet each of the reader's refusals.
    #[test]
    fn records_are_what_they_are_called() {
        let mut random = Random::new(1);
        let known = Known::default();
        let mut refused = Vec::new();
        for _ in 0..2_000 {
            let record = whole(&mut random, &known);
            assert_eq!(read(&record).map(|(_, used)| used), Ok(record.len()));
            refused.extend(read(&malformed(&mut random, &known)).err());
            refused.extend(read(&noise(&mut random)).err());
            refused.extend(read(&any(&mut random, &known)).err());
        }
        assert!(refused.contains(&Refusal::UnknownKind) && refused.contains(&Refusal::WrongMap));
        for missing in 1..=8 {
            assert!(refused.contains(&Refusal::Cut { missing }), "{missing}");
        }
    }

    /// Cut anywhere, a whole record is 1 with what document 01's widths say that
    /// it misses.
    #[test]
    fn cut_records_miss_what_the_widths_say() {
        let mut random = Random::new(4);
        let mut counts = [0; 9];
        for _ in 0..20_000 {
            let whole = whole(&mut random, &Known::default());
            let mut record = whole.clone();
            shorten(&mut random, &mut record);
            let missing = missing(&whole, record.len());
            assert_eq!(read(&record), Err(Refusal::Cut { missing }), "{record:02x?}");
            counts[missing.min(9) - 1] += 1;
        }
        println!("{counts:?}");
        assert!(counts.iter().all(|&count| count > 100), "{counts:?}");
    }

    /// Hand overs name every place, 16, and places above it; kinds 2 and 3 come,
    /// and are unknown.
    #[test]
    fn hand_overs_and_retired_kinds_come() {
        let mut random = Random::new(3);
        let known = Known::default();
        let mut handed_over = [0; 256];
        let mut retired = [0; 4];
        for _ in 0..20_000 {
            if let [0x03, 14, place] = whole(&mut random, &known)[..] {
                handed_over[usize::from(place)] += 1;
            }
            let record = any(&mut random, &known);
            if let [map, kind @ (2 | 3), ..] = record[..] {
                if map & 1 == 1 {
                    assert_eq!(read(&record), Err(Refusal::UnknownKind));
                    retired[usize::from(kind)] += 1;
                }
            }
        }
        let above: usize = handed_over[17..].iter().sum();
        println!("to 0 to 16: {:?}, above: {above}; {retired:?}", &handed_over[..17]);
        assert!(handed_over[..17].iter().all(|&count| count > 10) && above > 100);
        assert!(retired[2] > 100 && retired[3] > 100, "{retired:?}");
    }

    #[test]
    fn output_sizes_vary() {
        let mut random = Random::new(2);
        let sizes: Vec<usize> = (0..1_000).map(|_| output_size(&mut random)).collect();
        assert!(WRONG_OUTPUT_SIZES.iter().all(|size| sizes.contains(size)));
        assert!(!WRONG_OUTPUT_SIZES.contains(&OUTPUT_SIZE));
        assert!(sizes.iter().filter(|&&size| size == OUTPUT_SIZE).count() > 700);
    }
}

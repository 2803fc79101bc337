//! The ways to damage a box: each clause of soundness broken, and where the box
//! allows it no other.

use second::{tag_of, EscrowRow, Handle, Host, LogRow, Tag, HEAP_SIZE, PLACES, ROWS, VALUES_SIZE};

use crate::clauses::{escrow_used, log_used, taken, value, Clause};
use crate::random::Random;

/// One way to damage a box.
#[derive(Clone, Copy)]
pub struct Damage {
    pub name: &'static str,
    /// The clause that breaks.
    pub clause: Clause,
    /// Damages the box, where it has what this takes: a used row, a free place
    /// and so on. Says whether it did. The box need not be sound before.
    pub apply: fn(&mut Host, &mut Random) -> bool,
}

/// All the ways.
pub fn damages() -> Vec<Damage> {
    let mut damages = Vec::new();
    let mut add = |name, clause, apply| damages.push(Damage { name, clause, apply });
    add_sizes(&mut add);
    add_places(&mut add);
    add_counts(&mut add);
    add_log_spans(&mut add);
    add_log_rows(&mut add);
    add_escrow_spans(&mut add);
    add_escrow_rows(&mut add);
    add_unused_rows(&mut add);
    add_unused_bytes(&mut add);
    damages
}

/// All pairs that break two clauses, each once.
pub fn pairs() -> Vec<(Damage, Damage)> {
    let damages = damages();
    let mut pairs = Vec::new();
    for (n, first) in damages.iter().enumerate() {
        let others = damages[n + 1..].iter().filter(|second| second.clause != first.clause);
        pairs.extend(others.map(|second| (*first, *second)));
    }
    pairs
}

type Add<'a> = dyn FnMut(&'static str, Clause, fn(&mut Host, &mut Random) -> bool) + 'a;

fn add_sizes(add: &mut Add) {
    use Clause::*;
    add("heaps one short", HeapsSize, |host, _| shorten(&mut host.heaps));
    add("heaps one long", HeapsSize, |host, _| lengthen(&mut host.heaps));
    add("heaps empty", HeapsSize, |host, _| empty(&mut host.heaps));
    add("shared one short", SharedSize, |host, _| shorten(&mut host.shared));
    add("shared one long", SharedSize, |host, _| lengthen(&mut host.shared));
    add("shared empty", SharedSize, |host, _| empty(&mut host.shared));
    add("log one short", LogSize, |host, _| shorten(&mut host.log));
    add("log one long", LogSize, |host, _| lengthen(&mut host.log));
    add("log empty", LogSize, |host, _| empty(&mut host.log));
    add("log values one short", LogValuesSize, |host, _| shorten(&mut host.log_values));
    add("log values one long", LogValuesSize, |host, _| lengthen(&mut host.log_values));
    add("log values empty", LogValuesSize, |host, _| empty(&mut host.log_values));
    add("escrow one short", EscrowSize, |host, _| shorten(&mut host.escrow));
    add("escrow one long", EscrowSize, |host, _| lengthen(&mut host.escrow));
    add("escrow empty", EscrowSize, |host, _| empty(&mut host.escrow));
    add("escrow values one short", EscrowValuesSize, |host, _| shorten(&mut host.escrow_values));
    add("escrow values one long", EscrowValuesSize, |host, _| lengthen(&mut host.escrow_values));
    add("escrow values empty", EscrowValuesSize, |host, _| empty(&mut host.escrow_values));
}

fn shorten<T>(buffer: &mut Vec<T>) -> bool {
    buffer.pop().is_some()
}

fn lengthen<T: Default>(buffer: &mut Vec<T>) -> bool {
    buffer.push(T::default());
    true
}

fn empty<T>(buffer: &mut Vec<T>) -> bool {
    let held = !buffer.is_empty();
    buffer.clear();
    held
}

fn add_places(add: &mut Add) {
    use Clause::*;
    add("an empty place runs", Running, |host, random| {
        at(place_where(host, random, free), |place| {
            host.record.running = place as u8;
        })
    });
    add("place 17 runs", Running, |host, _| {
        host.record.running = 17;
        true
    });
    add("a place above 16 runs", Running, |host, random| {
        host.record.running = random.between(17, 255) as u8;
        true
    });
    add("a taken place has identity 0", Identities, |host, random| {
        at(place_where(host, random, taken), |place| host.record.identities[place] = 0)
    });
    add("an empty place has an identity", Identities, |host, random| {
        at(place_where(host, random, free), |place| {
            host.record.identities[place] = random.u64() | 1;
        })
    });
    add("an empty place's bit stands", Identities, |host, random| {
        at(place_where(host, random, free), |place| {
            host.record.taken |= 1 << place;
        })
    });
    add("a taken place's bit is down", Identities, |host, random| {
        at(place_where(host, random, idle), |place| {
            heap(host, place).fill(0);
            host.record.taken &= !(1 << place);
        })
    });
    add("an empty heap's first byte", EmptyHeaps, |host, random| heap_byte(host, random, 0));
    add("an empty heap's last byte", EmptyHeaps, |host, random| heap_byte(host, random, 255));
    add("an empty heap's byte", EmptyHeaps, |host, random| {
        let byte = random.index(HEAP_SIZE);
        heap_byte(host, random, byte)
    });
}

/// Does it at the index, if there is one. Says whether it did.
fn at(index: Option<usize>, mut change: impl FnMut(usize)) -> bool {
    index.map(|index| change(index)).is_some()
}

/// A place of which this holds.
fn place_where(host: &Host, random: &mut Random, holds: fn(&Host, usize) -> bool) -> Option<usize> {
    let places: Vec<usize> = (0..PLACES).filter(|&place| holds(host, place)).collect();
    if places.is_empty() {
        None
    } else {
        Some(random.pick(&places))
    }
}

/// Empty.
fn free(host: &Host, place: usize) -> bool {
    !taken(host, place)
}

/// Taken and not running.
fn idle(host: &Host, place: usize) -> bool {
    taken(host, place) && usize::from(host.record.running) != place
}

/// The place's heap, as far as it was lent.
fn heap(host: &mut Host, place: usize) -> &mut [u8] {
    host.heaps.chunks_mut(HEAP_SIZE).nth(place).unwrap_or_default()
}

/// Sets a byte in an empty place's heap.
fn heap_byte(host: &mut Host, random: &mut Random, byte: usize) -> bool {
    let place = place_where(host, random, free);
    place.map_or(false, |place| set_byte(heap(host, place), byte, random))
}

/// Makes a zero byte another. Says whether there was one.
fn set_byte(bytes: &mut [u8], index: usize, random: &mut Random) -> bool {
    match bytes.get_mut(index) {
        Some(byte) if *byte == 0 => {
            *byte = random.between(1, 255) as u8;
            true
        }
        _ => false,
    }
}

/// On a table that is full these break no other clause. 4,097 bytes are used
/// by a row more, whose value lies beyond the table.
fn add_counts(add: &mut Add) {
    use Clause::Counts;
    add("65 log rows used", Counts, |host, _| {
        host.record.log_rows = 65;
        true
    });
    add("more log rows used", Counts, |host, random| {
        host.record.log_rows = random.between(66, u16::MAX);
        true
    });
    add("65 escrow rows used", Counts, |host, _| {
        host.record.escrow_rows = 65;
        true
    });
    add("more escrow rows used", Counts, |host, random| {
        host.record.escrow_rows = random.between(66, u16::MAX);
        true
    });
    add("4,097 log bytes used", Counts, |host, random| {
        if usize::from(host.record.log_bytes) == VALUES_SIZE {
            add_log_row(host, random.u64() | 1, &[7]);
        }
        host.record.log_bytes = 4_097;
        true
    });
    add("4,097 escrow bytes used", Counts, |host, random| {
        if usize::from(host.record.escrow_bytes) == VALUES_SIZE {
            add_escrow_row(host, random.below(1 << 48), 1);
        }
        host.record.escrow_bytes = 4_097;
        true
    });
}

/// Adds a row whose tag is right, and its value as far as there is room. Says
/// whether there was a row left.
fn add_log_row(host: &mut Host, identity: u64, value: &[u8]) -> bool {
    let (rows, first) = (log_used(host), host.record.log_bytes);
    let length = value.len() as u16;
    match host.log.get_mut(rows) {
        Some(row) => *row = LogRow { identity, tag: tag_of(identity, value), first, length },
        None => return false,
    }
    let room = host.log_values.iter_mut().skip(usize::from(first));
    room.zip(value).for_each(|(byte, new)| *byte = *new);
    host.record.log_rows = rows as u16 + 1;
    host.record.log_bytes = first.saturating_add(length);
    true
}

/// Adds a row with a handle that carries the length. Says whether there was one
/// left. The value stays zero.
fn add_escrow_row(host: &mut Host, draw: u64, length: u16) -> bool {
    let (rows, first) = (escrow_used(host), host.record.escrow_bytes);
    let handle = Handle((u64::from(length) << 48) + draw);
    match host.escrow.get_mut(rows) {
        Some(row) => *row = EscrowRow { source: 3, recipient: 4, handle, first, length, mark: 0 },
        None => return false,
    }
    host.record.escrow_rows = rows as u16 + 1;
    host.record.escrow_bytes = first.saturating_add(length);
    true
}

/// A used row.
fn used_log_row(host: &Host, random: &mut Random) -> Option<usize> {
    let used = log_used(host);
    (used > 0).then(|| random.index(used))
}

/// A used row.
fn used_escrow_row(host: &Host, random: &mut Random) -> Option<usize> {
    let used = escrow_used(host);
    (used > 0).then(|| random.index(used))
}

/// Sets the row's tag right again, so that no clause but the one meant breaks.
fn retag(host: &mut Host, n: usize) {
    let row = &mut host.log[n];
    if let Some(value) = value(&host.log_values, row.first, row.length) {
        row.tag = tag_of(row.identity, value);
    }
}

fn add_log_spans(add: &mut Add) {
    use Clause::LogFollows;
    add("the first log row begins at 1", LogFollows, |host, _| {
        at((log_used(host) > 0).then_some(0), |n| {
            host.log[n].first = 1;
            retag(host, n);
        })
    });
    add("a log row begins late", LogFollows, |host, random| {
        at(used_log_row(host, random), |n| {
            host.log[n].first = host.log[n].first.wrapping_add(1);
            retag(host, n);
        })
    });
    add("a log row begins early", LogFollows, |host, random| {
        at(used_log_row(host, random), |n| {
            host.log[n].first = host.log[n].first.wrapping_sub(1);
            retag(host, n);
        })
    });
    add("a log row is longer", LogFollows, |host, random| {
        at(used_log_row(host, random).filter(|&n| host.log[n].length < 256), |n| {
            host.log[n].length += 1;
            retag(host, n);
        })
    });
    add("two log rows change places", LogFollows, |host, _| {
        let used = log_used(host);
        let two = (1..used).find(|&n| host.log[n - 1].length > 0);
        at(two.filter(|&n| host.log[n].length > 0), |n| host.log.swap(n - 1, n))
    });
    add("one log byte more used", LogFollows, |host, _| {
        let less = usize::from(host.record.log_bytes) < VALUES_SIZE;
        at(less.then_some(0), |_| host.record.log_bytes += 1)
    });
    add("one log byte fewer used", LogFollows, one_log_byte_fewer);
}

fn add_log_rows(add: &mut Add) {
    use Clause::*;
    add("a log value of 257 bytes", LogLengths, |host, random| {
        let bytes = random.bytes(257, 256);
        fits(host.record.log_bytes, 257) && add_log_row(host, random.u64() | 1, &bytes)
    });
    add("a longer log value", LogLengths, |host, random| {
        let length = random.between(258, 1_000);
        let bytes = random.bytes(usize::from(length), 256);
        fits(host.record.log_bytes, length) && add_log_row(host, random.u64() | 1, &bytes)
    });
    add("a log row of identity 0", LogIdentities, |host, random| {
        at(used_log_row(host, random), |n| {
            host.log[n].identity = 0;
            retag(host, n);
        })
    });
    add("a pair logged twice", Pairs, pair_again);
    add("a bit of a tag", Tags, |host, random| {
        at(used_log_row(host, random), |n| host.log[n].tag.0 ^= 1 << random.below(64))
    });
    add("a tag of 0", Tags, |host, random| {
        at(used_log_row(host, random), |n| host.log[n].tag = Tag(0))
    });
    add("a bit of a logged value", Tags, |host, random| {
        let used = usize::from(host.record.log_bytes).min(host.log_values.len());
        at((used > 0).then(|| random.index(used)), |byte| {
            host.log_values[byte] ^= 1 << random.below(8);
        })
    });
}

/// Whether so many value bytes are left.
fn fits(used: u16, length: u16) -> bool {
    usize::from(used) + usize::from(length) <= VALUES_SIZE
}

/// The last used byte becomes an unused zero, the last row keeps its length.
fn one_log_byte_fewer(host: &mut Host, _: &mut Random) -> bool {
    let last = (0..log_used(host)).rfind(|&n| host.log[n].length > 0);
    let end = usize::from(host.record.log_bytes);
    let byte = end.checked_sub(1).and_then(|end| host.log_values.get_mut(end));
    match (last, byte) {
        (Some(last), Some(byte)) => {
            *byte = 0;
            host.record.log_bytes -= 1;
            retag(host, last);
            true
        }
        _ => false,
    }
}

fn pair_again(host: &mut Host, random: &mut Random) -> bool {
    let row = used_log_row(host, random).map(|n| host.log[n]);
    row.map_or(false, |LogRow { identity, first, length, .. }| {
        let value = value(&host.log_values, first, length).map(<[u8]>::to_vec);
        fits(host.record.log_bytes, length)
            && value.map_or(false, |value| add_log_row(host, identity, &value))
    })
}

fn add_escrow_spans(add: &mut Add) {
    use Clause::EscrowFollows;
    add("the first escrow row begins at 1", EscrowFollows, |host, _| {
        at((escrow_used(host) > 0).then_some(0), |n| host.escrow[n].first = 1)
    });
    add("an escrow row begins late", EscrowFollows, |host, random| {
        at(used_escrow_row(host, random), |n| {
            host.escrow[n].first = host.escrow[n].first.wrapping_add(1);
        })
    });
    add("an escrow row begins early", EscrowFollows, |host, random| {
        at(used_escrow_row(host, random), |n| {
            host.escrow[n].first = host.escrow[n].first.wrapping_sub(1);
        })
    });
    add("an escrow row is longer", EscrowFollows, |host, random| {
        at(used_escrow_row(host, random).filter(|&n| host.escrow[n].length < 256), |n| {
            host.escrow[n].length += 1;
            host.escrow[n].handle.0 += 1 << 48;
        })
    });
    add("two escrow rows change places", EscrowFollows, |host, _| {
        let used = escrow_used(host);
        let two = (1..used).find(|&n| host.escrow[n - 1].length > 0);
        at(two.filter(|&n| host.escrow[n].length > 0), |n| host.escrow.swap(n - 1, n))
    });
    add("one escrow byte more used", EscrowFollows, |host, _| {
        let less = usize::from(host.record.escrow_bytes) < VALUES_SIZE;
        at(less.then_some(0), |_| host.record.escrow_bytes += 1)
    });
    add("one escrow byte fewer used", EscrowFollows, |host, _| {
        let end = usize::from(host.record.escrow_bytes).min(host.escrow_values.len());
        at(end.checked_sub(1), |last| {
            host.escrow_values[last] = 0;
            host.record.escrow_bytes -= 1;
        })
    });
}

fn add_escrow_rows(add: &mut Add) {
    use Clause::*;
    add("an escrow value of 257 bytes", EscrowLengths, |host, random| {
        fits(host.record.escrow_bytes, 257) && add_escrow_row(host, random.below(1 << 48), 257)
    });
    add("a longer escrow value", EscrowLengths, |host, random| {
        let length = random.between(258, 1_000);
        fits(host.record.escrow_bytes, length)
            && add_escrow_row(host, random.below(1 << 48), length)
    });
    add("an escrow row of source 0", EscrowIdentities, |host, random| {
        at(used_escrow_row(host, random), |n| host.escrow[n].source = 0)
    });
    add("an escrow row of recipient 0", EscrowIdentities, |host, random| {
        at(used_escrow_row(host, random), |n| host.escrow[n].recipient = 0)
    });
    add("a handle given twice", Handles, handle_again);
    add("a bit of a handle's length", HandleLengths, |host, random| {
        at(unspent_row(host, random), |n| {
            host.escrow[n].handle.0 ^= 1 << random.between(48, 63);
        })
    });
    add("a handle of one byte more", HandleLengths, |host, random| {
        at(unspent_row(host, random), |n| {
            host.escrow[n].handle.0 = host.escrow[n].handle.0.wrapping_add(1 << 48);
        })
    });
    add_marks(add);
}

fn add_marks(add: &mut Add) {
    use Clause::*;
    add("a mark of 2", Marks, |host, random| {
        at(used_escrow_row(host, random), |n| host.escrow[n].mark = 2)
    });
    add("a mark above 1", Marks, |host, random| {
        at(used_escrow_row(host, random), |n| {
            host.escrow[n].mark = random.between(2, 255) as u8;
        })
    });
    add("a value's row is marked spent", SpentLengths, |host, random| {
        at(unspent_row(host, random).filter(|&n| host.escrow[n].length > 0), |n| {
            host.escrow[n].mark = 1;
        })
    });
    add("a spent row of one byte", SpentLengths, spent_with_a_byte);
    add("a spent row's mark is down", HandleLengths, |host, random| {
        let long = |&n: &usize| host.escrow[n].handle.0 >> 48 != 0;
        at(spent_row(host, random).filter(long), |n| host.escrow[n].mark = 0)
    });
    add("a spent row's handle given again", Handles, |host, random| {
        let row = spent_row(host, random).map(|n| host.escrow[n]);
        row.map_or(false, |row| again(host, row.handle))
    });
}

/// A used row with a value.
fn unspent_row(host: &Host, random: &mut Random) -> Option<usize> {
    used_escrow_row(host, random).filter(|&n| host.escrow[n].mark != 1)
}

/// A spent row as it should be.
fn spent_row(host: &Host, random: &mut Random) -> Option<usize> {
    let used = &host.escrow[..escrow_used(host)];
    let is_spent = |&n: &usize| used[n].mark == 1 && used[n].length == 0;
    let spent: Vec<usize> = (0..used.len()).filter(is_spent).collect();
    (!spent.is_empty()).then(|| random.pick(&spent))
}

/// A spent row has the byte at its place, and later values make room for it.
fn spent_with_a_byte(host: &mut Host, random: &mut Random) -> bool {
    let (used, bytes) = (escrow_used(host), usize::from(host.record.escrow_bytes));
    let room = bytes < VALUES_SIZE.min(host.escrow_values.len());
    at(spent_row(host, random).filter(|_| room), |n| {
        let first = usize::from(host.escrow[n].first).min(bytes);
        host.escrow_values.copy_within(first..bytes, first + 1);
        host.escrow[n].length = 1;
        host.escrow[n + 1..used].iter_mut().for_each(|row| row.first = row.first.wrapping_add(1));
        host.record.escrow_bytes += 1;
    })
}

/// Adds a row with the handle of another.
fn handle_again(host: &mut Host, random: &mut Random) -> bool {
    let row = used_escrow_row(host, random).map(|n| host.escrow[n]);
    row.map_or(false, |row| again(host, row.handle))
}

/// Adds a row with this handle, where there is room for as many bytes as it carries.
fn again(host: &mut Host, handle: Handle) -> bool {
    let (length, draw) = ((handle.0 >> 48) as u16, handle.0 & ((1 << 48) - 1));
    fits(host.record.escrow_bytes, length) && add_escrow_row(host, draw, length)
}

fn add_unused_rows(add: &mut Add) {
    use Clause::*;
    add("an unused log row's identity", UnusedLogRows, |host, random| {
        at(unused_log_row(host, random), |n| host.log[n].identity = random.u64() | 1)
    });
    add("an unused log row's tag", UnusedLogRows, |host, random| {
        at(unused_log_row(host, random), |n| host.log[n].tag = Tag(1 << random.below(64)))
    });
    add("an unused log row's first byte", UnusedLogRows, |host, random| {
        at(unused_log_row(host, random), |n| host.log[n].first = random.between(1, u16::MAX))
    });
    add("an unused log row's length", UnusedLogRows, |host, random| {
        at(unused_log_row(host, random), |n| host.log[n].length = random.between(1, u16::MAX))
    });
    add("an unused escrow row's source", UnusedEscrowRows, |host, random| {
        at(unused_escrow_row(host, random), |n| host.escrow[n].source = random.u64() | 1)
    });
    add("an unused escrow row's recipient", UnusedEscrowRows, |host, random| {
        at(unused_escrow_row(host, random), |n| host.escrow[n].recipient = random.u64() | 1)
    });
    add("an unused escrow row's handle", UnusedEscrowRows, |host, random| {
        at(unused_escrow_row(host, random), |n| {
            host.escrow[n].handle = Handle(1 << random.below(64));
        })
    });
    add("an unused escrow row's first byte", UnusedEscrowRows, |host, random| {
        at(unused_escrow_row(host, random), |n| host.escrow[n].first = random.between(1, u16::MAX))
    });
    add("an unused escrow row's length", UnusedEscrowRows, |host, random| {
        at(unused_escrow_row(host, random), |n| host.escrow[n].length = random.between(1, u16::MAX))
    });
    add("an unused escrow row's mark", UnusedEscrowRows, |host, random| {
        at(unused_escrow_row(host, random), |n| host.escrow[n].mark = 1)
    });
    add("an unused escrow row's other mark", UnusedEscrowRows, |host, random| {
        at(unused_escrow_row(host, random), |n| {
            host.escrow[n].mark = random.between(2, 255) as u8;
        })
    });
}

fn add_unused_bytes(add: &mut Add) {
    use Clause::*;
    add("the first unused log byte", UnusedLogBytes, |host, random| {
        let first = usize::from(host.record.log_bytes);
        set_byte(&mut host.log_values, first, random)
    });
    add("the last unused log byte", UnusedLogBytes, |host, random| {
        let used = usize::from(host.record.log_bytes);
        let last = VALUES_SIZE - 1;
        used <= last && set_byte(&mut host.log_values, last, random)
    });
    add("the first unused escrow byte", UnusedEscrowBytes, |host, random| {
        let first = usize::from(host.record.escrow_bytes);
        set_byte(&mut host.escrow_values, first, random)
    });
    add("the last unused escrow byte", UnusedEscrowBytes, |host, random| {
        let used = usize::from(host.record.escrow_bytes);
        let last = VALUES_SIZE - 1;
        used <= last && set_byte(&mut host.escrow_values, last, random)
    });
}

/// An unused row: the first, the last or another.
fn unused_log_row(host: &Host, random: &mut Random) -> Option<usize> {
    unused(log_used(host), host.log.len(), random)
}

/// An unused row: the first, the last or another.
fn unused_escrow_row(host: &Host, random: &mut Random) -> Option<usize> {
    unused(escrow_used(host), host.escrow.len(), random)
}

fn unused(used: usize, rows: usize, random: &mut Random) -> Option<usize> {
    let other = used + random.index(rows.saturating_sub(used).max(1));
    (used < rows).then(|| random.pick(&[used, rows - 1, other]))
}

/// One alteration anywhere in a box of the right sizes. The box may be sound
/// after it or not.
pub fn scramble(host: &mut Host, random: &mut Random) {
    let record = &mut host.record;
    let row = random.index(ROWS);
    match random.below(14) {
        0 => record.taken ^= 1 << random.below(16),
        1 => record.running = random.between(0, 18) as u8,
        2 => record.identities[random.index(PLACES)] = random.below(2),
        3 => nudge(&mut record.log_rows, random),
        4 => nudge(&mut record.log_bytes, random),
        5 => nudge(&mut record.escrow_rows, random),
        6 => nudge(&mut record.escrow_bytes, random),
        7 => flip(&mut host.heaps, random),
        8 => flip(&mut host.shared, random),
        9 => flip(&mut host.log_values, random),
        10 => flip(&mut host.escrow_values, random),
        11 => scramble_log_row(&mut host.log[row], random),
        12 => scramble_escrow_row(&mut host.escrow[row], random),
        _ => host.log.swap(row, 0),
    }
}

/// One more, one fewer, or any.
fn nudge(count: &mut u16, random: &mut Random) {
    *count = match random.below(3) {
        0 => count.wrapping_add(1),
        1 => count.wrapping_sub(1),
        _ => random.between(0, u16::MAX),
    };
}

fn flip(bytes: &mut [u8], random: &mut Random) {
    bytes[random.index(bytes.len())] ^= 1 << random.below(8);
}

fn scramble_log_row(row: &mut LogRow, random: &mut Random) {
    match random.below(4) {
        0 => row.identity = random.below(3),
        1 => row.tag.0 ^= 1 << random.below(64),
        2 => nudge(&mut row.first, random),
        _ => nudge(&mut row.length, random),
    }
}

fn scramble_escrow_row(row: &mut EscrowRow, random: &mut Random) {
    match random.below(7) {
        0 => row.source = random.below(3),
        1 => row.recipient = random.below(3),
        2 => row.handle.0 ^= 1 << random.below(64),
        3 => nudge(&mut row.first, random),
        4 => row.mark = random.pick(&[0, 1, 2, 3, 128, 255]),
        5 => row.mark ^= 1,
        _ => nudge(&mut row.length, random),
    }
}

//! Soundness once more, clause by clause and each clause by itself, so that a
//! test can say which ones a damaged box breaks.

use second::{
    tag_of, EscrowRow, Host, LogRow, HEAPS_SIZE, HEAP_SIZE, NONE_RUNS, PLACES, ROWS, SHARED_SIZE,
    VALUES_SIZE, VALUE_MAX,
};

/// What document 01 asks of a sound box in lent buffers of their sizes. The
/// output buffer is apart.
#[derive(Clone, Copy, Debug, PartialEq, Eq)]
pub enum Clause {
    HeapsSize,
    SharedSize,
    LogSize,
    LogValuesSize,
    EscrowSize,
    EscrowValuesSize,
    /// The running place is 16 or taken.
    Running,
    /// Identities are non-zero in taken places and zero in empty ones.
    Identities,
    /// An empty place's heap is all zeros.
    EmptyHeaps,
    /// No used-count exceeds its table.
    Counts,
    /// Each used row begins where the one before ended, the first at 0, and
    /// lengths sum to the bytes used.
    LogFollows,
    EscrowFollows,
    /// Lengths are at most 256.
    LogLengths,
    EscrowLengths,
    /// Identities in used rows are non-zero.
    LogIdentities,
    EscrowIdentities,
    /// Log pairs differ from row to row.
    Pairs,
    /// Each tag is the right one.
    Tags,
    /// Handles differ from row to row.
    Handles,
    /// Handles carry the row's length, but in spent rows.
    HandleLengths,
    /// A mark is 0 or 1.
    Marks,
    /// A spent row's length is 0.
    SpentLengths,
    /// All unused rows and value bytes are zero.
    UnusedLogRows,
    UnusedEscrowRows,
    UnusedLogBytes,
    UnusedEscrowBytes,
}

/// The clauses that the box breaks. A clause about values passes over a row
/// that doesn't lie within the value bytes; another clause is broken then.
pub fn broken(host: &Host) -> Vec<Clause> {
    let mut clauses = sizes(host);
    clauses.extend(places_and_counts(host));
    clauses.extend(log(host));
    clauses.extend(escrow(host));
    clauses.into_iter().filter(|(_, holds)| !holds).map(|(clause, _)| clause).collect()
}

/// Clauses, and whether each holds.
type Held = Vec<(Clause, bool)>;

fn sizes(host: &Host) -> Held {
    vec![
        (Clause::HeapsSize, host.heaps.len() == HEAPS_SIZE),
        (Clause::SharedSize, host.shared.len() == SHARED_SIZE),
        (Clause::LogSize, host.log.len() == ROWS),
        (Clause::LogValuesSize, host.log_values.len() == VALUES_SIZE),
        (Clause::EscrowSize, host.escrow.len() == ROWS),
        (Clause::EscrowValuesSize, host.escrow_values.len() == VALUES_SIZE),
    ]
}

fn places_and_counts(host: &Host) -> Held {
    vec![
        (Clause::Running, running_holds(host)),
        (Clause::Identities, identities_hold(host)),
        (Clause::EmptyHeaps, empty_heaps_hold(host)),
        (Clause::Counts, counts_hold(host)),
    ]
}

fn log(host: &Host) -> Held {
    let (used, unused) = host.log.split_at(log_used(host));
    let spans: Vec<_> = used.iter().map(|row| (row.first, row.length)).collect();
    vec![
        (Clause::LogFollows, follow(&spans, host.record.log_bytes)),
        (Clause::LogLengths, lengths_hold(&spans)),
        (Clause::LogIdentities, used.iter().all(|row| row.identity != 0)),
        (Clause::Pairs, pairs_hold(used, &host.log_values)),
        (Clause::Tags, tags_hold(used, &host.log_values)),
        (Clause::UnusedLogRows, unused.iter().all(|row| *row == LogRow::default())),
        (Clause::UnusedLogBytes, zero_from(&host.log_values, host.record.log_bytes)),
    ]
}

fn escrow(host: &Host) -> Held {
    let (used, unused) = host.escrow.split_at(escrow_used(host));
    let spans: Vec<_> = used.iter().map(|row| (row.first, row.length)).collect();
    let handles: Vec<_> = used.iter().map(|row| row.handle.0).collect();
    let carries = |row: &EscrowRow| row.mark == 1 || row.handle.0 >> 48 == u64::from(row.length);
    vec![
        (Clause::EscrowFollows, follow(&spans, host.record.escrow_bytes)),
        (Clause::EscrowLengths, lengths_hold(&spans)),
        (Clause::EscrowIdentities, used.iter().all(|row| row.source != 0 && row.recipient != 0)),
        (Clause::Handles, all_differ(&handles)),
        (Clause::HandleLengths, used.iter().all(carries)),
        (Clause::Marks, used.iter().all(|row| row.mark < 2)),
        (Clause::SpentLengths, used.iter().all(|row| row.mark != 1 || row.length == 0)),
        (Clause::UnusedEscrowRows, unused.iter().all(|row| *row == EscrowRow::default())),
        (Clause::UnusedEscrowBytes, zero_from(&host.escrow_values, host.record.escrow_bytes)),
    ]
}

/// Used log rows that were lent.
pub(crate) fn log_used(host: &Host) -> usize {
    usize::from(host.record.log_rows).min(host.log.len())
}

/// Used escrow rows that were lent.
pub(crate) fn escrow_used(host: &Host) -> usize {
    usize::from(host.record.escrow_rows).min(host.escrow.len())
}

/// Whether place p, at most 15, is taken.
pub(crate) fn taken(host: &Host, place: usize) -> bool {
    host.record.taken >> place & 1 == 1
}

/// The bytes of a span, where it lies within the value bytes.
pub(crate) fn value(values: &[u8], first: u16, length: u16) -> Option<&[u8]> {
    let first = usize::from(first);
    values.get(first..first + usize::from(length))
}

fn running_holds(host: &Host) -> bool {
    let running = host.record.running;
    running == NONE_RUNS || (running < NONE_RUNS && taken(host, usize::from(running)))
}

fn identities_hold(host: &Host) -> bool {
    (0..PLACES).all(|place| taken(host, place) == (host.record.identities[place] != 0))
}

fn empty_heaps_hold(host: &Host) -> bool {
    let mut heaps = host.heaps.chunks(HEAP_SIZE).take(PLACES).enumerate();
    heaps.all(|(place, heap)| taken(host, place) || heap.iter().all(|&byte| byte == 0))
}

fn counts_hold(host: &Host) -> bool {
    let record = &host.record;
    let rows = [record.log_rows, record.escrow_rows];
    let bytes = [record.log_bytes, record.escrow_bytes];
    rows.iter().all(|&count| usize::from(count) <= ROWS)
        && bytes.iter().all(|&count| usize::from(count) <= VALUES_SIZE)
}

/// A span is a row's first byte and length.
fn follow(spans: &[(u16, u16)], bytes_used: u16) -> bool {
    let mut end = 0;
    let joined = spans.iter().all(|&(first, length)| {
        let begins = usize::from(first) == end;
        end += usize::from(length);
        begins
    });
    joined && end == usize::from(bytes_used)
}

fn lengths_hold(spans: &[(u16, u16)]) -> bool {
    spans.iter().all(|&(_, length)| usize::from(length) <= VALUE_MAX)
}

fn pairs_hold(rows: &[LogRow], values: &[u8]) -> bool {
    let pairs: Vec<_> = rows
        .iter()
        .filter_map(|row| Some((row.identity, value(values, row.first, row.length)?)))
        .collect();
    all_differ(&pairs)
}

fn tags_hold(rows: &[LogRow], values: &[u8]) -> bool {
    rows.iter().all(|row| match value(values, row.first, row.length) {
        Some(value) => row.tag == tag_of(row.identity, value),
        None => true,
    })
}

fn all_differ<T: PartialEq>(items: &[T]) -> bool {
    items.iter().enumerate().all(|(n, item)| !items[..n].contains(item))
}

fn zero_from(values: &[u8], bytes_used: u16) -> bool {
    values.iter().skip(usize::from(bytes_used)).all(|&byte| byte == 0)
}

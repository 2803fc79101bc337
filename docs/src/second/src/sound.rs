//! When a box is sound, clause by clause. A later clause may rely on those
//! before it.

use crate::tables::{
    BoxRecord, EscrowRow, LogRow, Tables, HEAPS_SIZE, HEAP_SIZE, NONE_RUNS, PLACES, ROWS,
    SHARED_SIZE, SPENT, VALUES_SIZE, VALUE_MAX,
};
use crate::tags::tag_of;

static ZEROS: [u8; VALUES_SIZE] = [0; VALUES_SIZE];

/// Whether each lent buffer is of its size, the output buffer apart.
pub fn has_its_sizes(tables: &Tables) -> bool {
    tables.heaps.len() == HEAPS_SIZE
        && tables.shared.len() == SHARED_SIZE
        && tables.log.len() == ROWS
        && tables.log_values.len() == VALUES_SIZE
        && tables.escrow.len() == ROWS
        && tables.escrow_values.len() == VALUES_SIZE
}

/// Whether the box is sound.
///
/// Open: document 01 doesn't say whether a box in buffers of a wrong size is
/// sound. Here it isn't; a call answers 15 either way.
pub fn is_sound(tables: &Tables) -> bool {
    let record = &tables.record;
    has_its_sizes(tables)
        && running_is_none_or_taken(record)
        && identities_fit_places(record)
        && empty_heaps_are_zero(record, tables.heaps)
        && counts_fit_tables(record)
        && log_is_sound(record, tables.log, tables.log_values)
        && escrow_is_sound(record, tables.escrow, tables.escrow_values)
}

/// The running place is 16 or taken.
fn running_is_none_or_taken(record: &BoxRecord) -> bool {
    record.running == NONE_RUNS
        || (record.running < NONE_RUNS && record.is_taken(usize::from(record.running)))
}

/// Identities are non-zero in taken places and zero in empty ones.
fn identities_fit_places(record: &BoxRecord) -> bool {
    (0..PLACES).all(|place| record.is_taken(place) == (record.identities[place] != 0))
}

/// An empty place's heap is all zeros.
fn empty_heaps_are_zero(record: &BoxRecord, heaps: &[u8]) -> bool {
    heaps
        .chunks_exact(HEAP_SIZE)
        .enumerate()
        .all(|(place, heap)| record.is_taken(place) || heap == &ZEROS[..HEAP_SIZE])
}

/// No used-count exceeds its table.
fn counts_fit_tables(record: &BoxRecord) -> bool {
    usize::from(record.log_rows) <= ROWS
        && usize::from(record.log_bytes) <= VALUES_SIZE
        && usize::from(record.escrow_rows) <= ROWS
        && usize::from(record.escrow_bytes) <= VALUES_SIZE
}

fn log_is_sound(record: &BoxRecord, rows: &[LogRow], values: &[u8]) -> bool {
    let (used, unused) = rows.split_at(usize::from(record.log_rows));
    let spans = used.iter().map(|row| (row.first, row.length));
    rows_follow_on(spans.clone(), record.log_bytes)
        && lengths_are_in_bounds(spans)
        && used.iter().all(|row| row.identity != 0)
        && pairs_differ(used, values)
        && tags_are_right(used, values)
        && unused.iter().all(|row| *row == LogRow::default())
        && unused_values_are_zero(values, record.log_bytes)
}

fn escrow_is_sound(record: &BoxRecord, rows: &[EscrowRow], values: &[u8]) -> bool {
    let (used, unused) = rows.split_at(usize::from(record.escrow_rows));
    let spans = used.iter().map(|row| (row.first, row.length));
    rows_follow_on(spans.clone(), record.escrow_bytes)
        && lengths_are_in_bounds(spans)
        && used.iter().all(|row| row.source != 0 && row.recipient != 0)
        && handles_differ(used)
        && used.iter().all(mark_fits_length)
        && unused.iter().all(|row| *row == EscrowRow::default())
        && unused_values_are_zero(values, record.escrow_bytes)
}

/// Each used row begins where the one before ended, the first at 0, and lengths
/// sum to the bytes used. A span is a row's first byte and length.
fn rows_follow_on(spans: impl Iterator<Item = (u16, u16)>, bytes_used: u16) -> bool {
    let mut end = 0;
    for (first, length) in spans {
        if usize::from(first) != end {
            return false;
        }
        end += usize::from(length);
    }
    end == usize::from(bytes_used)
}

/// Lengths are at most 256.
fn lengths_are_in_bounds(mut spans: impl Iterator<Item = (u16, u16)>) -> bool {
    spans.all(|(_, length)| usize::from(length) <= VALUE_MAX)
}

/// Log pairs (identity, value) differ from row to row.
fn pairs_differ(used: &[LogRow], values: &[u8]) -> bool {
    used.iter().enumerate().all(|(n, row)| {
        let value = row.value(values);
        used[..n].iter().all(|other| other.identity != row.identity || other.value(values) != value)
    })
}

/// Each tag is the right one.
fn tags_are_right(used: &[LogRow], values: &[u8]) -> bool {
    used.iter().all(|row| row.tag == tag_of(row.identity, row.value(values)))
}

/// Handles differ from row to row.
fn handles_differ(used: &[EscrowRow]) -> bool {
    used.iter().enumerate().all(|(n, row)| used[..n].iter().all(|other| other.handle != row.handle))
}

/// The mark is 0 and the handle carries the row's length, or it is 1 and the length
/// is 0.
fn mark_fits_length(row: &EscrowRow) -> bool {
    match row.mark {
        0 => row.handle.length() == row.length,
        SPENT => row.length == 0,
        _ => false,
    }
}

/// All unused value bytes are zero.
fn unused_values_are_zero(values: &[u8], bytes_used: u16) -> bool {
    let unused = &values[usize::from(bytes_used)..];
    unused == &ZEROS[..unused.len()]
}

#[cfg(test)]
mod tests {
    use super::*;
    use crate::record::{write_call, Call};
    use crate::tables::{Host, OUTPUT_SIZE};
    use crate::tags::{Draw, Handle, Tag, DRAW_LIMIT};
    use crate::{call, call_level_one, Answer};

    fn make(host: &mut Host, call: Call) {
        let mut record = [0; 600];
        let written = write_call(&call, &mut record);
        assert_eq!(written.code, 0);
        let answer = host.call(&mut [0; OUTPUT_SIZE], &record[..written.length]);
        assert_eq!(answer.code, 0, "{call:?}");
    }

    /// Places 2 (running) and 5 taken; two log rows of 3 and 2 bytes; two
    /// escrow rows of 4 and 3.
    fn busy() -> Host {
        let mut host = Host::fresh();
        make(&mut host, Call::Create { place: 2, identity: 77 });
        make(&mut host, Call::Create { place: 5, identity: 88 });
        make(&mut host, Call::HandOver { place: 2 });
        make(&mut host, Call::HeapWrite { place: 2, offset: 0, bytes: b"abcdefgh" });
        make(&mut host, Call::Attest { offset: 0, length: 3 });
        make(&mut host, Call::Attest { offset: 3, length: 2 });
        make(&mut host, Call::Protect { identity: 88, offset: 0, length: 4, draw: Draw(9) });
        make(&mut host, Call::Protect { identity: 77, offset: 1, length: 3, draw: Draw(9) });
        host
    }

    /// Sets the log's tags right, so that only the clause at hand fails.
    fn retag(host: &mut Host) {
        let used = usize::from(host.record.log_rows);
        for row in &mut host.log[..used] {
            row.tag = tag_of(row.identity, row.value(&host.log_values));
        }
    }

    /// The box isn't sound, and each call on it is 15 under either profile, empty
    /// record included, and alters nothing.
    fn refused(mut host: Host) {
        assert!(!is_sound(&host.lend()));
        let before = host.clone();
        let records: [&[u8]; 6] = [&[], &[2], &[1, 13], &[1, 3], &[3, 14, 16], &[3, 14, 4]];
        for record in records {
            for call in [Host::call, Host::call_level_one] {
                let mut output = [7; OUTPUT_SIZE];
                let answer = call(&mut host, &mut output, record);
                assert_eq!(answer, Answer { code: 15, ..Answer::default() });
                assert!(output.iter().all(|&byte| byte == 7));
                assert!(host == before);
            }
        }
    }

    fn refused_after(change: impl FnOnce(&mut Host)) {
        let mut host = busy();
        assert!(is_sound(&host.lend()));
        change(&mut host);
        refused(host);
    }

    #[test]
    fn fresh_and_busy_are_sound() {
        assert!(is_sound(&Host::fresh().lend()));
        assert!(is_sound(&busy().lend()));
    }

    #[test]
    fn sizes() {
        fn wrong<T: Clone + Default>(buffer: fn(&mut Host) -> &mut Vec<T>) {
            for longer in [false, true] {
                for mut host in [Host::fresh(), busy()] {
                    let size = buffer(&mut host).len();
                    let new = if longer { size + 1 } else { size - 1 };
                    buffer(&mut host).resize(new, T::default());
                    assert!(!has_its_sizes(&host.lend()));
                    refused(host);
                }
            }
            let mut host = Host::fresh();
            buffer(&mut host).clear();
            refused(host);
        }
        wrong(|host| &mut host.heaps);
        wrong(|host| &mut host.shared);
        wrong(|host| &mut host.log);
        wrong(|host| &mut host.log_values);
        wrong(|host| &mut host.escrow);
        wrong(|host| &mut host.escrow_values);
        for size in [0, 1, 1_023, 1_025, 4_096] {
            for call in [call, call_level_one] {
                let mut host = busy();
                let mut output = vec![7; size];
                let answer = call(&mut host.lend(), &mut output, &[1, 13]);
                assert_eq!(answer, Answer { code: 15, ..Answer::default() });
                assert!(output.iter().all(|&byte| byte == 7));
                assert!(host == busy());
            }
        }
    }

    #[test]
    fn running_place() {
        for running in [0, 1, 3, 15, 17, 18, 34, 255] {
            refused_after(|host| host.record.running = running);
        }
        for running in [2, 5, 16] {
            let mut host = busy();
            host.record.running = running;
            assert!(is_sound(&host.lend()));
        }
    }

    #[test]
    fn identities() {
        refused_after(|host| host.record.identities[5] = 0);
        refused_after(|host| host.record.identities[0] = 1);
        refused_after(|host| host.record.taken |= 1 << 15);
        refused_after(|host| host.record.taken &= !(1 << 5));
        // Two places may have the same identity.
        let mut host = busy();
        host.record.identities[5] = 77;
        assert!(is_sound(&host.lend()));
    }

    #[test]
    fn empty_heaps() {
        for byte in [0, 511, 768, 1_279, 1_536, 4_095] {
            refused_after(|host| host.heaps[byte] = 1);
        }
        // A taken place's heap may hold anything.
        for byte in [512, 767, 1_280, 1_535] {
            let mut host = busy();
            host.heaps[byte] = 1;
            assert!(is_sound(&host.lend()));
        }
    }

    #[test]
    fn counts() {
        for count in [0, 1, 3, 64, 65, 65_535] {
            refused_after(|host| host.record.log_rows = count);
            refused_after(|host| host.record.escrow_rows = count);
        }
        for count in [0, 4, 6, 4_096, 4_097, 65_535] {
            refused_after(|host| host.record.log_bytes = count);
            refused_after(|host| host.record.escrow_bytes = count);
        }
    }

    #[test]
    fn rows_that_do_not_follow_on() {
        refused_after(|host| host.log[0].first = 1);
        refused_after(|host| host.log[1].first = 2);
        refused_after(|host| host.log[1].first = 65_535);
        refused_after(|host| host.log[1].length = 3);
        refused_after(|host| host.log[0].length = 65_535);
        refused_after(|host| host.escrow[0].first = 1);
        refused_after(|host| host.escrow[1].first = 3);
        refused_after(|host| host.escrow[1].first = 65_535);
        refused_after(|host| {
            host.escrow[1].length = 4;
            host.escrow[1].handle = Handle(4 * DRAW_LIMIT);
        });
        // A gap in front, sums right.
        refused_after(|host| {
            host.escrow[0].first = 1;
            host.escrow[1].first = 5;
            host.record.escrow_bytes = 8;
        });
        // A sum that would be right modulo 2^16.
        let mut host = Host::fresh();
        host.record.escrow_rows = 2;
        for (n, row) in host.escrow[..2].iter_mut().enumerate() {
            *row = EscrowRow {
                source: 1,
                recipient: 1,
                handle: Handle(32_768 * DRAW_LIMIT + n as u64),
                first: 32_768 * n as u16,
                length: 32_768,
                mark: 0,
            };
        }
        refused(host);
    }

    #[test]
    fn long_rows() {
        for (length, sound) in [(255, true), (256, true), (257, false)] {
            let mut host = Host::fresh();
            host.record.log_rows = 1;
            host.record.log_bytes = length;
            host.log[0] = LogRow { identity: 1, tag: Tag(0), first: 0, length };
            retag(&mut host);
            assert_eq!(is_sound(&host.lend()), sound);

            let mut host = Host::fresh();
            host.record.escrow_rows = 1;
            host.record.escrow_bytes = length;
            host.escrow[0] = EscrowRow {
                source: 1,
                recipient: 1,
                handle: Handle(u64::from(length) * DRAW_LIMIT),
                first: 0,
                length,
                mark: 0,
            };
            assert_eq!(is_sound(&host.lend()), sound);
        }
    }

    #[test]
    fn row_identities() {
        refused_after(|host| {
            host.log[0].identity = 0;
            retag(host);
        });
        refused_after(|host| host.escrow[0].source = 0);
        refused_after(|host| host.escrow[1].recipient = 0);
        // Identities in rows need not be in a place.
        let mut host = busy();
        host.log[0].identity = 999;
        host.escrow[0].source = 999;
        host.escrow[0].recipient = 998;
        retag(&mut host);
        assert!(is_sound(&host.lend()));
    }

    #[test]
    fn pairs_and_tags() {
        // Both rows "ab": equal identities are refused, different ones are not.
        let mut host = busy();
        host.log[0].length = 2;
        host.log[1].first = 2;
        host.record.log_bytes = 4;
        host.log_values[..5].copy_from_slice(b"abab\0");
        retag(&mut host);
        let mut other = host.clone();
        refused(host);
        other.log[1].identity = 88;
        retag(&mut other);
        assert!(is_sound(&other.lend()));

        // Two empty values of one identity.
        let mut host = busy();
        host.log[0].length = 0;
        host.log[1] = LogRow { identity: 77, ..LogRow::default() };
        host.record.log_bytes = 0;
        host.log_values.fill(0);
        retag(&mut host);
        refused(host);

        refused_after(|host| host.log[0].tag.0 ^= 1);
        refused_after(|host| host.log[1].tag.0 ^= 1 << 63);
        refused_after(|host| host.log_values[4] ^= 1);
    }

    #[test]
    fn handles() {
        refused_after(|host| host.escrow[0].handle.0 += DRAW_LIMIT);
        refused_after(|host| host.escrow[1].handle.0 %= DRAW_LIMIT);
        // Two rows of one length and handle, for different recipients.
        let mut host = busy();
        host.escrow[1].length = 4;
        host.record.escrow_bytes = 8;
        host.escrow[1].handle = Handle(4 * DRAW_LIMIT + 10);
        assert!(is_sound(&host.lend()));
        host.escrow[1].handle = host.escrow[0].handle;
        refused(host);
    }

    /// Of all bytes only 0 fits a row that has a value, and only 1 one that was
    /// released.
    #[test]
    fn marks() {
        for n in 0..2 {
            for mark in 1..=255 {
                refused_after(|host| host.escrow[n].mark = mark);
            }
        }
        for mark in 0..=255 {
            let mut host = busy();
            make(&mut host, Call::HandOver { place: 5 });
            let handle = host.escrow[0].handle;
            make(&mut host, Call::Release { identity: 77, handle });
            assert_eq!((host.escrow[0].mark, host.escrow[0].length), (1, 0));
            assert!(is_sound(&host.lend()));
            host.escrow[0].mark = mark;
            if mark != 1 {
                refused(host);
            }
        }
    }

    /// A spent row, written by hand: its handle may carry any length, its own is 0.
    #[test]
    fn spent_rows() {
        let spent = |host: &mut Host| {
            host.escrow[0].mark = 1;
            host.escrow[0].length = 0;
            host.escrow[1].first = 0;
            host.record.escrow_bytes = 3;
            host.escrow_values[..7].copy_from_slice(b"bcd\0\0\0\0");
        };
        for length in [0, 1, 4, 256, 257, 65_535] {
            let mut host = busy();
            spent(&mut host);
            host.escrow[0].handle = Handle(length * DRAW_LIMIT + 8);
            assert!(is_sound(&host.lend()));
            host.escrow[0].mark = 0;
            if length != 0 {
                refused(host);
            }
        }
        let refused_spent = |change: fn(&mut Host)| {
            let mut host = busy();
            spent(&mut host);
            assert!(is_sound(&host.lend()));
            change(&mut host);
            refused(host);
        };
        // The rest of the rule holds of it as of others.
        refused_spent(|host| host.escrow[0].source = 0);
        refused_spent(|host| host.escrow[0].recipient = 0);
        refused_spent(|host| host.escrow[0].first = 1);
        refused_spent(|host| host.escrow[1].first = 4);
        refused_spent(|host| host.escrow[0].handle = host.escrow[1].handle);
        refused_spent(|host| host.escrow[1].handle = host.escrow[0].handle);
        refused_spent(|host| host.record.escrow_bytes = 7);
        refused_spent(|host| host.escrow_values[3] = 1);
        // A length, though the handle carry it and the sums be right.
        refused_spent(|host| {
            host.escrow[0].length = 1;
            host.escrow[0].handle = Handle(DRAW_LIMIT + 9);
            host.escrow[1].first = 1;
            host.record.escrow_bytes = 4;
        });
        // A row that isn't used.
        refused_spent(|host| host.escrow[2].mark = 1);
        refused_spent(|host| host.escrow[63].mark = 1);
        refused_spent(|host| host.record.escrow_rows = 1);
    }

    #[test]
    fn unused_rows_and_bytes() {
        for n in [2, 63] {
            refused_after(|host| host.log[n].identity = 1);
            refused_after(|host| host.log[n].tag = Tag(1));
            refused_after(|host| host.log[n].first = 5);
            refused_after(|host| host.log[n].length = 1);
            refused_after(|host| host.escrow[n].source = 1);
            refused_after(|host| host.escrow[n].recipient = 1);
            refused_after(|host| host.escrow[n].handle = Handle(1));
            refused_after(|host| host.escrow[n].first = 7);
            refused_after(|host| host.escrow[n].length = 1);
            for mark in 1..=255 {
                refused_after(|host| host.escrow[n].mark = mark);
            }
        }
        for byte in [5, 4_095] {
            refused_after(|host| host.log_values[byte] = 1);
        }
        for byte in [7, 4_095] {
            refused_after(|host| host.escrow_values[byte] = 1);
        }
        // Shared memory and escrow values in use may hold anything.
        let mut host = busy();
        host.shared.fill(255);
        host.escrow_values[6] = 255;
        assert!(is_sound(&host.lend()));
    }
}

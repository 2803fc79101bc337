//! What the box holds: its record and the buffers the host lends.

use crate::tags::{Handle, Tag};

/// Stands for a code hash. Never 0 in a taken place.
pub type Identity = u64;

/// A place is 0 to 15. In a call it may be any byte.
pub type Place = u8;

pub const PLACES: usize = 16;
/// The running place when none runs.
pub const NONE_RUNS: Place = 16;
/// Bytes in one place's heap.
pub const HEAP_SIZE: usize = 256;
/// Bytes in all heaps.
pub const HEAPS_SIZE: usize = PLACES * HEAP_SIZE;
pub const SHARED_SIZE: usize = 1_024;
/// Rows in the log, and in the escrow.
pub const ROWS: usize = 64;
/// Value bytes in the log, and in the escrow.
pub const VALUES_SIZE: usize = 4_096;
/// A value's greatest length.
pub const VALUE_MAX: usize = 256;
pub const OUTPUT_SIZE: usize = 1_024;
/// The mark of a spent escrow row (document 02, P8). That of an unspent one is 0.
pub const SPENT: u8 = 1;

/// The box record. It goes in and comes back by value.
#[derive(Clone, Copy, Debug, PartialEq, Eq)]
pub struct BoxRecord {
    /// Bit p stands when place p is taken.
    pub taken: u16,
    /// 0 to 15, or 16 when none runs.
    pub running: Place,
    pub identities: [Identity; PLACES],
    /// Log rows used.
    pub log_rows: u16,
    /// Log value bytes used.
    pub log_bytes: u16,
    /// Escrow rows used.
    pub escrow_rows: u16,
    /// Escrow value bytes used.
    pub escrow_bytes: u16,
}

impl BoxRecord {
    /// All zeros with running place 16.
    pub const fn fresh() -> Self {
        BoxRecord {
            taken: 0,
            running: NONE_RUNS,
            identities: [0; PLACES],
            log_rows: 0,
            log_bytes: 0,
            escrow_rows: 0,
            escrow_bytes: 0,
        }
    }

    /// Whether `place`, below 16, is taken.
    pub(crate) fn is_taken(&self, place: usize) -> bool {
        self.taken & (1 << place) != 0
    }
}

#[derive(Clone, Copy, Debug, Default, PartialEq, Eq)]
pub struct LogRow {
    pub identity: Identity,
    pub tag: Tag,
    /// The value's first byte among the log's value bytes.
    pub first: u16,
    pub length: u16,
}

impl LogRow {
    /// The row's value. The row must lie within `values`.
    pub(crate) fn value<'a>(&self, values: &'a [u8]) -> &'a [u8] {
        &values[usize::from(self.first)..][..usize::from(self.length)]
    }
}

#[derive(Clone, Copy, Debug, Default, PartialEq, Eq)]
pub struct EscrowRow {
    pub source: Identity,
    pub recipient: Identity,
    pub handle: Handle,
    /// The value's first byte among the escrow's value bytes.
    pub first: u16,
    /// 0 in a spent row.
    pub length: u16,
    /// 0, or [`SPENT`] once the value was released.
    pub mark: u8,
}

impl EscrowRow {
    /// Whether the value was released. The row stays, so its handle stays in use.
    pub(crate) fn is_spent(&self) -> bool {
        self.mark == SPENT
    }

    /// The row's value. The row must lie within `values`.
    pub(crate) fn value<'a>(&self, values: &'a [u8]) -> &'a [u8] {
        &values[usize::from(self.first)..][..usize::from(self.length)]
    }
}

/// The box record and the lent buffers. A slice may have any length here; one
/// that isn't of its size makes every call answer 15.
#[derive(Debug, PartialEq, Eq)]
pub struct Tables<'a> {
    pub record: BoxRecord,
    pub heaps: &'a mut [u8],
    pub shared: &'a mut [u8],
    pub log: &'a mut [LogRow],
    pub log_values: &'a mut [u8],
    pub escrow: &'a mut [EscrowRow],
    pub escrow_values: &'a mut [u8],
}

/// A host: it keeps the box record and owns the buffers it lends. The output
/// buffer is apart, since it carries nothing from call to call.
#[derive(Clone, Debug, PartialEq, Eq)]
pub struct Host {
    pub record: BoxRecord,
    pub heaps: Vec<u8>,
    pub shared: Vec<u8>,
    pub log: Vec<LogRow>,
    pub log_values: Vec<u8>,
    pub escrow: Vec<EscrowRow>,
    pub escrow_values: Vec<u8>,
}

impl Host {
    /// A fresh box in buffers of the right sizes.
    pub fn fresh() -> Self {
        Host {
            record: BoxRecord::fresh(),
            heaps: vec![0; HEAPS_SIZE],
            shared: vec![0; SHARED_SIZE],
            log: vec![LogRow::default(); ROWS],
            log_values: vec![0; VALUES_SIZE],
            escrow: vec![EscrowRow::default(); ROWS],
            escrow_values: vec![0; VALUES_SIZE],
        }
    }

    /// The box record, copied, and the buffers, lent. Whoever calls on these
    /// puts the record that comes back in its place.
    pub fn lend(&mut self) -> Tables<'_> {
        Tables {
            record: self.record,
            heaps: &mut self.heaps,
            shared: &mut self.shared,
            log: &mut self.log,
            log_values: &mut self.log_values,
            escrow: &mut self.escrow,
            escrow_values: &mut self.escrow_values,
        }
    }

    /// Makes one call and keeps the record that comes back.
    pub fn call(&mut self, output: &mut [u8], record: &[u8]) -> crate::Answer {
        let mut tables = self.lend();
        let answer = crate::call(&mut tables, output, record);
        self.record = tables.record;
        answer
    }

    /// As [`call`](Self::call), in the level-one paper.
    pub fn call_level_one(&mut self, output: &mut [u8], record: &[u8]) -> crate::Answer {
        let mut tables = self.lend();
        let answer = crate::call_level_one(&mut tables, output, record);
        self.record = tables.record;
        answer
    }
}

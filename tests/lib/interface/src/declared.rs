//! What `include/caif.h` declares, in its order and under its names.

use std::mem::{size_of, size_of_val};

use second::Profile;

/// `struct caif_used`.
#[repr(C)]
#[derive(Clone, Copy, Debug, Default, PartialEq, Eq)]
pub struct Used {
    pub rows: u16,
    pub bytes: u16,
}

/// `struct caif_box`.
#[repr(C)]
#[derive(Clone, Copy, Debug, PartialEq, Eq)]
pub struct BoxRecord {
    pub taken: u16,
    pub running: u8,
    pub identities: [u64; 16],
    pub log: Used,
    pub escrow: Used,
}

/// `struct caif_log_row`.
#[repr(C)]
#[derive(Clone, Copy, Debug, Default, PartialEq, Eq)]
pub struct LogRow {
    pub identity: u64,
    pub tag: u64,
    pub first: u16,
    pub length: u16,
}

/// `struct caif_escrow_row`.
#[repr(C)]
#[derive(Clone, Copy, Debug, Default, PartialEq, Eq)]
pub struct EscrowRow {
    pub source: u64,
    pub recipient: u64,
    pub handle: u64,
    pub first: u16,
    pub length: u16,
    pub mark: u8,
}

/// `struct caif_reply`.
#[repr(C)]
#[derive(Clone, Copy, Debug, PartialEq, Eq)]
pub struct Reply {
    pub held: BoxRecord,
    pub code: u8,
    pub number: u64,
    pub used: usize,
    pub shown: u16,
}

/// `struct caif_answer`.
#[repr(C)]
#[derive(Clone, Copy, Debug, PartialEq, Eq)]
pub struct Answer {
    pub code: u8,
    pub number: u64,
    pub used: usize,
    pub shown: u16,
}

impl From<Reply> for Answer {
    fn from(reply: Reply) -> Self {
        let Reply { held: _, code, number, used, shown } = reply;
        Answer { code, number, used, shown }
    }
}

/// `struct caif_fields`.
#[repr(C)]
#[derive(Clone, Copy, Debug, Default, PartialEq, Eq)]
pub struct Fields {
    pub place: u8,
    pub identity: u64,
    pub offset: u16,
    pub length: u16,
    pub number: u64,
}

/// `struct caif_written`.
#[repr(C)]
#[derive(Clone, Copy, Debug, PartialEq, Eq)]
pub struct Written {
    pub code: u8,
    pub length: usize,
}

extern "C" {
    fn caif_fresh() -> BoxRecord;

    fn caif_call(
        held: BoxRecord,
        log: *mut LogRow,
        log_rows: usize,
        escrow: *mut EscrowRow,
        escrow_rows: usize,
        heaps: *mut u8,
        heaps_size: usize,
        shared: *mut u8,
        shared_size: usize,
        log_values: *mut u8,
        log_values_size: usize,
        escrow_values: *mut u8,
        escrow_values_size: usize,
        output: *mut u8,
        output_size: usize,
        bytes: *const u8,
        bytes_size: usize,
    ) -> Reply;

    fn caif_call_lent(
        held: *mut BoxRecord,
        log: *mut LogRow,
        log_rows: usize,
        escrow: *mut EscrowRow,
        escrow_rows: usize,
        heaps: *mut u8,
        heaps_size: usize,
        shared: *mut u8,
        shared_size: usize,
        log_values: *mut u8,
        log_values_size: usize,
        escrow_values: *mut u8,
        escrow_values_size: usize,
        output: *mut u8,
        output_size: usize,
        bytes: *const u8,
        bytes_size: usize,
    ) -> Answer;

    fn caif_call_level_one(
        held: BoxRecord,
        log: *mut LogRow,
        log_rows: usize,
        escrow: *mut EscrowRow,
        escrow_rows: usize,
        heaps: *mut u8,
        heaps_size: usize,
        shared: *mut u8,
        shared_size: usize,
        log_values: *mut u8,
        log_values_size: usize,
        escrow_values: *mut u8,
        escrow_values_size: usize,
        output: *mut u8,
        output_size: usize,
        bytes: *const u8,
        bytes_size: usize,
    ) -> Reply;

    fn caif_write(
        kind: u8,
        fields: Fields,
        bytes: *const u8,
        bytes_size: usize,
        out: *mut u8,
        out_size: usize,
    ) -> Written;
}

/// What a host lends for a call.
pub(crate) struct Lent<'a> {
    pub log: &'a mut [LogRow],
    pub escrow: &'a mut [EscrowRow],
    pub heaps: &'a mut [u8],
    pub shared: &'a mut [u8],
    pub log_values: &'a mut [u8],
    pub escrow_values: &'a mut [u8],
    pub output: &'a mut [u8],
}

/// The box record of a fresh box.
pub fn fresh() -> BoxRecord {
    // SAFETY: it takes nothing, and no state is shared.
    unsafe { caif_fresh() }
}

/// One call through the profile's entry.
pub(crate) fn call(profile: Profile, held: BoxRecord, lent: Lent, bytes: &[u8]) -> Reply {
    let Lent { log, escrow, heaps, shared, log_values, escrow_values, output } = lent;
    let entry = match profile {
        Profile::Full => caif_call,
        Profile::LevelOne => caif_call_level_one,
    };
    // SAFETY: a slice is what the header asks of a pointer and its count, an
    // empty one too: not null, aligned and so long. Two `&mut` never overlap.
    unsafe {
        entry(
            held,
            log.as_mut_ptr(),
            log.len(),
            escrow.as_mut_ptr(),
            escrow.len(),
            heaps.as_mut_ptr(),
            heaps.len(),
            shared.as_mut_ptr(),
            shared.len(),
            log_values.as_mut_ptr(),
            log_values.len(),
            escrow_values.as_mut_ptr(),
            escrow_values.len(),
            output.as_mut_ptr(),
            output.len(),
            bytes.as_ptr(),
            bytes.len(),
        )
    }
}

/// One call on a box record that is lent too.
pub(crate) fn call_lent(held: &mut BoxRecord, lent: Lent, bytes: &[u8]) -> Answer {
    let Lent { log, escrow, heaps, shared, log_values, escrow_values, output } = lent;
    // SAFETY: as in `call`, and so is the box record.
    unsafe {
        caif_call_lent(
            held,
            log.as_mut_ptr(),
            log.len(),
            escrow.as_mut_ptr(),
            escrow.len(),
            heaps.as_mut_ptr(),
            heaps.len(),
            shared.as_mut_ptr(),
            shared.len(),
            log_values.as_mut_ptr(),
            log_values.len(),
            escrow_values.as_mut_ptr(),
            escrow_values.len(),
            output.as_mut_ptr(),
            output.len(),
            bytes.as_ptr(),
            bytes.len(),
        )
    }
}

/// A box record has so many words.
pub(crate) const RECORD_WORDS: usize = size_of::<BoxRecord>() / size_of::<u64>();

/// The box record that stands in these words, whose padding they show. It is to be
/// written field by field or by the archive: a copy of a whole record leaves padding
/// that may not be read.
pub(crate) fn record_in(words: &mut [u64]) -> &mut BoxRecord {
    assert_eq!(size_of_val(words), size_of::<BoxRecord>());
    // SAFETY: they are as long as a box record and aligned as one, and whatever they
    // hold is one.
    unsafe { &mut *words.as_mut_ptr().cast() }
}

/// The record of a call, at the front of `out`.
pub fn write(kind: u8, fields: Fields, bytes: &[u8], out: &mut [u8]) -> Written {
    // SAFETY: as in `call`.
    unsafe { caif_write(kind, fields, bytes.as_ptr(), bytes.len(), out.as_mut_ptr(), out.len()) }
}

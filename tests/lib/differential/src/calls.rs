//! Calls in few words, and their records.

use second::{write_call, Call, Draw, Handle, Link, Tag};

pub fn create(place: u8, identity: u64) -> Call<'static> {
    Call::Create { place, identity }
}

pub fn heap_write(place: u8, offset: u16, bytes: &[u8]) -> Call<'_> {
    Call::HeapWrite { place, offset, bytes }
}

pub fn heap_read(place: u8, offset: u16, length: u16) -> Call<'static> {
    Call::HeapRead { place, offset, length }
}

pub fn shared_write(offset: u16, bytes: &[u8]) -> Call<'_> {
    Call::SharedWrite { offset, bytes }
}

pub fn shared_read(offset: u16, length: u16) -> Call<'static> {
    Call::SharedRead { offset, length }
}

pub fn attest(offset: u16, length: u16) -> Call<'static> {
    Call::Attest { offset, length }
}

pub fn check(identity: u64, tag: u64, bytes: &[u8]) -> Call<'_> {
    Call::Check { identity, tag: Tag(tag), bytes }
}

pub fn protect(identity: u64, offset: u16, length: u16, draw: u64) -> Call<'static> {
    Call::Protect { identity, offset, length, draw: Draw(draw) }
}

pub fn retrieve(identity: u64, offset: u16, handle: u64) -> Call<'static> {
    Call::Retrieve { identity, offset, handle: Handle(handle) }
}

pub fn hand_over(place: u8) -> Call<'static> {
    Call::HandOver { place }
}

pub fn release(identity: u64, handle: u64) -> Call<'static> {
    Call::Release { identity, handle: Handle(handle) }
}

/// `number` is the first link's tag or handle.
pub fn chain(way: u8, identity: u64, number: u64, bytes: &[u8]) -> Call<'_> {
    Call::Chain { first: Link { way, identity, number }, bytes }
}

/// The call's record. Its bytes must be at most 65,535.
pub fn record_of(call: &Call) -> Vec<u8> {
    let mut record = vec![0; 32 + call.parts().2.len()];
    let written = write_call(call, &mut record);
    assert_eq!(written.code, 0, "no record of {call:?}");
    record.truncate(written.length);
    record
}

//! The fourteen calls on a sound box, under a profile. Each tests its refusals in
//! rising order before it alters anything; a chain has an order of its own, link by
//! link. The level-one paper's refusals stand out of that order: 21 before 4, 22
//! directly after 6, 23 directly after 11.

use std::ops::Range;

use crate::answer::{Answer, Refusal};
use crate::chain::{head_of, take_value, Head, Link, LINKS_MAX, WAY_ESCROWED, WAY_LOGGED};
use crate::profile::Profile;
use crate::record::{read, Call};
use crate::sound::is_sound;
use crate::tables::{
    BoxRecord, EscrowRow, Identity, LogRow, Place, Tables, HEAPS_SIZE, HEAP_SIZE, NONE_RUNS,
    OUTPUT_SIZE, PLACES, ROWS, SHARED_SIZE, SPENT, VALUES_SIZE,
};
use crate::tags::{free_handle, tag_of, Draw, Handle, Tag, DRAW_LIMIT};

/// Reads a record and makes its call. A lent buffer of a wrong size or an
/// unsound box is refused first, with 15.
pub fn call(tables: &mut Tables, output: &mut [u8], record: &[u8]) -> Answer {
    call_under(Profile::Full, tables, output, record)
}

/// As [`call`], in the level-one paper.
pub fn call_level_one(tables: &mut Tables, output: &mut [u8], record: &[u8]) -> Answer {
    call_under(Profile::LevelOne, tables, output, record)
}

fn call_under(profile: Profile, tables: &mut Tables, output: &mut [u8], record: &[u8]) -> Answer {
    match SoundBox::new(tables, output) {
        Ok(mut sound_box) => sound_box.under(profile).run(record),
        Err(refusal) => Answer::refused(refusal, 0),
    }
}

/// A box found sound, in buffers of their sizes. No call makes it unsound, so
/// many can follow one test.
pub struct SoundBox<'a> {
    profile: Profile,
    record: &'a mut BoxRecord,
    heaps: &'a mut [u8; HEAPS_SIZE],
    shared: &'a mut [u8; SHARED_SIZE],
    log: &'a mut [LogRow; ROWS],
    log_values: &'a mut [u8; VALUES_SIZE],
    escrow: &'a mut [EscrowRow; ROWS],
    escrow_values: &'a mut [u8; VALUES_SIZE],
    output: &'a mut [u8; OUTPUT_SIZE],
}

impl<'a> SoundBox<'a> {
    /// Tests sizes and soundness; refusal 15. Calls are the full box's.
    pub fn new(tables: &'a mut Tables<'_>, output: &'a mut [u8]) -> Result<Self, Refusal> {
        let output = sized(output)?;
        if !is_sound(tables) {
            return Err(Refusal::Unsound);
        }
        Ok(SoundBox {
            profile: Profile::Full,
            record: &mut tables.record,
            heaps: sized(tables.heaps)?,
            shared: sized(tables.shared)?,
            log: sized(tables.log)?,
            log_values: sized(tables.log_values)?,
            escrow: sized(tables.escrow)?,
            escrow_values: sized(tables.escrow_values)?,
            output,
        })
    }

    /// The same box with its calls under a profile.
    pub fn under(&mut self, profile: Profile) -> SoundBox<'_> {
        SoundBox {
            profile,
            record: self.record,
            heaps: self.heaps,
            shared: self.shared,
            log: self.log,
            log_values: self.log_values,
            escrow: self.escrow,
            escrow_values: self.escrow_values,
            output: self.output,
        }
    }

    /// The output buffer.
    pub fn output(&self) -> &[u8] {
        self.output
    }

    /// Reads a record and makes its call.
    pub fn run(&mut self, record: &[u8]) -> Answer {
        match read(record) {
            Ok((call, used)) => Answer { used, ..self.perform(&call) },
            Err(refusal) => Answer::refused(refusal, 0),
        }
    }

    /// As [`run`](Self::run), in the level-one paper.
    pub fn run_level_one(&mut self, record: &[u8]) -> Answer {
        self.under(Profile::LevelOne).run(record)
    }

    /// Makes a call. No record is read, so bytes used is 0.
    pub fn perform(&mut self, call: &Call) -> Answer {
        let result = match *call {
            Call::Create { place, identity } => self.create(place, identity).map(u64::from),
            Call::Exit => self.exit().map(|()| 0),
            Call::HeapWrite { place, offset, bytes } => {
                self.heap_write(place, offset, bytes).map(|()| count(bytes))
            }
            Call::HeapRead { place, offset, length } => {
                self.heap_read(place, offset, length).map(|()| u64::from(length))
            }
            Call::SharedWrite { offset, bytes } => {
                self.shared_write(offset, bytes).map(|()| count(bytes))
            }
            Call::SharedRead { offset, length } => {
                self.shared_read(offset, length).map(|()| u64::from(length))
            }
            Call::Attest { offset, length } => self.attest(offset, length).map(|tag| tag.0),
            Call::Check { identity, tag, bytes } => self.check(identity, bytes, tag).map(u64::from),
            Call::Protect { identity, offset, length, draw } => {
                self.protect(identity, offset, length, draw).map(|handle| handle.0)
            }
            Call::Retrieve { identity, offset, handle } => {
                self.retrieve(identity, offset, handle).map(u64::from)
            }
            Call::Report => Ok(self.report()),
            Call::HandOver { place } => self.hand_over(place).map(|()| 0),
            Call::Chain { first, bytes } => self.chain(first, bytes),
            Call::Release { identity, handle } => self.release(identity, handle).map(|()| 0),
        };
        let number = match result {
            Ok(number) => number,
            Err(refusal) => return Answer::refused(refusal, 0),
        };
        let shown = match *call {
            Call::HeapRead { length, .. } | Call::SharedRead { length, .. } => usize::from(length),
            _ => 0,
        };
        Answer { code: 0, number, used: 0, shown }
    }

    /// 1: takes an empty place; the place.
    pub fn create(&mut self, place: Place, identity: Identity) -> Result<Place, Refusal> {
        let index = index_of(place)?;
        self.profile.has_place(index)?;
        if self.record.is_taken(index) {
            return Err(Refusal::PlaceTakenOrEmpty);
        }
        non_zero(identity)?;
        self.record.taken |= 1 << index;
        self.record.identities[index] = identity;
        Ok(place)
    }

    /// 4: the running place's heap is zeroed and the place emptied, none runs.
    pub fn exit(&mut self) -> Result<(), Refusal> {
        let place = self.running()?;
        self.heap_mut(place).fill(0);
        self.record.taken &= !(1 << place);
        self.record.identities[place] = 0;
        self.record.running = NONE_RUNS;
        Ok(())
    }

    /// 5: bytes into the heap at offset.
    pub fn heap_write(&mut self, place: Place, offset: u16, bytes: &[u8]) -> Result<(), Refusal> {
        let place = self.running_is(place)?;
        let part = part(offset, bytes.len(), HEAP_SIZE)?;
        self.heap_mut(place)[part].copy_from_slice(bytes);
        Ok(())
    }

    /// 6: shows length bytes.
    pub fn heap_read(&mut self, place: Place, offset: u16, length: u16) -> Result<(), Refusal> {
        let place = self.running_is(place)?;
        let part = part(offset, usize::from(length), HEAP_SIZE)?;
        let shown = &heap_of(self.heaps, place)[part];
        self.output[..shown.len()].copy_from_slice(shown);
        Ok(())
    }

    /// 7: as 5, shared.
    pub fn shared_write(&mut self, offset: u16, bytes: &[u8]) -> Result<(), Refusal> {
        let part = part(offset, bytes.len(), SHARED_SIZE)?;
        self.shared[part].copy_from_slice(bytes);
        Ok(())
    }

    /// 8: as 6, shared.
    pub fn shared_read(&mut self, offset: u16, length: u16) -> Result<(), Refusal> {
        let part = part(offset, usize::from(length), SHARED_SIZE)?;
        let shown = &self.shared[part];
        self.output[..shown.len()].copy_from_slice(shown);
        Ok(())
    }

    /// 9: logs a part of the running heap; tag. A pair already logged adds no row.
    pub fn attest(&mut self, offset: u16, length: u16) -> Result<Tag, Refusal> {
        let place = self.running()?;
        let part = part(offset, usize::from(length), HEAP_SIZE)?;
        let identity = self.record.identities[place];
        let value = &heap_of(self.heaps, place)[part];
        let rows = usize::from(self.record.log_rows);
        let bytes = usize::from(self.record.log_bytes);
        if let Some(tag) = self.logged(identity, value)? {
            return Ok(tag);
        }
        if rows == ROWS || bytes + value.len() > VALUES_SIZE {
            return Err(Refusal::LogFull);
        }
        let tag = tag_of(identity, value);
        self.log[rows] = LogRow { identity, tag, first: self.record.log_bytes, length };
        self.log_values[bytes..][..value.len()].copy_from_slice(value);
        self.record.log_rows += 1;
        self.record.log_bytes += length;
        Ok(tag)
    }

    /// The tag of a pair already logged, none if it isn't, or refusal 23.
    fn logged(&self, identity: Identity, value: &[u8]) -> Result<Option<Tag>, Refusal> {
        let mut logged = None;
        let used = &self.log[..usize::from(self.record.log_rows)];
        for row in used.iter().filter(|row| row.identity == identity) {
            match (self.profile, row.value(self.log_values) == value) {
                (Profile::Full, true) => return Ok(Some(row.tag)),
                (Profile::Full, false) => {}
                // A hand-made box may have another value further on.
                (Profile::LevelOne, true) => logged = Some(row.tag),
                (Profile::LevelOne, false) => return Err(Refusal::OtherValueLogged),
            }
        }
        Ok(logged)
    }

    /// 10: whether (identity, bytes, tag) is a log row. One of more than 256
    /// bytes never is.
    pub fn check(&self, identity: Identity, bytes: &[u8], tag: Tag) -> Result<bool, Refusal> {
        non_zero(identity)?;
        let used = &self.log[..usize::from(self.record.log_rows)];
        Ok(used.iter().any(|row| {
            row.identity == identity && row.tag == tag && row.value(self.log_values) == bytes
        }))
    }

    /// 11: escrows a part of the running heap for identity; handle.
    pub fn protect(
        &mut self,
        identity: Identity,
        offset: u16,
        length: u16,
        draw: Draw,
    ) -> Result<Handle, Refusal> {
        self.profile.has_escrow()?;
        let place = self.running()?;
        non_zero(identity)?;
        let part = part(offset, usize::from(length), HEAP_SIZE)?;
        if draw.0 >= DRAW_LIMIT {
            return Err(Refusal::DrawTooLarge);
        }
        let value = &heap_of(self.heaps, place)[part];
        let rows = usize::from(self.record.escrow_rows);
        let bytes = usize::from(self.record.escrow_bytes);
        if rows == ROWS || bytes + value.len() > VALUES_SIZE {
            return Err(Refusal::EscrowFull);
        }
        let handle = free_handle(&self.escrow[..rows], length, draw);
        self.escrow[rows] = EscrowRow {
            source: self.record.identities[place],
            recipient: identity,
            handle,
            first: self.record.escrow_bytes,
            length,
            mark: 0,
        };
        self.escrow_values[bytes..][..value.len()].copy_from_slice(value);
        self.record.escrow_rows += 1;
        self.record.escrow_bytes += length;
        Ok(handle)
    }

    /// 12: copies the value with (handle, identity as source, running identity
    /// as recipient) into the running heap at offset; its length.
    pub fn retrieve(
        &mut self,
        identity: Identity,
        offset: u16,
        handle: Handle,
    ) -> Result<u16, Refusal> {
        self.profile.has_escrow()?;
        let place = self.running()?;
        non_zero(identity)?;
        let recipient = self.record.identities[place];
        let index = self.unspent(handle, identity, recipient).ok_or(Refusal::NoSuchRow)?;
        let row = self.escrow[index];
        let part = part(offset, usize::from(row.length), HEAP_SIZE)?;
        let value = row.value(self.escrow_values);
        heap_of_mut(self.heaps, place)[part].copy_from_slice(value);
        Ok(row.length)
    }

    /// 13: services + 256 times log rows + 65,536 times escrow rows.
    pub fn report(&self) -> u64 {
        u64::from(self.record.taken.count_ones())
            + 256 * u64::from(self.record.log_rows)
            + 65_536 * u64::from(self.record.escrow_rows)
    }

    /// 14: yields what runs, its heap retained, and starts that place. Place 16
    /// only yields: it has no identity, so it is neither taken nor empty.
    pub fn hand_over(&mut self, place: Place) -> Result<(), Refusal> {
        if place != NONE_RUNS {
            let index = index_of(place)?;
            self.profile.has_place(index)?;
            if !self.record.is_taken(index) {
                return Err(Refusal::PlaceTakenOrEmpty);
            }
        }
        self.record.running = place;
        Ok(())
    }

    /// 15: follows a chain of custody from its first link on; the count of links.
    /// The chain bytes hold the logged values in order, and none may be left over.
    /// A link that comes again counts again.
    ///
    /// Open: document 02 doesn't say whether a first way of 1 is a chain of no links.
    /// Here it isn't 2 or 3, so it is 19.
    pub fn chain(&self, first: Link, bytes: &[u8]) -> Result<u64, Refusal> {
        self.profile.has_escrow()?;
        let recipient = self.record.identities[self.running()?];
        let mut rest = bytes;
        let mut link = first;
        let mut count = 0;
        loop {
            if count == LINKS_MAX {
                return Err(Refusal::ChainTooLong);
            }
            let value = match link.way {
                WAY_LOGGED => self.logged_link(link.identity, Tag(link.number), &mut rest)?,
                WAY_ESCROWED => {
                    self.escrowed_link(link.identity, Handle(link.number), recipient)?
                }
                _ => return Err(Refusal::BadChain),
            };
            count += 1;
            match head_of(value).ok_or(Refusal::BadChain)? {
                Head::Next(next) => link = next,
                Head::End if rest.is_empty() => return Ok(count),
                Head::End => return Err(Refusal::BadChain),
            }
        }
    }

    /// A logged link's value, the next of the chain bytes, or refusal 19 (it is
    /// cut there), 9 or 18.
    fn logged_link<'v>(
        &self,
        identity: Identity,
        tag: Tag,
        rest: &mut &'v [u8],
    ) -> Result<&'v [u8], Refusal> {
        let value = take_value(rest).ok_or(Refusal::BadChain)?;
        if !self.check(identity, value, tag)? {
            return Err(Refusal::NoSuchLink);
        }
        Ok(value)
    }

    /// An escrowed link's value, or refusal 9 or 18.
    fn escrowed_link(
        &self,
        source: Identity,
        handle: Handle,
        recipient: Identity,
    ) -> Result<&[u8], Refusal> {
        non_zero(source)?;
        let index = self.unspent(handle, source, recipient).ok_or(Refusal::NoSuchLink)?;
        Ok(self.escrow[index].value(self.escrow_values))
    }

    /// 16: the running recipient gives up the value with (handle, identity as source,
    /// running identity as recipient). Its row stays, spent, and later values close up.
    pub fn release(&mut self, identity: Identity, handle: Handle) -> Result<(), Refusal> {
        self.profile.has_escrow()?;
        let place = self.running()?;
        non_zero(identity)?;
        let recipient = self.record.identities[place];
        let index = self.unspent(handle, identity, recipient).ok_or(Refusal::NoSuchRow)?;
        let EscrowRow { first, length, .. } = self.escrow[index];
        self.escrow[index].length = 0;
        self.escrow[index].mark = SPENT;
        self.close_up(index, first, length);
        Ok(())
    }

    /// Moves the values of the rows behind `index` down over the `length` bytes from
    /// `first` on. The bytes freed at the end become zero.
    ///
    /// Open: document 02 doesn't say where a spent row begins. Its first byte stays, so
    /// that each row still begins where the one before ended.
    fn close_up(&mut self, index: usize, first: u16, length: u16) {
        let used = usize::from(self.record.escrow_rows);
        for row in &mut self.escrow[index + 1..used] {
            row.first -= length;
        }
        let bytes = usize::from(self.record.escrow_bytes);
        let (first, count) = (usize::from(first), usize::from(length));
        self.escrow_values.copy_within(first + count..bytes, first);
        self.escrow_values[bytes - count..bytes].fill(0);
        self.record.escrow_bytes -= length;
    }

    /// Where the unspent escrow row with all three stands, if there is one.
    fn unspent(&self, handle: Handle, source: Identity, recipient: Identity) -> Option<usize> {
        let used = &self.escrow[..usize::from(self.record.escrow_rows)];
        used.iter().position(|row| {
            !row.is_spent()
                && row.handle == handle
                && row.source == source
                && row.recipient == recipient
        })
    }

    /// The running place, or refusal 4.
    fn running(&self) -> Result<usize, Refusal> {
        match self.record.running {
            NONE_RUNS => Err(Refusal::NoneRuns),
            place => Ok(usize::from(place)),
        }
    }

    /// The place when it is the running one, or refusal 4, 6 or 8.
    fn running_is(&self, place: Place) -> Result<usize, Refusal> {
        let running = self.running()?;
        if index_of(place)? != running {
            return Err(Refusal::NotRunning);
        }
        Ok(running)
    }

    fn heap_mut(&mut self, place: usize) -> &mut [u8] {
        heap_of_mut(self.heaps, place)
    }
}

/// The lent buffer as an array of its size, or refusal 15.
fn sized<T, const N: usize>(lent: &mut [T]) -> Result<&mut [T; N], Refusal> {
    lent.try_into().map_err(|_| Refusal::Unsound)
}

/// The place when it is at most 15, or refusal 6.
fn index_of(place: Place) -> Result<usize, Refusal> {
    let index = usize::from(place);
    if index < PLACES {
        Ok(index)
    } else {
        Err(Refusal::NoSuchPlace)
    }
}

/// Refusal 9 when the identity is 0.
fn non_zero(identity: Identity) -> Result<(), Refusal> {
    if identity == 0 {
        Err(Refusal::ZeroIdentity)
    } else {
        Ok(())
    }
}

/// The part of `length` bytes at `offset`, or refusal 11 when it is beyond `size`.
fn part(offset: u16, length: usize, size: usize) -> Result<Range<usize>, Refusal> {
    let first = usize::from(offset);
    let end = first + length;
    if end > size {
        Err(Refusal::Beyond)
    } else {
        Ok(first..end)
    }
}

fn heap_of(heaps: &[u8; HEAPS_SIZE], place: usize) -> &[u8] {
    &heaps[place * HEAP_SIZE..][..HEAP_SIZE]
}

fn heap_of_mut(heaps: &mut [u8; HEAPS_SIZE], place: usize) -> &mut [u8] {
    &mut heaps[place * HEAP_SIZE..][..HEAP_SIZE]
}

fn count(bytes: &[u8]) -> u64 {
    bytes.len() as u64
}

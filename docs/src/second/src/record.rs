//! Call records: the reader and the writer.

use crate::answer::Refusal;
use crate::chain::Link;
use crate::tables::{Identity, Place};
use crate::tags::{Draw, Handle, Tag};

// The map's bits.
const KIND: u8 = 1 << 0;
const PLACE: u8 = 1 << 1;
const IDENTITY: u8 = 1 << 2;
const OFFSET: u8 = 1 << 3;
const LENGTH: u8 = 1 << 4;
const NUMBER: u8 = 1 << 5;
const BYTES: u8 = 1 << 6;

/// The fourteen kinds of call. The value of each case is its number. 2 and 3,
/// start and yield, are retired: hand over took their place (document 02, P1),
/// and the numbers stay reserved.
#[derive(Clone, Copy, Debug, PartialEq, Eq)]
#[repr(u8)]
pub enum Kind {
    Create = 1,
    Exit = 4,
    HeapWrite = 5,
    HeapRead = 6,
    SharedWrite = 7,
    SharedRead = 8,
    Attest = 9,
    Check = 10,
    Protect = 11,
    Retrieve = 12,
    Report = 13,
    HandOver = 14,
    Chain = 15,
    Release = 16,
}

impl Kind {
    /// The kind with this number, or refusal 2.
    pub fn from_number(number: u8) -> Result<Self, Refusal> {
        Ok(match number {
            1 => Kind::Create,
            4 => Kind::Exit,
            5 => Kind::HeapWrite,
            6 => Kind::HeapRead,
            7 => Kind::SharedWrite,
            8 => Kind::SharedRead,
            9 => Kind::Attest,
            10 => Kind::Check,
            11 => Kind::Protect,
            12 => Kind::Retrieve,
            13 => Kind::Report,
            14 => Kind::HandOver,
            15 => Kind::Chain,
            16 => Kind::Release,
            0 | 2..=3 | 17..=255 => return Err(Refusal::UnknownKind),
        })
    }

    pub const fn number(self) -> u8 {
        self as u8
    }

    /// The kind's one legal map.
    pub const fn map(self) -> u8 {
        match self {
            Kind::Create => 0x07,
            Kind::Exit | Kind::Report => 0x01,
            Kind::HeapWrite => 0x4B,
            Kind::HeapRead => 0x1B,
            Kind::SharedWrite => 0x49,
            Kind::SharedRead | Kind::Attest => 0x19,
            Kind::Check => 0x65,
            Kind::Protect => 0x3D,
            Kind::Retrieve => 0x2D,
            Kind::HandOver => 0x03,
            Kind::Chain => 0x67,
            Kind::Release => 0x25,
        }
    }
}

/// The fields of a record but for kind and bytes. Those not in the kind's map
/// don't matter.
#[derive(Clone, Copy, Debug, Default, PartialEq, Eq)]
pub struct Fields {
    pub place: Place,
    pub identity: Identity,
    pub offset: u16,
    pub length: u16,
    pub number: u64,
}

/// A call: a kind and the fields of its map, no others.
#[derive(Clone, Copy, Debug, PartialEq, Eq)]
pub enum Call<'a> {
    Create { place: Place, identity: Identity },
    Exit,
    HeapWrite { place: Place, offset: u16, bytes: &'a [u8] },
    HeapRead { place: Place, offset: u16, length: u16 },
    SharedWrite { offset: u16, bytes: &'a [u8] },
    SharedRead { offset: u16, length: u16 },
    Attest { offset: u16, length: u16 },
    Check { identity: Identity, tag: Tag, bytes: &'a [u8] },
    Protect { identity: Identity, offset: u16, length: u16, draw: Draw },
    Retrieve { identity: Identity, offset: u16, handle: Handle },
    Report,
    HandOver { place: Place },
    Chain { first: Link, bytes: &'a [u8] },
    Release { identity: Identity, handle: Handle },
}

impl<'a> Call<'a> {
    /// The call of a kind, from the fields of its map.
    pub fn from_parts(kind: Kind, fields: &Fields, bytes: &'a [u8]) -> Self {
        let Fields { place, identity, offset, length, number } = *fields;
        match kind {
            Kind::Create => Call::Create { place, identity },
            Kind::Exit => Call::Exit,
            Kind::HeapWrite => Call::HeapWrite { place, offset, bytes },
            Kind::HeapRead => Call::HeapRead { place, offset, length },
            Kind::SharedWrite => Call::SharedWrite { offset, bytes },
            Kind::SharedRead => Call::SharedRead { offset, length },
            Kind::Attest => Call::Attest { offset, length },
            Kind::Check => Call::Check { identity, tag: Tag(number), bytes },
            Kind::Protect => Call::Protect { identity, offset, length, draw: Draw(number) },
            Kind::Retrieve => Call::Retrieve { identity, offset, handle: Handle(number) },
            Kind::Report => Call::Report,
            Kind::HandOver => Call::HandOver { place },
            Kind::Chain => Call::Chain { first: Link { way: place, identity, number }, bytes },
            Kind::Release => Call::Release { identity, handle: Handle(number) },
        }
    }

    /// The kind, the fields (0 where the map has none) and the bytes (empty
    /// where the map has none).
    pub fn parts(&self) -> (Kind, Fields, &'a [u8]) {
        let mut fields = Fields::default();
        let mut call_bytes: &[u8] = &[];
        let kind = match *self {
            Call::Create { place, identity } => {
                fields.place = place;
                fields.identity = identity;
                Kind::Create
            }
            Call::Exit => Kind::Exit,
            Call::HeapWrite { place, offset, bytes } => {
                fields.place = place;
                fields.offset = offset;
                call_bytes = bytes;
                Kind::HeapWrite
            }
            Call::HeapRead { place, offset, length } => {
                fields.place = place;
                fields.offset = offset;
                fields.length = length;
                Kind::HeapRead
            }
            Call::SharedWrite { offset, bytes } => {
                fields.offset = offset;
                call_bytes = bytes;
                Kind::SharedWrite
            }
            Call::SharedRead { offset, length } => {
                fields.offset = offset;
                fields.length = length;
                Kind::SharedRead
            }
            Call::Attest { offset, length } => {
                fields.offset = offset;
                fields.length = length;
                Kind::Attest
            }
            Call::Check { identity, tag, bytes } => {
                fields.identity = identity;
                fields.number = tag.0;
                call_bytes = bytes;
                Kind::Check
            }
            Call::Protect { identity, offset, length, draw } => {
                fields.identity = identity;
                fields.offset = offset;
                fields.length = length;
                fields.number = draw.0;
                Kind::Protect
            }
            Call::Retrieve { identity, offset, handle } => {
                fields.identity = identity;
                fields.offset = offset;
                fields.number = handle.0;
                Kind::Retrieve
            }
            Call::Report => Kind::Report,
            Call::HandOver { place } => {
                fields.place = place;
                Kind::HandOver
            }
            Call::Chain { first, bytes } => {
                fields.place = first.way;
                fields.identity = first.identity;
                fields.number = first.number;
                call_bytes = bytes;
                Kind::Chain
            }
            Call::Release { identity, handle } => {
                fields.identity = identity;
                fields.number = handle.0;
                Kind::Release
            }
        };
        (kind, fields, call_bytes)
    }
}

/// The part of a record not yet read.
struct Rest<'a>(&'a [u8]);

impl<'a> Rest<'a> {
    /// The next field, of `width` bytes, or refusal 1 with those that it lacks.
    fn take(&mut self, width: usize) -> Result<&'a [u8], Refusal> {
        let there = self.0.len();
        if there < width {
            return Err(Refusal::Cut { missing: width - there });
        }
        let (field, behind) = self.0.split_at(width);
        self.0 = behind;
        Ok(field)
    }

    /// The next field as an array of `N` bytes, or refusal 1.
    fn array<const N: usize>(&mut self) -> Result<[u8; N], Refusal> {
        let mut field = [0; N];
        field.copy_from_slice(self.take(N)?);
        Ok(field)
    }

    fn u8(&mut self) -> Result<u8, Refusal> {
        self.array().map(u8::from_le_bytes)
    }

    fn u16(&mut self) -> Result<u16, Refusal> {
        self.array().map(u16::from_le_bytes)
    }

    fn u64(&mut self) -> Result<u64, Refusal> {
        self.array().map(u64::from_le_bytes)
    }
}

/// Reads the record at the front of `input`: the call and the record's length,
/// or refusal 1, 2 or 3. What follows the record doesn't matter. The count of
/// the bytes and their contents are two fields.
pub fn read(input: &[u8]) -> Result<(Call<'_>, usize), Refusal> {
    let mut rest = Rest(input);
    let map = rest.u8()?;
    if map & KIND == 0 {
        return Err(Refusal::UnknownKind);
    }
    let kind = Kind::from_number(rest.u8()?)?;
    if map != kind.map() {
        return Err(Refusal::WrongMap);
    }
    let mut fields = Fields::default();
    let mut bytes: &[u8] = &[];
    if map & PLACE != 0 {
        fields.place = rest.u8()?;
    }
    if map & IDENTITY != 0 {
        fields.identity = rest.u64()?;
    }
    if map & OFFSET != 0 {
        fields.offset = rest.u16()?;
    }
    if map & LENGTH != 0 {
        fields.length = rest.u16()?;
    }
    if map & NUMBER != 0 {
        fields.number = rest.u64()?;
    }
    if map & BYTES != 0 {
        let count = rest.u16()?;
        bytes = rest.take(usize::from(count))?;
    }
    let used = input.len() - rest.0.len();
    Ok((Call::from_parts(kind, &fields, bytes), used))
}

/// What the writer gives: 0 and the record's length, or a refusal's code and
/// length 0.
#[derive(Clone, Copy, Debug, PartialEq, Eq)]
pub struct Written {
    pub code: u8,
    pub length: usize,
}

/// Writes a call's record at the front of `buffer`. The bytes beyond it, and on
/// a refusal the whole buffer, are unaltered.
pub fn write(kind: u8, fields: &Fields, bytes: &[u8], buffer: &mut [u8]) -> Written {
    match try_write(kind, fields, bytes, buffer) {
        Ok(length) => Written { code: 0, length },
        Err(refusal) => Written { code: refusal.code(), length: 0 },
    }
}

/// As [`write`], from a call.
pub fn write_call(call: &Call, buffer: &mut [u8]) -> Written {
    let (kind, fields, bytes) = call.parts();
    write(kind.number(), &fields, bytes, buffer)
}

fn try_write(kind: u8, fields: &Fields, bytes: &[u8], buffer: &mut [u8]) -> Result<usize, Refusal> {
    let map = Kind::from_number(kind)?.map();
    let mut length = 2;
    let mut count = 0;
    for (bit, size) in [(PLACE, 1), (IDENTITY, 8), (OFFSET, 2), (LENGTH, 2), (NUMBER, 8)] {
        if map & bit != 0 {
            length += size;
        }
    }
    if map & BYTES != 0 {
        count = u16::try_from(bytes.len()).map_err(|_| Refusal::CannotWrite)?;
        length += 2 + bytes.len();
    }
    let mut rest = buffer.get_mut(..length).ok_or(Refusal::CannotWrite)?;
    put(&mut rest, &[map, kind]);
    if map & PLACE != 0 {
        put(&mut rest, &[fields.place]);
    }
    if map & IDENTITY != 0 {
        put(&mut rest, &fields.identity.to_le_bytes());
    }
    if map & OFFSET != 0 {
        put(&mut rest, &fields.offset.to_le_bytes());
    }
    if map & LENGTH != 0 {
        put(&mut rest, &fields.length.to_le_bytes());
    }
    if map & NUMBER != 0 {
        put(&mut rest, &fields.number.to_le_bytes());
    }
    if map & BYTES != 0 {
        put(&mut rest, &count.to_le_bytes());
        put(&mut rest, bytes);
    }
    Ok(length)
}

/// Puts a field at the front of `rest` and moves on behind it.
fn put(rest: &mut &mut [u8], field: &[u8]) {
    let (front, behind) = std::mem::take(rest).split_at_mut(field.len());
    front.copy_from_slice(field);
    *rest = behind;
}

#[cfg(test)]
mod tests {
    use super::*;

    /// The numbers of the kinds, each with its one legal map.
    const MAPS: [(u8, u8); 14] = [
        (1, 0x07),
        (4, 0x01),
        (5, 0x4B),
        (6, 0x1B),
        (7, 0x49),
        (8, 0x19),
        (9, 0x19),
        (10, 0x65),
        (11, 0x3D),
        (12, 0x2D),
        (13, 0x01),
        (14, 0x03),
        (15, 0x67),
        (16, 0x25),
    ];

    fn legal_map(kind: u8) -> Option<u8> {
        MAPS.iter().find(|(number, _)| *number == kind).map(|(_, map)| *map)
    }

    /// One call of each kind, every field byte different.
    fn samples() -> [Call<'static>; 14] {
        let (place, identity) = (0x11, 0x2928_2726_2524_2322);
        let (offset, length) = (0x3332, 0x4544);
        let number = 0x5958_5756_5554_5352;
        let bytes: &[u8] = &[0x61, 0x62, 0x63];
        [
            Call::Create { place, identity },
            Call::Exit,
            Call::HeapWrite { place, offset, bytes },
            Call::HeapRead { place, offset, length },
            Call::SharedWrite { offset, bytes },
            Call::SharedRead { offset, length },
            Call::Attest { offset, length },
            Call::Check { identity, tag: Tag(number), bytes },
            Call::Protect { identity, offset, length, draw: Draw(number) },
            Call::Retrieve { identity, offset, handle: Handle(number) },
            Call::Report,
            Call::HandOver { place },
            Call::Chain { first: Link { way: place, identity, number }, bytes },
            Call::Release { identity, handle: Handle(number) },
        ]
    }

    /// The samples' records, written out by hand.
    const RECORDS: [&[u8]; 14] = [
        b"\x07\x01\x11\x22\x23\x24\x25\x26\x27\x28\x29",
        b"\x01\x04",
        b"\x4B\x05\x11\x32\x33\x03\x00abc",
        b"\x1B\x06\x11\x32\x33\x44\x45",
        b"\x49\x07\x32\x33\x03\x00abc",
        b"\x19\x08\x32\x33\x44\x45",
        b"\x19\x09\x32\x33\x44\x45",
        b"\x65\x0A\x22\x23\x24\x25\x26\x27\x28\x29\x52\x53\x54\x55\x56\x57\x58\x59\x03\x00abc",
        b"\x3D\x0B\x22\x23\x24\x25\x26\x27\x28\x29\x32\x33\x44\x45\x52\x53\x54\x55\x56\x57\x58\x59",
        b"\x2D\x0C\x22\x23\x24\x25\x26\x27\x28\x29\x32\x33\x52\x53\x54\x55\x56\x57\x58\x59",
        b"\x01\x0D",
        b"\x03\x0E\x11",
        b"\x67\x0F\x11\x22\x23\x24\x25\x26\x27\x28\x29\x52\x53\x54\x55\x56\x57\x58\x59\x03\x00abc",
        b"\x25\x10\x22\x23\x24\x25\x26\x27\x28\x29\x52\x53\x54\x55\x56\x57\x58\x59",
    ];

    /// The widths of the samples' fields, from the document's table: map 1, kind
    /// 1, place 1, identity 8, offset 2, length 2, number 8, the count of the
    /// bytes 2, their contents 3.
    const WIDTHS: [&[usize]; 14] = [
        &[1, 1, 1, 8],
        &[1, 1],
        &[1, 1, 1, 2, 2, 3],
        &[1, 1, 1, 2, 2],
        &[1, 1, 2, 2, 3],
        &[1, 1, 2, 2],
        &[1, 1, 2, 2],
        &[1, 1, 8, 8, 2, 3],
        &[1, 1, 8, 2, 2, 8],
        &[1, 1, 8, 2, 8],
        &[1, 1],
        &[1, 1, 1],
        &[1, 1, 1, 8, 8, 2, 3],
        &[1, 1, 8, 8],
    ];

    /// What each sample misses when it is cut, from no byte of it on: a word for
    /// a field, a digit for a byte.
    const MISSING: [&str; 14] = [
        "1 1 1 87654321",
        "1 1",
        "1 1 1 21 21 321",
        "1 1 1 21 21",
        "1 1 21 21 321",
        "1 1 21 21",
        "1 1 21 21",
        "1 1 87654321 87654321 21 321",
        "1 1 87654321 21 21 87654321",
        "1 1 87654321 21 87654321",
        "1 1",
        "1 1 1",
        "1 1 1 87654321 87654321 21 321",
        "1 1 87654321 87654321",
    ];

    fn widths_of(kind: u8) -> Option<&'static [usize]> {
        MAPS.iter().zip(WIDTHS).find(|((number, _), _)| *number == kind).map(|(_, widths)| widths)
    }

    /// What the reader gives where the field being read misses so many bytes.
    fn cut(missing: usize) -> Result<(Call<'static>, usize), Refusal> {
        Err(Refusal::Cut { missing })
    }

    /// The sample with every byte behind the kind made `fill`, its count of bytes
    /// aside.
    fn filled(record: &[u8], fill: u8) -> Vec<u8> {
        let mut filled = record.to_vec();
        filled[2..].fill(fill);
        if record[0] & 0x40 != 0 {
            let count = record.len() - 5;
            filled[count..count + 2].copy_from_slice(&[3, 0]);
        }
        filled
    }

    #[test]
    fn widths_and_missing_agree() {
        for ((record, widths), words) in RECORDS.iter().zip(WIDTHS).zip(MISSING) {
            assert!(words.split(' ').map(str::len).eq(widths.iter().copied()));
            assert_eq!(widths.iter().sum::<usize>(), record.len());
        }
    }

    /// Every field of every kind cut at every byte, whatever stands in the fields.
    #[test]
    fn cut_at_every_byte() {
        for (record, words) in RECORDS.iter().zip(MISSING) {
            let fillings = [0x00, 0x01, 0x7F, 0xFF].map(|fill| filled(record, fill));
            for record in fillings.iter().map(Vec::as_slice).chain([*record]) {
                let digits = words.bytes().filter(u8::is_ascii_digit);
                for (end, digit) in digits.enumerate() {
                    assert_eq!(read(&record[..end]), cut(usize::from(digit - b'0')));
                }
                assert_eq!(read(record).unwrap().1, record.len());
            }
        }
    }

    /// Contents cut at every byte. A count of 0 leaves nothing to cut.
    #[test]
    fn contents_cut_at_every_byte() {
        let fronts: [&[u8]; 4] =
            [&[0x4B, 5, 0, 0, 0], &[0x49, 7, 0, 0], &[0x65, 10], &[0x67, 15, 2]];
        for front in fronts {
            let mut front = front.to_vec();
            if matches!(front[1], 10 | 15) {
                front.extend([0; 16]);
            }
            for count in [0u16, 1, 2, 3, 8, 255, 256, 257, 300, 65_280, 65_535] {
                let [low, high] = count.to_le_bytes();
                let whole = [&front[..], &[low, high], &vec![0xFF; usize::from(count)]].concat();
                let contents = front.len() + 2;
                assert_eq!(read(&whole[..front.len()]), cut(2));
                assert_eq!(read(&whole[..front.len() + 1]), cut(1));
                for there in 0..usize::from(count) {
                    assert_eq!(read(&whole[..contents + there]), cut(usize::from(count) - there));
                }
                assert_eq!(read(&whole).unwrap().1, whole.len());
            }
        }
    }

    /// Any fewer bytes than are missing leave as many fewer missing; as many as
    /// are missing finish the field, whatever they are.
    #[test]
    fn missing_bytes_finish_the_field() {
        for (record, widths) in RECORDS.iter().zip(WIDTHS) {
            let mut first = 0;
            for (field, width) in widths.iter().enumerate() {
                for there in 0..*width {
                    for filler in [0x00, 0x01, 0x03, 0x0D, 0x19, 0xFF] {
                        let mut longer = record[..first + there].to_vec();
                        for missing in (1..=width - there).rev() {
                            assert_eq!(read(&longer), cut(missing));
                            longer.push(filler);
                        }
                        field_is_read(&longer, field, widths);
                    }
                }
                first += width;
            }
        }
    }

    /// The record ends with this field: the reader asks for the next one, gives
    /// 2 or 3, or reads a call where there is none.
    fn field_is_read(record: &[u8], field: usize, widths: &[usize]) {
        let mut widths = widths.to_vec();
        if field == 0 {
            let expected = if record[0] & 1 == 0 { Err(Refusal::UnknownKind) } else { cut(1) };
            return assert_eq!(read(record), expected);
        }
        if field == 1 {
            widths = match (legal_map(record[1]), widths_of(record[1])) {
                (Some(map), Some(widths)) if map == record[0] => widths.to_vec(),
                (Some(_), _) => return assert_eq!(read(record), Err(Refusal::WrongMap)),
                _ => return assert_eq!(read(record), Err(Refusal::UnknownKind)),
            };
        }
        let is_count = record[0] & 0x40 != 0 && field + 2 == widths.len();
        if is_count {
            let count = &record[record.len() - 2..];
            widths[field + 1] = usize::from(count[0]) + 256 * usize::from(count[1]);
        }
        match widths.get(field + 1) {
            Some(&width) if width > 0 => assert_eq!(read(record), cut(width)),
            _ => assert_eq!(read(record).unwrap().1, record.len()),
        }
    }

    #[test]
    fn reads_and_writes_each_kind() {
        for (n, (call, record)) in samples().iter().zip(RECORDS).enumerate() {
            assert_eq!((record[1], record[0]), MAPS[n]);
            assert_eq!(read(record), Ok((*call, record.len())));
            // Bytes behind the record don't matter.
            let mut longer = record.to_vec();
            longer.extend([0xFF; 9]);
            assert_eq!(read(&longer), Ok((*call, record.len())));
            // Written into a longer buffer, one of the length, shorter ones.
            let mut buffer = [0xEE; 40];
            let length = record.len();
            assert_eq!(write_call(call, &mut buffer), Written { code: 0, length });
            assert_eq!(&buffer[..length], record);
            assert!(buffer[length..].iter().all(|&byte| byte == 0xEE));
            let mut buffer = vec![0xEE; length];
            assert_eq!(write_call(call, &mut buffer), Written { code: 0, length });
            assert_eq!(buffer, record);
            for size in 0..length {
                let mut buffer = vec![0xEE; size];
                let written = write_call(call, &mut buffer);
                assert_eq!(written, Written { code: 17, length: 0 });
                assert!(buffer.iter().all(|&byte| byte == 0xEE));
            }
        }
    }

    #[test]
    fn reader_order_for_every_map_and_kind() {
        assert_eq!(read(&[]), cut(1));
        for map in 0..=255 {
            let down = map & 1 == 0;
            let expected = if down { Err(Refusal::UnknownKind) } else { cut(1) };
            assert_eq!(read(&[map]), expected);
            for kind in 0..=255 {
                let long = [&[map, kind][..], &[0; 40]].concat();
                for record in [&long[..2], &long] {
                    let legal = legal_map(kind);
                    if down || legal.is_none() {
                        assert_eq!(read(record), Err(Refusal::UnknownKind));
                    } else if legal != Some(map) {
                        assert_eq!(read(record), Err(Refusal::WrongMap));
                    } else if map != 1 && record.len() == 2 {
                        let width = widths_of(kind).and_then(|widths| widths.get(2));
                        assert_eq!(read(record), cut(*width.unwrap()));
                    } else {
                        let (call, used) = read(record).unwrap();
                        assert_eq!(call.parts().0.number(), kind);
                        assert!(used <= record.len());
                    }
                }
            }
        }
    }

    /// The kind is tested before the map and before a cut field, so a start and
    /// a yield as they once were are 2, whole or cut.
    #[test]
    fn kinds_2_and_3_are_retired() {
        let records: [&[u8]; 5] = [&[3, 2, 0], &[3, 2], &[1, 3], &[3, 3, 0], &[1, 2]];
        for record in records {
            assert_eq!(read(record), Err(Refusal::UnknownKind));
        }
        for kind in [2, 3] {
            assert_eq!(Kind::from_number(kind), Err(Refusal::UnknownKind));
        }
    }

    #[test]
    fn writer_tests_the_kind_first() {
        let too_many = vec![0; 65_536];
        for kind in (0..=255).filter(|&kind| legal_map(kind).is_none()) {
            for bytes in [&[][..], &too_many] {
                let mut buffer = [0xEE; 3];
                let refused = Written { code: 2, length: 0 };
                assert_eq!(write(kind, &Fields::default(), bytes, &mut buffer), refused);
                assert_eq!(write(kind, &Fields::default(), bytes, &mut []), refused);
                assert_eq!(buffer, [0xEE; 3]);
            }
        }
    }

    #[test]
    fn writer_and_the_count_of_bytes() {
        let bytes: Vec<u8> = (0..65_537u32).map(|n| (n % 251) as u8).collect();
        let fields = Fields { place: 1, identity: 2, offset: 3, length: 4, number: 5 };
        for (kind, map) in MAPS {
            let has_bytes = map & 0x40 != 0;
            for count in [0, 1, 255, 256, 257, 65_534, 65_535, 65_536, 65_537] {
                let mut buffer = vec![0xEE; 70_000];
                let written = write(kind, &fields, &bytes[..count], &mut buffer);
                if has_bytes && count > 65_535 {
                    assert_eq!(written, Written { code: 17, length: 0 });
                    assert!(buffer.iter().all(|&byte| byte == 0xEE));
                    continue;
                }
                assert_eq!(written.code, 0);
                assert!(buffer[written.length..].iter().all(|&byte| byte == 0xEE));
                let record = &buffer[..written.length];
                let (call, used) = read(record).unwrap();
                assert_eq!(used, written.length);
                let expected = if has_bytes { &bytes[..count] } else { &[] };
                assert_eq!(call.parts().2, expected);
                // A call has one record, whatever the fields not in its map.
                let mut again = vec![0xEE; written.length];
                assert_eq!(write_call(&call, &mut again), written);
                assert_eq!(again, record);
                // One byte short of the record.
                if has_bytes {
                    again.fill(0xEE);
                    again.pop();
                    let short = write(kind, &fields, &bytes[..count], &mut again);
                    assert_eq!(short, Written { code: 17, length: 0 });
                    assert!(again.iter().all(|&byte| byte == 0xEE));
                }
            }
        }
    }

    #[test]
    fn longest_records() {
        let bytes = vec![1; 65_535];
        let mut buffer = vec![0; 70_000];
        for (kind, length) in [(5, 65_542), (7, 65_541), (10, 65_555), (15, 65_556)] {
            let written = write(kind, &Fields::default(), &bytes, &mut buffer);
            assert_eq!(written, Written { code: 0, length });
            assert_eq!(read(&buffer[..length]).unwrap().1, length);
            assert_eq!(read(&buffer[..length - 1]), cut(1));
        }
    }
}

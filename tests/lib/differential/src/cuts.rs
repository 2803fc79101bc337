//! Records that end inside a field, and how many bytes finish that field. All of
//! it comes from document 01's table of widths: no box reads a record here.

/// A kind with its map and its fields, as document 01 has them.
pub struct Layout {
    pub kind: u8,
    pub map: u8,
    /// The widths of the fields between the kind and the bytes, in rising bit
    /// order.
    widths: &'static [usize],
    /// Whether bytes end the record.
    pub bytes: bool,
}

const PLACE: usize = 1;
const IDENTITY: usize = 8;
const OFFSET: usize = 2;
const LENGTH: usize = 2;
const NUMBER: usize = 8;
/// Of the bytes.
const COUNT: usize = 2;

/// The kinds. 2 and 3 are retired.
#[rustfmt::skip]
pub const LAYOUTS: [Layout; 14] = [
    Layout { kind: 1, map: 0x07, widths: &[PLACE, IDENTITY], bytes: false },
    Layout { kind: 4, map: 0x01, widths: &[], bytes: false },
    Layout { kind: 5, map: 0x4B, widths: &[PLACE, OFFSET], bytes: true },
    Layout { kind: 6, map: 0x1B, widths: &[PLACE, OFFSET, LENGTH], bytes: false },
    Layout { kind: 7, map: 0x49, widths: &[OFFSET], bytes: true },
    Layout { kind: 8, map: 0x19, widths: &[OFFSET, LENGTH], bytes: false },
    Layout { kind: 9, map: 0x19, widths: &[OFFSET, LENGTH], bytes: false },
    Layout { kind: 10, map: 0x65, widths: &[IDENTITY, NUMBER], bytes: true },
    Layout { kind: 11, map: 0x3D, widths: &[IDENTITY, OFFSET, LENGTH, NUMBER], bytes: false },
    Layout { kind: 12, map: 0x2D, widths: &[IDENTITY, OFFSET, NUMBER], bytes: false },
    Layout { kind: 13, map: 0x01, widths: &[], bytes: false },
    Layout { kind: 14, map: 0x03, widths: &[PLACE], bytes: false },
    Layout { kind: 15, map: 0x67, widths: &[PLACE, IDENTITY, NUMBER], bytes: true },
    Layout { kind: 16, map: 0x25, widths: &[IDENTITY, NUMBER], bytes: false },
];

impl Layout {
    /// The kind's, where there is such a kind.
    pub fn of(kind: u8) -> Option<&'static Layout> {
        LAYOUTS.iter().find(|layout| layout.kind == kind)
    }

    /// The widths of all fields from the map on. The count of the bytes and their
    /// contents, `count` of them, are two fields.
    pub fn fields(&self, count: u16) -> Vec<usize> {
        let mut fields = vec![1, 1];
        fields.extend(self.widths);
        if self.bytes {
            fields.extend([COUNT, usize::from(count)]);
        }
        fields
    }

    /// A record with `fill` in every byte behind the kind, but for the count.
    pub fn record(&self, fill: u8, count: u16) -> Vec<u8> {
        let mut record = vec![self.map, self.kind];
        let widths: usize = self.widths.iter().sum();
        record.resize(2 + widths, fill);
        if self.bytes {
            record.extend(count.to_le_bytes());
            record.resize(record.len() + usize::from(count), fill);
        }
        record
    }

    /// That record cut at every byte, the empty one first.
    pub fn cuts(&self, fill: u8, count: u16) -> Vec<Cut> {
        let record = self.record(fill, count);
        let mut cuts = Vec::new();
        for (field, width) in self.fields(count).into_iter().enumerate() {
            for there in 0..width {
                let record = record[..cuts.len()].to_vec();
                cuts.push(Cut { record, field, missing: width - there });
            }
        }
        cuts
    }

    /// The contents of that record cut behind so many of their bytes, which are
    /// fewer than the count.
    pub fn contents_cut(&self, fill: u8, count: u16, there: usize) -> Cut {
        let mut record = self.record(fill, 0);
        let end = record.len();
        record[end - COUNT..].copy_from_slice(&count.to_le_bytes());
        record.resize(end + there, fill);
        let field = self.widths.len() + 3;
        Cut { record, field, missing: usize::from(count) - there }
    }
}

/// A record that ends inside a field.
pub struct Cut {
    pub record: Vec<u8>,
    /// The field's index. The map's is 0, the kind's 1.
    pub field: usize,
    /// So many of the field's bytes aren't there.
    pub missing: usize,
}

/// What the reader does once the field that was cut is there.
#[derive(Clone, Copy, Debug, PartialEq, Eq)]
pub enum Next {
    /// It gives 2 or 3.
    Refused(u8),
    /// It asks for the next field, of which no byte is there.
    Missing(usize),
    /// It reads a call.
    Whole,
}

impl Cut {
    /// The record followed by so many bytes.
    pub fn followed_by(&self, filler: u8, count: usize) -> Vec<u8> {
        let mut record = self.record.clone();
        record.resize(record.len() + count, filler);
        record
    }

    /// What comes of it when the missing bytes follow, all of them `filler`.
    pub fn next(&self, filler: u8) -> Next {
        let record = self.followed_by(filler, self.missing);
        let (map, kind) = (record[0], record.get(1).copied());
        let kind = match kind {
            _ if map & 1 == 0 => return Next::Refused(2),
            None => return Next::Missing(1),
            Some(kind) => kind,
        };
        let layout = match Layout::of(kind) {
            None => return Next::Refused(2),
            Some(layout) if layout.map != map => return Next::Refused(3),
            Some(layout) => layout,
        };
        let count = match record[..] {
            [.., low, high] if self.field == layout.widths.len() + 2 => [low, high],
            _ => [0, 0],
        };
        match layout.fields(u16::from_le_bytes(count)).get(self.field + 1) {
            Some(&width) if width > 0 => Next::Missing(width),
            _ => Next::Whole,
        }
    }
}

/// How many bytes finish the field inside which a good record ends when only so
/// many of its bytes are there.
pub fn missing(record: &[u8], there: usize) -> usize {
    let layout = Layout::of(record[1]).expect("the record is good");
    let count = match record[2 + layout.widths.iter().sum::<usize>()..] {
        [low, high, ..] if layout.bytes => u16::from_le_bytes([low, high]),
        _ => 0,
    };
    let mut end = 0;
    for width in layout.fields(count) {
        end += width;
        if there < end {
            return end - there;
        }
    }
    panic!("the record isn't cut");
}

#[cfg(test)]
mod tests {
    use super::*;

    /// Each bit with its field's width. Bit 6 is the bytes.
    const BITS: [usize; 6] = [1, 1, 8, 2, 2, 8];

    #[test]
    fn widths_are_those_of_the_map() {
        for layout in &LAYOUTS {
            let standing = (0..6).filter(|bit| layout.map >> bit & 1 == 1);
            let widths: Vec<usize> = standing.map(|bit| BITS[bit]).collect();
            assert_eq!(widths[1..], *layout.widths, "kind {}", layout.kind);
            assert_eq!(layout.map >> 6 == 1, layout.bytes, "kind {}", layout.kind);
        }
        let lengths = LAYOUTS.map(|layout| layout.record(0, 3).len());
        assert_eq!(lengths, [11, 2, 10, 7, 9, 6, 6, 23, 22, 20, 2, 3, 24, 18]);
    }

    /// What each kind misses, cut at each of its bytes, written out.
    #[test]
    fn cuts_are_those_written_out() {
        let written = [
            "11187654321",
            "11",
            "1112121321",
            "1112121",
            "112121321",
            "112121",
            "112121",
            "11876543218765432121321",
            "1187654321212187654321",
            "11876543212187654321",
            "11",
            "111",
            "111876543218765432121321",
            "118765432187654321",
        ];
        for (layout, digits) in LAYOUTS.iter().zip(written) {
            for fill in [0x00, 0xFF] {
                let whole = layout.record(fill, 3);
                let cuts = layout.cuts(fill, 3);
                let numbers: String = cuts.iter().map(|cut| cut.missing.to_string()).collect();
                assert_eq!(numbers, digits, "kind {}", layout.kind);
                for (end, cut) in cuts.iter().enumerate() {
                    assert_eq!(cut.record, whole[..end]);
                    assert_eq!(missing(&whole, end), cut.missing);
                }
            }
        }
    }

    #[test]
    fn contents_are_cut_as_the_rest() {
        for layout in LAYOUTS.iter().filter(|layout| layout.bytes) {
            let cuts = layout.cuts(0x41, 300);
            for (there, cut) in cuts[cuts.len() - 300..].iter().enumerate() {
                let contents = layout.contents_cut(0x41, 300, there);
                assert_eq!((&contents.record, contents.field), (&cut.record, cut.field));
                assert_eq!((contents.missing, cut.missing), (300 - there, 300 - there));
            }
        }
    }

    /// A filler that is a map, a kind, a count, or any byte of another field.
    #[test]
    fn what_follows_is_by_the_bytes_that_finish() {
        let next = |kind, length: usize, filler| {
            let layout = Layout::of(kind).expect("a kind");
            layout.cuts(0x11, 3)[length].next(filler)
        };
        assert_eq!(next(1, 0, 2), Next::Refused(2));
        assert_eq!(next(1, 0, 3), Next::Missing(1));
        assert_eq!(next(1, 1, 0), Next::Refused(2));
        assert_eq!(next(1, 1, 4), Next::Refused(3));
        assert_eq!(next(1, 1, 1), Next::Missing(1));
        assert_eq!(next(1, 2, 0), Next::Missing(8));
        assert_eq!(next(1, 5, 0), Next::Whole);
        assert_eq!(next(4, 1, 13), Next::Whole);
        assert_eq!(next(7, 2, 0), Next::Missing(2));
        assert_eq!(next(7, 4, 0), Next::Whole);
        assert_eq!(next(7, 4, 1), Next::Missing(257));
        assert_eq!(next(7, 5, 1), Next::Missing(256 + 3));
        assert_eq!(next(7, 6, 1), Next::Whole);
        assert_eq!(next(14, 2, 99), Next::Whole);
        assert_eq!(next(15, 2, 0), Next::Missing(8));
        assert_eq!(next(15, 19, 0), Next::Whole);
        assert_eq!(next(15, 19, 2), Next::Missing(514));
    }
}

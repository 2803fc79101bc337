//! What a chain of custody is made of: links, the heads of their values, and the
//! chain bytes that carry the logged ones. Numbers stand lowest byte first.

use crate::tables::{Identity, Place};

/// The most links that are followed.
pub const LINKS_MAX: u64 = 16;

/// What a link value begins with when the chain ends there.
pub const WAY_END: Place = 1;
/// The next link is logged.
pub const WAY_LOGGED: Place = 2;
/// The next link is escrowed.
pub const WAY_ESCROWED: Place = 3;

/// Where a link is to be found. The first stands in the call, each other one at
/// the front of the value of the link before it.
#[derive(Clone, Copy, Debug, PartialEq, Eq)]
pub struct Link {
    /// Arrives in the place field, so it may be any byte.
    pub way: Place,
    /// Who logged the value, or the source that escrowed it.
    pub identity: Identity,
    /// A tag or a handle: which of them, the way decides.
    pub number: u64,
}

/// What the front of a link value says.
#[derive(Clone, Copy, Debug, PartialEq, Eq)]
pub(crate) enum Head {
    End,
    Next(Link),
}

/// The head of a link value, or none when it is malformed: the value is empty,
/// its first byte isn't 1 to 3, or fewer than 16 bytes follow a 2 or 3. The rest
/// is payload.
///
/// Open: document 02 speaks of payload behind a 2 or 3 only. Here it may follow a 1
/// too, since that isn't among what makes a head malformed.
pub(crate) fn head_of(value: &[u8]) -> Option<Head> {
    match *value.first()? {
        WAY_END => Some(Head::End),
        way @ (WAY_LOGGED | WAY_ESCROWED) => {
            let identity = u64_at(value, 1)?;
            let number = u64_at(value, 9)?;
            Some(Head::Next(Link { way, identity, number }))
        }
        _ => None,
    }
}

/// Takes the next logged value from the front of the chain bytes: a 2-byte count,
/// then that many. None when either is cut.
pub(crate) fn take_value<'a>(rest: &mut &'a [u8]) -> Option<&'a [u8]> {
    let count = rest.get(..2)?;
    let end = 2 + usize::from(u16::from_le_bytes([count[0], count[1]]));
    let value = rest.get(2..end)?;
    *rest = &rest[end..];
    Some(value)
}

fn u64_at(bytes: &[u8], first: usize) -> Option<u64> {
    let field = bytes.get(first..first + 8)?;
    field.try_into().ok().map(u64::from_le_bytes)
}

#[cfg(test)]
mod tests {
    use super::*;

    /// Identity 0x0807060504030201 and number 0x1817161514131211.
    const NEXT: &[u8] = b"\x01\x02\x03\x04\x05\x06\x07\x08\x11\x12\x13\x14\x15\x16\x17\x18";

    #[test]
    fn heads() {
        let (identity, number) = (0x0807_0605_0403_0201, 0x1817_1615_1413_1211);
        for way in 0..=255 {
            for behind in 0..=NEXT.len() {
                let value = [&[way][..], &NEXT[..behind]].concat();
                let wanted = match way {
                    1 => Some(Head::End),
                    2 | 3 if behind == 16 => Some(Head::Next(Link { way, identity, number })),
                    _ => None,
                };
                assert_eq!(head_of(&value), wanted, "{value:?}");
            }
            // Payload behind the head doesn't matter.
            for payload in [1, 2, 239] {
                let value = [&[way], NEXT, &vec![way; payload]].concat();
                assert_eq!(head_of(&value), head_of(&value[..17]));
            }
        }
        assert_eq!(head_of(&[]), None);
    }

    #[test]
    fn values_are_taken_in_order() {
        let mut rest: &[u8] = b"\x02\x00ab\x00\x00\x01\x00c";
        for value in [&b"ab"[..], b"", b"c"] {
            assert_eq!(take_value(&mut rest), Some(value));
        }
        assert!(rest.is_empty());
        // Cut in the count, and in the contents. The count is lowest byte first.
        for cut in [&b""[..], b"\x00", b"\x01", b"\x01\x00", b"\x02\x00a", b"\x00\x01abc"] {
            let mut rest = cut;
            assert_eq!(take_value(&mut rest), None, "{cut:?}");
        }
        let long = [&b"\xFF\xFF"[..], &[7; 65_535]].concat();
        assert_eq!(take_value(&mut &long[..]), Some(&long[2..]));
        assert_eq!(take_value(&mut &long[..long.len() - 1]), None);
    }
}

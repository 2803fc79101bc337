//! Tags, handles and draws.

use crate::tables::{EscrowRow, Identity};

/// A draw is below this, 2^48. A handle is its length times this, plus a draw.
pub const DRAW_LIMIT: u64 = 1 << 48;

/// Names a logged pair.
#[derive(Clone, Copy, Debug, Default, PartialEq, Eq)]
pub struct Tag(pub u64);

/// Names an escrow row.
#[derive(Clone, Copy, Debug, Default, PartialEq, Eq)]
pub struct Handle(pub u64);

/// A number the host drew. One of 2^48 or more is refused by protect.
#[derive(Clone, Copy, Debug, Default, PartialEq, Eq)]
pub struct Draw(pub u64);

/// The multiplier and the increment of POSIX's drand48. Its modulus is 2^48.
const DRAW_MULTIPLIER: u64 = 25_214_903_917;
const DRAW_INCREMENT: u64 = 11;

const FNV_START: u64 = 14_695_981_039_346_656_037;
const FNV_PRIME: u64 = 1_099_511_628_211;

/// 64-bit FNV-1a.
pub fn fnv1a(bytes: &[u8]) -> u64 {
    fnv1a_on(FNV_START, bytes)
}

fn fnv1a_on(mut hash: u64, bytes: &[u8]) -> u64 {
    for &byte in bytes {
        hash = (hash ^ u64::from(byte)).wrapping_mul(FNV_PRIME);
    }
    hash
}

/// The tag of a pair: FNV-1a over the identity, lowest byte first, then the value.
pub fn tag_of(identity: Identity, value: &[u8]) -> Tag {
    Tag(fnv1a_on(fnv1a(&identity.to_le_bytes()), value))
}

impl Handle {
    /// The handle of a length and a draw below 2^48.
    fn new(length: u16, draw: Draw) -> Self {
        Handle(u64::from(length) * DRAW_LIMIT + draw.0)
    }

    /// The length the handle carries.
    pub fn length(self) -> u16 {
        (self.0 / DRAW_LIMIT) as u16
    }
}

/// The draw after one whose handle is in use, as POSIX's drand48 has it. 2^48
/// divides 2^64, so a product that wraps there has the right remainder.
fn next_draw(draw: Draw) -> Draw {
    Draw(draw.0.wrapping_mul(DRAW_MULTIPLIER).wrapping_add(DRAW_INCREMENT) % DRAW_LIMIT)
}

/// The handle of the first of `draw`, the draw after it, and so on that is in none
/// of `rows`, spent ones included. The draw must be below 2^48. The sequence runs
/// through all draws before one comes again, so each candidate passed over is in a row
/// of its own, and at most as many are as there are rows.
pub(crate) fn free_handle(rows: &[EscrowRow], length: u16, mut draw: Draw) -> Handle {
    loop {
        let handle = Handle::new(length, draw);
        if rows.iter().all(|row| row.handle != handle) {
            return handle;
        }
        draw = next_draw(draw);
    }
}

#[cfg(test)]
mod tests {
    use super::*;

    /// Where the values come from: docs/DECISIONS.md, 3.
    #[test]
    fn fnv_vectors() {
        let vectors: [(&[u8], u64); 16] = [
            (b"", 0xcbf2_9ce4_8422_2325),
            (b"a", 0xaf63_dc4c_8601_ec8c),
            (b"b", 0xaf63_df4c_8601_f1a5),
            (b"c", 0xaf63_de4c_8601_eff2),
            (b"d", 0xaf63_d94c_8601_e773),
            (b"e", 0xaf63_d84c_8601_e5c0),
            (b"f", 0xaf63_db4c_8601_ead9),
            (b"fo", 0x0898_5907_b541_d342),
            (b"foo", 0xdcb2_7518_fed9_d577),
            (b"foob", 0xdd12_0e79_0c25_12af),
            (b"fooba", 0xcac1_65af_a2fe_f40a),
            (b"foobar", 0x8594_4171_f739_67e8),
            (b"\0", 0xaf63_bd4c_8601_b7df),
            (b"a\0", 0x089b_e207_b544_f1e4),
            (b"foobar\0", 0x3453_1ca7_168b_8f38),
            (b"chongo was here!\n", 0x4681_0940_eff5_f915),
        ];
        for (bytes, hash) in vectors {
            assert_eq!(fnv1a(bytes), hash, "{bytes:?}");
        }
    }

    #[test]
    fn tag_is_fnv_over_identity_then_value() {
        let identity = u64::from_le_bytes(*b"chongo w");
        assert_eq!(tag_of(identity, b"as here!\n"), Tag(0x4681_0940_eff5_f915));
        assert_eq!(tag_of(1, b""), Tag(fnv1a(&[1, 0, 0, 0, 0, 0, 0, 0])));
    }

    /// In other arithmetic than the box has.
    fn wide_next(draw: u64) -> u64 {
        ((25_214_903_917 * u128::from(draw) + 11) % (1 << 48)) as u64
    }

    /// srand48(0) begins at 0x330E. lrand48 gives the upper 31 of a draw's 48 bits,
    /// and these three after it.
    #[test]
    fn draws_follow_posix() {
        let mut draw = Draw(0x330E);
        for lrand48 in [366_850_414, 1_610_402_240, 206_956_554] {
            draw = next_draw(draw);
            assert_eq!(draw.0 >> 17, lrand48);
        }
        let after = [(0, 11), (7, 176_504_327_430), (DRAW_LIMIT - 1, 281_449_761_806_750)];
        for (draw, next) in after {
            assert_eq!(next_draw(Draw(draw)), Draw(next));
        }
    }

    /// Every bit of a draw counts, alone and with all others.
    #[test]
    fn no_bit_of_a_draw_is_lost() {
        for bit in 0..48 {
            for draw in [1 << bit, DRAW_LIMIT - 1 - (1 << bit), (1 << bit) - 1] {
                let next = next_draw(Draw(draw));
                assert_eq!(next, Draw(wide_next(draw)), "{draw}");
                assert!(next.0 < DRAW_LIMIT);
            }
        }
    }

    fn row(handle: u64) -> EscrowRow {
        EscrowRow { source: 1, recipient: 1, handle: Handle(handle), ..EscrowRow::default() }
    }

    #[test]
    fn handles_pass_over_taken_ones() {
        let last = DRAW_LIMIT - 1;
        let (second, third) = (wide_next(last), wide_next(wide_next(last)));
        assert_eq!(free_handle(&[], 0, Draw(last)), Handle(last));
        assert_eq!(free_handle(&[row(last)], 0, Draw(last)), Handle(second));
        let rows = [row(second), row(last)];
        assert_eq!(free_handle(&rows, 0, Draw(last)), Handle(third));
        // A later candidate in use leaves the one before it free, and a draw that is
        // free is not passed over.
        assert_eq!(free_handle(&[row(third), row(last)], 0, Draw(last)), Handle(second));
        assert_eq!(free_handle(&[row(second), row(third)], 0, Draw(last)), Handle(last));
        // The numbers beside a draw make no difference.
        let rows = [row(last), row(0), row(1), row(last - 1)];
        assert_eq!(free_handle(&rows, 0, Draw(last)), Handle(second));
        // Another length is another handle.
        assert_eq!(free_handle(&rows, 256, Draw(last)), Handle(256 * DRAW_LIMIT + last));
        let rows = [row(last), row(256 * DRAW_LIMIT + second)];
        assert_eq!(free_handle(&rows, 0, Draw(last)), Handle(second));
    }

    /// A spent row's handle stays in use.
    #[test]
    fn handles_pass_over_spent_ones() {
        let spent = EscrowRow { mark: 1, ..row(5 * DRAW_LIMIT + 7) };
        assert_eq!(free_handle(&[spent], 5, Draw(7)), Handle(5 * DRAW_LIMIT + wide_next(7)));
        let rows = [spent, row(5 * DRAW_LIMIT + wide_next(7))];
        let third = wide_next(wide_next(7));
        assert_eq!(free_handle(&rows, 5, Draw(7)), Handle(5 * DRAW_LIMIT + third));
        // It carries the length that its value had, not 0.
        assert_eq!(free_handle(&[spent], 0, Draw(7)), Handle(7));
    }

    /// Whatever the first draw is, and in whatever order the rows stand.
    #[test]
    fn handles_pass_over_64() {
        for first in [0, 7, 1 << 47, DRAW_LIMIT - 1] {
            let sequence = std::iter::successors(Some(first), |&draw| Some(wide_next(draw)));
            let draws: Vec<u64> = sequence.take(65).collect();
            let mut rows: Vec<_> = draws[..64].iter().map(|&draw| row(draw)).collect();
            for _ in 0..2 {
                assert_eq!(free_handle(&rows, 0, Draw(first)), Handle(draws[64]));
                rows.reverse();
            }
        }
    }

    #[test]
    fn handle_carries_its_length() {
        assert_eq!(Handle::new(5, Draw(7)), Handle(1_407_374_883_553_287));
        assert_eq!(Handle::new(5, Draw(7)).length(), 5);
        assert_eq!(Handle::new(256, Draw(DRAW_LIMIT - 1)).length(), 256);
    }
}

//! Size, alignment and offsets of each struct, as `include/caif.h` says.

use std::mem::{align_of, size_of};
use std::ptr::addr_of;

use interface::{
    fresh, Answer, BoxRecord, EscrowRow, Fields, LogRow, Reply, Tally, Tank, TankAnswer, Used,
    Written,
};

pub fn check(tally: &mut Tally) {
    let mut same = |what: &str, is: usize, wanted: usize| {
        tally.check(is == wanted, || format!("layout: {what} is {is}, not {wanted}"));
    };
    macro_rules! layout {
        ($value:expr, $struct:ident: $size:expr, $align:expr; $($field:ident: $offset:expr),*) => {
            let value: $struct = $value;
            let start = addr_of!(value) as usize;
            let name = stringify!($struct);
            same(&format!("size of {name}"), size_of::<$struct>(), $size);
            same(&format!("alignment of {name}"), align_of::<$struct>(), $align);
            $(same(&format!("{name}.{}", stringify!($field)), addr_of!(value.$field) as usize - start, $offset);)*
        };
    }
    let held = fresh();
    layout!(Used::default(), Used: 4, 2; rows: 0, bytes: 2);
    layout!(held, BoxRecord: 144, 8; taken: 0, running: 2, identities: 8, log: 136, escrow: 140);
    layout!(LogRow::default(), LogRow: 24, 8; identity: 0, tag: 8, first: 16, length: 18);
    layout!(EscrowRow::default(), EscrowRow: 32, 8; source: 0, recipient: 8, handle: 16, first: 24, length: 26, mark: 28);
    layout!(Reply { held, code: 0, number: 0, used: 0, shown: 0 }, Reply: 176, 8; held: 0, code: 144, number: 152, used: 160, shown: 168);
    layout!(Answer { code: 0, number: 0, used: 0, shown: 0 }, Answer: 32, 8; code: 0, number: 8, used: 16, shown: 24);
    layout!(Fields::default(), Fields: 32, 8; place: 0, identity: 8, offset: 16, length: 18, number: 24);
    layout!(Written { code: 0, length: 0 }, Written: 16, 8; code: 0, length: 8);
    layout!(Tank::default(), Tank: 32, 8; reading: 0, setpoint: 4, probe: 8, tag: 16, given: 24, correction: 25);
    layout!(TankAnswer::default(), TankAnswer: 3, 1; code: 0, action: 1, refusal: 2);
}

//! Sound boxes to damage, made by hand-picked calls.

use second::{Call, Host, OUTPUT_SIZE};

use crate::calls::{attest, create, hand_over, heap_write, protect, record_of, release};

/// A fresh box, one in use, one with every row used, one with every value byte used
/// and one with spent rows.
pub fn bases() -> [Host; 5] {
    let rows = base(&[2, 3, 4, 5].repeat(16));
    [Host::fresh(), base(&[3, 0, 5, 1]), rows, base(&[256; 16]), released()]
}

/// Values that were released between others, the first and the last among them, and
/// two of no bytes, of which one was.
fn released() -> Host {
    let mut host = base(&[4, 2, 0, 256, 1, 3, 0, 5, 7]);
    accept(&mut host, hand_over(5));
    for n in [3, 0, 6, 8, 5] {
        let handle = host.escrow[n].handle.0;
        accept(&mut host, release(77, handle));
    }
    accept(&mut host, hand_over(2));
    host
}

/// Identities 77 and 88 in places 2 and 5, 77 running; values of these lengths
/// logged and escrowed, all of them different. They are escrowed with three draws in
/// turn, so that handles of one length follow one another.
fn base(lengths: &[u16]) -> Host {
    let mut host = Host::fresh();
    accept(&mut host, create(2, 77));
    accept(&mut host, create(5, 88));
    accept(&mut host, hand_over(5));
    accept(&mut host, heap_write(5, 0, &[9; 256]));
    accept(&mut host, hand_over(2));
    for (n, &length) in lengths.iter().enumerate() {
        let mut bytes = [n as u8 + 1; 256];
        bytes[0] = 255;
        accept(&mut host, heap_write(2, 0, &bytes));
        accept(&mut host, attest(0, length));
        accept(&mut host, protect(88, 0, length, 1_000 * (n as u64 % 3)));
    }
    host
}

fn accept(host: &mut Host, call: Call) {
    let answer = host.call(&mut [0; OUTPUT_SIZE], &record_of(&call));
    assert_eq!(answer.code, 0, "{call:?}");
}

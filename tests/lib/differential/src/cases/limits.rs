//! Scripts about the longest length, the longest records and the largest sheet.

use second::Call;

use crate::calls::{
    chain, check, create, hand_over, heap_write, record_of, shared_read, shared_write,
};
use crate::case::Case;
use crate::play::long_script;

const LONGEST: usize = 65_536;

pub fn cases() -> Vec<Case> {
    let mut cases = vec![reports(LONGEST - 1), reports(LONGEST), largest_sheet()];
    for length in [65_537, 65_538, 70_000, 131_072, 131_073, 1 << 20] {
        cases.push(too_long("reports", [1, 13].repeat(length)[..length].to_vec()));
        cases.push(too_long("zeros", vec![0; length]));
    }
    cases.push(too_long("good records", long_script(9, LONGEST + 1)));
    cases.extend(longest_shared_write());
    cases.extend(longest_check());
    cases.extend(longest_heap_write());
    cases.extend(longest_chain());
    for seed in 0..8 {
        for length in [LONGEST - 1, LONGEST, LONGEST + 1] {
            let name = format!("a generated script of {length} bytes, seed {seed}");
            cases.push(Case::bare(name, long_script(seed, length)));
        }
    }
    cases
}

/// Reports as far as the length goes, the last one cut where it is odd.
fn reports(length: usize) -> Case {
    let mut case = Case::new(format!("{length} bytes of reports"));
    for _ in 0..length / 2 {
        case.accept(0, Call::Report);
    }
    if length % 2 == 1 {
        case.cut(1, &[1]);
    }
    case
}

fn too_long(what: &str, script: Vec<u8>) -> Case {
    let mut case = Case::new(format!("{} bytes of {what}", script.len()));
    case.script = script;
    case.line(16, 0, 0, &[]);
    case
}

/// The whole script is one record: whole, cut by a byte, cut behind its count, a
/// byte too long.
fn longest_shared_write() -> [Case; 4] {
    let bytes = vec![7; LONGEST];
    let mut whole = Case::new("a shared write of 65,530 bytes");
    whole.refuse(11, shared_write(0, &bytes[..LONGEST - 6]));
    assert_eq!(whole.script.len(), LONGEST);
    let mut cut = Case::new("a shared write of 65,530 bytes, cut");
    cut.cut(1, &whole.script[..LONGEST - 1]);
    let mut count = Case::new("a shared write of 65,530 bytes, cut behind its count");
    count.cut(65_530, &whole.script[..6]);
    let longer = too_long("a shared write", record_of(&shared_write(0, &bytes[..LONGEST - 5])));
    [whole, cut, count, longer]
}

fn longest_check() -> [Case; 2] {
    [1, 0].map(|identity| {
        let mut case = Case::new(format!("a check of 65,516 bytes, identity {identity}"));
        let code = if identity == 0 { 9 } else { 0 };
        case.answer(code, 0, check(identity, 7, &[7; LONGEST - 20]));
        assert_eq!(case.script.len(), LONGEST);
        case
    })
}

/// While none runs it is 4, while one runs 11.
fn longest_heap_write() -> [Case; 2] {
    let mut idle = Case::new("a long heap write while none runs");
    idle.refuse(4, heap_write(0, 0, &[7; LONGEST - 7]));
    let mut running = Case::new("a long heap write while one runs");
    running.accept(0, create(0, 1));
    running.accept(0, hand_over(0));
    running.refuse(11, heap_write(0, 0, &[7; LONGEST - 21]));
    assert_eq!((idle.script.len(), running.script.len()), (LONGEST, LONGEST));
    [idle, running]
}

/// Its first value is as long as the bytes have room for, or a byte longer. While
/// none runs it is 4.
fn longest_chain() -> [Case; 3] {
    let mut idle = Case::new("a long chain while none runs");
    idle.refuse(4, chain(2, 1, 7, &[7; LONGEST - 21]));
    assert_eq!(idle.script.len(), LONGEST);
    let running = |name, longer: u16, code| {
        let mut case = Case::new(name);
        case.accept(0, create(0, 1));
        case.accept(0, hand_over(0));
        let mut bytes = vec![7; LONGEST - 35];
        let count = (bytes.len() - 2) as u16 + longer;
        bytes[..2].copy_from_slice(&count.to_le_bytes());
        case.refuse(code, chain(2, 1, 7, &bytes));
        assert_eq!(case.script.len(), LONGEST);
        case
    };
    [idle, running("a long value in a chain", 0, 18), running("a long value, cut", 1, 19)]
}

/// As many reads of the whole shared memory as there is room for: 22 MB.
fn largest_sheet() -> Case {
    let bytes: Vec<u8> = (0..1_024).map(|n| (n % 253) as u8).collect();
    let mut script = record_of(&shared_write(0, &bytes));
    let read = record_of(&shared_read(0, 1_024));
    while script.len() + read.len() <= LONGEST {
        script.extend(&read);
    }
    Case::bare("the largest sheet", script)
}

//! Counts releases by their sort, and the calls on which they bear: retrieves, protects,
//! reports and heap reads. What each should answer is told from what is held; no box is
//! asked here.

use std::fmt;

use second::{read, Call, ROWS, VALUES_SIZE};

use crate::held::{Escrowed, Held, Traced};
use crate::level_one::full_code;
use crate::lines::lines;

/// The sorts. A call may be of several.
const SORTS: [&str; 18] = [
    "releases accepted, values behind and none before",
    "releases accepted, values behind and before",
    "releases accepted, no values behind",
    "releases accepted, of no bytes",
    "releases accepted, behind a spent row",
    "releases refused 4",
    "releases refused 9",
    "releases refused 10, no such handle",
    "releases refused 10, the row is spent",
    "releases refused 10, by the source",
    "releases refused 10, by another",
    "releases refused 10, of another source",
    "retrieves refused 10, the row is spent",
    "retrieves accepted, behind bytes that were freed",
    "protects accepted, in bytes that were freed",
    "protects refused 14 by rows, spent ones among them",
    "protects refused 14 by bytes, beside spent rows",
    "reports of spent rows",
];

/// How many there were of each sort.
#[derive(Default)]
pub struct Releases {
    sorts: [u64; SORTS.len()],
}

impl Releases {
    /// One answer of the full box to a record of any kind, on a sound box that holds
    /// this. Gives whether the code and the number of a release, a retrieve or a
    /// report, and the code of a protect, follow from what is held.
    pub fn add(&mut self, traced: &Traced, record: &[u8], code: u8, number: u64) -> bool {
        // The reader's refusals, and those before a record is read.
        if matches!(code, 1..=3 | 15 | 16) {
            return true;
        }
        let call = match read(record) {
            Ok((call, _)) => call,
            Err(_) => return false,
        };
        let (of_sort, wanted) = match call {
            Call::Release { identity, handle } => {
                (release(traced, identity, handle.0, code), Some(0))
            }
            Call::Retrieve { identity, handle, .. } => {
                let row = traced.held.unspent(handle.0, identity, traced.runner());
                let length = row.map_or(0, |row| row.value.len() as u64);
                (retrieve(traced, identity, handle.0, code), Some(length))
            }
            Call::Protect { length, .. } => (protect(&traced.held, length, code), None),
            Call::Report => (report(&traced.held), Some(reported(traced))),
            _ => return true,
        };
        for (count, of_sort) in self.sorts.iter_mut().zip(of_sort) {
            *count += u64::from(of_sort);
        }
        let wanted_code = full_code(traced, &call).unwrap_or(0);
        let wanted = if wanted_code == 0 { wanted } else { Some(0) };
        code == wanted_code && wanted.map_or(true, |wanted| wanted == number)
    }

    /// Those of a script. What is held is read off the sheet alone. Gives whether each
    /// answer follows from it, and what each heap read shows too.
    pub fn count(&mut self, script: &[u8], sheet: &[u8]) -> bool {
        let mut traced = Traced::fresh();
        let mut right = true;
        for line in lines(script, sheet) {
            right &= self.add(&traced, line.script, line.code as u8, line.number);
            if let Some(record) = line.record().filter(|_| line.code == 0) {
                right &= shows_its_heap(&traced, record, line.shown);
                traced.accept(record, line.number);
            }
        }
        right
    }

    /// Each sort came more often than this.
    pub fn each_above(&self, least: u64) -> bool {
        self.sorts.iter().all(|&count| count > least)
    }
}

impl fmt::Display for Releases {
    fn fmt(&self, out: &mut fmt::Formatter) -> fmt::Result {
        write!(out, "releases")?;
        for (sort, count) in SORTS.iter().zip(self.sorts) {
            write!(out, "\n{count:7} {sort}")?;
        }
        Ok(())
    }
}

type Sorts = [bool; SORTS.len()];

/// These of the sorts, and no others.
fn only(sorts: &[(usize, bool)]) -> Sorts {
    let mut only = [false; SORTS.len()];
    sorts.iter().for_each(|&(sort, holds)| only[sort] = holds);
    only
}

fn release(traced: &Traced, source: u64, handle: u64, code: u8) -> Sorts {
    let (runner, rows) = (traced.runner(), &traced.held.escrowed);
    let at = rows.iter().position(|row| row.handle == handle);
    let (accepted, no_row) = (code == 0, code == 10);
    let row = at.map(|at| &rows[at]);
    let has = |rows: &[Escrowed]| rows.iter().any(|row| !row.value.is_empty());
    let (before, behind) = at.map_or((false, false), |at| (has(&rows[..at]), has(&rows[at + 1..])));
    let after_spent = at.map_or(false, |at| rows[..at].iter().any(|row| row.spent));
    let is = |holds: fn(&Escrowed, u64, u64) -> bool| {
        row.map_or(false, |row| holds(row, source, runner))
    };
    only(&[
        (0, accepted && behind && !before),
        (1, accepted && behind && before),
        (2, accepted && !behind),
        (3, accepted && is(|row, _, _| row.value.is_empty())),
        (4, accepted && after_spent),
        (5, code == 4),
        (6, code == 9),
        (7, no_row && row.is_none()),
        (8, no_row && is(|row, source, runner| fits(row, source, runner) && row.spent)),
        (9, no_row && is(|row, source, runner| row.source == source && is_source(row, runner))),
        (10, no_row && is(|row, source, runner| row.source == source && is_other(row, runner))),
        (11, no_row && is(|row, source, runner| row.source != source && row.recipient == runner)),
    ])
}

fn fits(row: &Escrowed, source: u64, recipient: u64) -> bool {
    (row.source, row.recipient) == (source, recipient)
}

/// The unspent row's source runs, and is not its recipient.
fn is_source(row: &Escrowed, runner: u64) -> bool {
    !row.spent && row.source == runner && row.recipient != runner
}

/// The unspent row is of others.
fn is_other(row: &Escrowed, runner: u64) -> bool {
    !row.spent && row.source != runner && row.recipient != runner
}

fn retrieve(traced: &Traced, source: u64, handle: u64, code: u8) -> Sorts {
    let (runner, rows) = (traced.runner(), &traced.held.escrowed);
    let at = rows.iter().position(|row| row.handle == handle);
    let spent = at.map_or(false, |at| fits(&rows[at], source, runner) && rows[at].spent);
    let freed = at.map_or(false, |at| freed(&rows[..at]) > 0 && !rows[at].value.is_empty());
    only(&[(12, code == 10 && spent), (13, code == 0 && freed)])
}

fn protect(held: &Held, length: u16, code: u8) -> Sorts {
    let rows = &held.escrowed;
    let bytes: usize = rows.iter().map(|row| usize::from(row.length())).sum();
    let freed = freed(rows) > 0;
    only(&[
        (14, code == 0 && freed && bytes + usize::from(length) > VALUES_SIZE),
        (15, code == 14 && rows.len() == ROWS && rows.iter().any(|row| row.spent)),
        (16, code == 14 && rows.len() < ROWS && freed),
    ])
}

/// How many bytes these rows had and gave back.
fn freed(rows: &[Escrowed]) -> usize {
    rows.iter().filter(|row| row.spent).map(|row| usize::from(row.length())).sum()
}

fn report(held: &Held) -> Sorts {
    only(&[(17, held.escrowed.iter().any(|row| row.spent))])
}

/// What a report tells: spent rows are counted.
fn reported(traced: &Traced) -> u64 {
    let services = traced.places.iter().filter(|&&identity| identity != 0).count();
    let Held { logged, escrowed } = &traced.held;
    (services + 256 * logged.len() + 65_536 * escrowed.len()) as u64
}

/// A heap read shows the part that it should.
fn shows_its_heap(traced: &Traced, record: &[u8], shown: &[u8]) -> bool {
    let part = match read(record) {
        Ok((Call::HeapRead { offset, length, .. }, _)) => traced.value(offset, length),
        _ => return true,
    };
    let mut hex: String = part.iter().map(|byte| format!("{byte:02x}")).collect();
    if part.is_empty() {
        hex.push('-');
    }
    hex.as_bytes() == shown
}

#[cfg(test)]
mod tests {
    use super::*;
    use crate::calls::{create, hand_over, heap_read, protect, record_of, release, retrieve};
    use crate::play::play;
    use second::sheet;

    /// Two values, the first of which is released, and what is asked then. Other
    /// answers are seen to be wrong.
    #[test]
    fn answers_follow_from_the_lines_before() {
        let handle = |draw: u64| (1 << 48) + draw;
        let calls = [create(0, 1), hand_over(0), protect(1, 0, 1, 7), protect(1, 0, 1, 8)];
        let more = [release(1, handle(7)), retrieve(1, 5, handle(8)), heap_read(0, 5, 1)];
        let last = [retrieve(1, 0, handle(7)), release(1, handle(7)), Call::Report];
        let calls = calls.iter().chain(&more).chain(&last);
        let script: Vec<u8> = calls.flat_map(record_of).collect();
        let handles = format!("0 {} 22 -\n0 {} 22 -\n", handle(7), handle(8));
        let front = format!("header\n0 0 11 -\n0 0 3 -\n{handles}");
        let right = ["0 0 18 -", "0 1 20 -", "0 1 7 00", "10 0 20 -", "10 0 18 -", "0 131073 2 -"];
        let follow = |lines: &[&str]| {
            let mut releases = Releases::default();
            let sheet = format!("{front}{}\n", lines.join("\n"));
            let follows = releases.count(&script, sheet.as_bytes());
            (releases, follows)
        };
        let (releases, follows) = follow(&right);
        assert!(follows);
        assert_eq!(releases.sorts, [1, 0, 0, 0, 0, 0, 0, 0, 1, 0, 0, 0, 1, 1, 0, 0, 0, 1]);
        let wrong = [
            (0, "10 0 18 -"),
            (0, "0 1 18 -"),
            (1, "10 0 20 -"),
            (1, "0 0 20 -"),
            (2, "0 1 7 01"),
            (3, "0 0 20 -"),
            (3, "0 1 20 -"),
            (4, "0 0 18 -"),
            (5, "0 65537 2 -"),
        ];
        for (line, otherwise) in wrong {
            let mut lines = right;
            lines[line] = otherwise;
            assert!(!follow(&lines).1, "{otherwise}");
        }
    }

    /// Every sort comes in generated scripts, and each answer is the one that follows
    /// from what the sheet tells.
    #[test]
    fn generated_scripts_have_each_sort() {
        let mut releases = Releases::default();
        for seed in 0..400 {
            let script = play(seed).script;
            assert!(releases.count(&script, &sheet(&script)), "seed {seed}");
        }
        println!("{releases}");
        assert!(releases.each_above(5), "{releases}");
    }
}

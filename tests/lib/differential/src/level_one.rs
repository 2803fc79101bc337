//! Counts a level-one paper's calls by their sort: what the full box gives to
//! them on the same box, and what comes instead. No box is asked here: both
//! follow from what the box holds.

use std::fmt;

use second::{read, Call, DRAW_LIMIT, HEAP_SIZE, NONE_RUNS, PLACES, ROWS, VALUES_SIZE};

use crate::cases::first_fault;
use crate::held::Traced;
use crate::lines::lines;

/// A sort of call.
#[derive(Clone, Copy, Debug, PartialEq, Eq)]
struct Sort {
    kind: u8,
    /// The full box's code.
    full: u8,
    /// Level one's.
    code: u8,
    /// A hand over is to the running place; an attest is of a pair that is logged.
    again: bool,
}

const fn sort(kind: u8, full: u8, code: u8) -> Sort {
    Sort { kind, full, code, again: false }
}

const fn again(kind: u8, full: u8, code: u8) -> Sort {
    Sort { kind, full, code, again: true }
}

/// The sorts that every paper can reach, one that begins with a fresh box too.
#[rustfmt::skip]
const OF_PAPERS: [Sort; 34] = [
    sort(11, 0, 21), sort(11, 4, 21), sort(11, 9, 21), sort(11, 11, 21), sort(11, 12, 21),
    sort(12, 4, 21), sort(12, 9, 21), sort(12, 10, 21),
    sort(15, 0, 21), sort(15, 4, 21), sort(15, 9, 21), sort(15, 18, 21), sort(15, 19, 21),
    sort(16, 4, 21), sort(16, 9, 21), sort(16, 10, 21),
    sort(1, 0, 22), sort(1, 9, 22), sort(14, 7, 22), sort(9, 0, 23), sort(9, 13, 23),
    // Their neighbours.
    sort(1, 0, 0), sort(1, 6, 6), sort(1, 7, 7), sort(1, 9, 9),
    sort(14, 0, 0), again(14, 0, 0), sort(14, 6, 6), sort(14, 7, 7),
    sort(9, 4, 4), sort(9, 11, 11), sort(9, 0, 0), again(9, 0, 0), sort(9, 13, 13),
];

/// Those of hand-made boxes: escrowed values, taken places above 3, of which one
/// runs, and two values of one identity.
#[rustfmt::skip]
const OF_HAND_MADE: [Sort; 9] = [
    sort(11, 14, 21), sort(12, 0, 21), sort(12, 11, 21), sort(15, 20, 21),
    sort(16, 0, 21),
    sort(1, 7, 22), sort(14, 0, 22), again(14, 0, 22), again(9, 0, 23),
];

fn sorts() -> impl Iterator<Item = Sort> {
    OF_PAPERS.into_iter().chain(OF_HAND_MADE)
}

const COUNT: usize = OF_PAPERS.len() + OF_HAND_MADE.len();

/// How many there were of each sort.
pub struct LevelOne {
    counts: [u64; COUNT],
}

impl Default for LevelOne {
    fn default() -> Self {
        LevelOne { counts: [0; COUNT] }
    }
}

impl LevelOne {
    /// One answer to a record of any kind, on a sound box that holds this. Gives
    /// whether it follows from what is held, and so the full box's code where that
    /// is told.
    pub fn add(&mut self, traced: &Traced, record: &[u8], full: Option<u8>, code: u8) -> bool {
        let call = match read(record) {
            Ok((call, _)) => call,
            Err(refusal) => return code == refusal.code(),
        };
        match sort_of(traced, &call) {
            Some(wanted) => {
                let at = sorts().position(|sort| sort == wanted);
                self.counts[at.expect("no call is of another sort")] += 1;
                code == wanted.code && full.map_or(true, |full| full == wanted.full)
            }
            None => !matches!(code, 21..=23) && full.map_or(true, |full| full == code),
        }
    }

    /// Those of a script and its level-one sheet. What is held is read off the
    /// sheet alone. Gives whether each answer follows from it.
    pub fn count(&mut self, script: &[u8], sheet: &[u8]) -> bool {
        let mut traced = Traced::fresh();
        let mut right = true;
        for line in lines(script, sheet).filter(|line| line.code != 16) {
            let code = line.code as u8;
            right &= self.add(&traced, line.script, None, code);
            if let Some(record) = line.record().filter(|_| code == 0) {
                traced.accept(record, line.number);
            }
        }
        right
    }

    /// Each sort came more often than this, those of hand-made boxes too.
    pub fn each_above(&self, least: u64) -> bool {
        self.counts.iter().all(|&count| count > least)
    }

    /// Each sort that a paper reaches came more often than this.
    pub fn papers_above(&self, least: u64) -> bool {
        self.counts[..OF_PAPERS.len()].iter().all(|&count| count > least)
    }
}

impl fmt::Display for LevelOne {
    fn fmt(&self, out: &mut fmt::Formatter) -> fmt::Result {
        write!(out, "level one: kind, the full box's code, level one's")?;
        for (count, Sort { kind, full, code, again }) in self.counts.iter().zip(sorts()) {
            let again = match (again, kind) {
                (false, _) => "",
                (true, 9) => " the pair is logged",
                (true, _) => " to the running place",
            };
            write!(out, "\n{count:7} {kind:3} {full:3} {code:3}{again}")?;
        }
        Ok(())
    }
}

/// The sort, where level one has something to say to the kind.
fn sort_of(traced: &Traced, call: &Call) -> Option<Sort> {
    let full = full_code(traced, call)?;
    let (mut other, mut again) = (false, false);
    let code = match *call {
        Call::Protect { .. }
        | Call::Retrieve { .. }
        | Call::Chain { .. }
        | Call::Release { .. } => 21,
        Call::Create { place, .. } if full != 6 && place > 3 => 22,
        Call::HandOver { place } => {
            again = full == 0 && place != NONE_RUNS && place == traced.running;
            if full != 6 && place > 3 && place != NONE_RUNS {
                22
            } else {
                full
            }
        }
        Call::Attest { offset, length } if full != 4 && full != 11 => {
            let value = traced.value(offset, length);
            let own = traced.held.logged.iter().filter(|row| row.identity == traced.runner());
            own.for_each(|row| match row.value == value {
                true => again = true,
                false => other = true,
            });
            if other {
                23
            } else {
                full
            }
        }
        _ => full,
    };
    Some(Sort { kind: call.parts().0.number(), full, code, again })
}

/// The full box's code to a call of the kinds that level one has something to say
/// to.
pub(crate) fn full_code(traced: &Traced, call: &Call) -> Option<u8> {
    let (runner, held) = (traced.runner(), &traced.held);
    let beyond = |offset, length| usize::from(offset) + length > HEAP_SIZE;
    let taken = |place| traced.places.get(usize::from(place)).map_or(false, |&holder| holder != 0);
    let no_place = |place| usize::from(place) >= PLACES;
    let code = match *call {
        Call::Create { place, identity } => {
            first_fault(&[(6, no_place(place)), (7, taken(place)), (9, identity == 0)])
        }
        Call::HandOver { place: NONE_RUNS } => 0,
        Call::HandOver { place } => first_fault(&[(6, no_place(place)), (7, !taken(place))]),
        Call::Attest { offset, length } => {
            let early = first_fault(&[(4, runner == 0), (11, beyond(offset, length.into()))]);
            if early == 0 {
                full_attest(traced, &traced.value(offset, length))
            } else {
                early
            }
        }
        Call::Protect { identity, offset, length, draw } => first_fault(&[
            (4, runner == 0),
            (9, identity == 0),
            (11, beyond(offset, length.into())),
            (12, draw.0 >= DRAW_LIMIT),
            (14, escrow_full(traced, length.into())),
        ]),
        Call::Retrieve { identity, offset, handle } => {
            let row = held.unspent(handle.0, identity, runner);
            let beyond = row.map_or(false, |row| beyond(offset, row.value.len()));
            first_fault(&[(4, runner == 0), (9, identity == 0), (10, row.is_none()), (11, beyond)])
        }
        Call::Chain { first, bytes } => held.follow(runner, first, bytes).code(),
        Call::Release { identity, handle } => {
            let no_row = held.unspent(handle.0, identity, runner).is_none();
            first_fault(&[(4, runner == 0), (9, identity == 0), (10, no_row)])
        }
        _ => return None,
    };
    Some(code)
}

/// Whether there is no row, spent ones counted as used, or no room for so many bytes.
fn escrow_full(traced: &Traced, length: usize) -> bool {
    let rows = &traced.held.escrowed;
    let bytes: usize = rows.iter().map(|row| row.value.len()).sum();
    rows.len() == ROWS || bytes + length > VALUES_SIZE
}

/// 13, or 0 where the pair is logged or there is room.
fn full_attest(traced: &Traced, value: &[u8]) -> u8 {
    let rows = &traced.held.logged;
    let logged = rows.iter().any(|row| row.identity == traced.runner() && row.value == value);
    let bytes: usize = rows.iter().map(|row| row.value.len()).sum();
    let full = rows.len() == ROWS || bytes + value.len() > VALUES_SIZE;
    first_fault(&[(13, full && !logged)])
}

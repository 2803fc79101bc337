//! The cases' handles follow from what is held, and the cases tell the rule from
//! others that are close to it.

use differential::draws::{after, next};
use differential::{cases, lines, Draws, Traced};
use second::{read, sheet, Call};

/// The cases have protects of each sort, one of which passes over 63 draws. Each
/// handle follows from what the records before it and their lines tell, in the sheets
/// of `second` and in those written by hand.
#[test]
fn protects_of_each_sort() {
    let (mut draws, mut by_hand) = (Draws::default(), Draws::default());
    for case in cases::all() {
        assert!(draws.count(&case.script, &sheet(&case.script)), "{}", case.name);
        if let Some(written) = &case.sheet {
            assert!(by_hand.count(&case.script, written.as_bytes()), "{}", case.name);
        }
    }
    println!("{draws}\nby hand, {by_hand}");
    assert!(draws.each_above(20) && by_hand.each_above(10), "{draws}\n{by_hand}");
    assert_eq!((draws.most(), by_hand.most()), (63, 63));
}

/// A row of the escrow.
#[derive(Clone, Copy)]
struct Row {
    source: u64,
    recipient: u64,
    handle: u64,
    spent: bool,
}

/// An accepted protect: the rows before it, what it asks for, and the handle.
struct Protect {
    rows: Vec<Row>,
    source: u64,
    recipient: u64,
    length: u16,
    draw: u64,
    handle: u64,
}

impl Protect {
    fn handle_of(&self, draw: u64) -> u64 {
        (u64::from(self.length) << 48) + draw
    }

    /// Whether a row has the handle of the draw so many after the first.
    fn in_use(&self, many: usize) -> bool {
        let handle = self.handle_of(after(self.draw, many));
        self.rows.iter().any(|row| row.handle == handle)
    }

    /// The handle of the draw so many after the first.
    fn candidate(&self, many: usize) -> Option<u64> {
        Some(self.handle_of(after(self.draw, many)))
    }

    /// The first candidate of which none of these rows says that it is in use, if
    /// there is one among 65.
    fn first_free(
        &self,
        draw: u64,
        next: impl Fn(u64) -> u64,
        rows: impl Fn(&Row) -> bool,
    ) -> Option<u64> {
        let candidates = std::iter::successors(Some(draw), |&draw| Some(next(draw))).take(65);
        let free = |&handle: &u64| !self.rows.iter().any(|row| rows(row) && row.handle == handle);
        candidates.map(|draw| self.handle_of(draw)).find(free)
    }
}

/// Those in the sheets written by hand.
fn protects() -> Vec<Protect> {
    let mut protects = Vec::new();
    for case in cases::all() {
        let mut traced = Traced::fresh();
        let written = case.sheet.unwrap_or_default();
        for line in lines(&case.script, written.as_bytes()).filter(|line| line.code == 0) {
            let record = line.record().expect("an accepted record was read");
            if let Ok((Call::Protect { identity, length, draw, .. }, _)) = read(record) {
                let rows = traced.held.escrowed.iter().map(|row| Row {
                    source: row.source,
                    recipient: row.recipient,
                    handle: row.handle,
                    spent: row.spent,
                });
                protects.push(Protect {
                    rows: rows.collect(),
                    source: traced.runner(),
                    recipient: identity,
                    length,
                    draw: draw.0,
                    handle: line.number,
                });
            }
            traced.accept(record, line.number);
        }
    }
    protects
}

const MULTIPLIER: u64 = 25_214_903_917;

/// The draw after another, by some multiplier, increment and power of 2.
fn congruence(multiplier: u64, increment: u64, bits: u32) -> impl Fn(u64) -> u64 {
    let product = move |draw| u128::from(multiplier) * u128::from(draw);
    move |draw| ((product(draw) + u128::from(increment)) % (1 << bits)) as u64
}

/// Every handle is the rule's, and some handle is not that of each wrong rule for the
/// next draw.
#[test]
fn other_sequences_are_told_apart() {
    let protects = protects();
    let agrees = |next: &dyn Fn(u64) -> u64| {
        let found = |protect: &Protect| protect.first_free(protect.draw, next, |_| true);
        protects.iter().all(|protect| found(protect) == Some(protect.handle))
    };
    assert!(agrees(&next) && agrees(&congruence(MULTIPLIER, 11, 48)));
    let mut wrong = vec![(1, 1, 48), (MULTIPLIER, 0, 48), (MULTIPLIER, 12, 48)];
    wrong.extend([24, 31, 32, 46, 47, 49, 63].map(|bits| (MULTIPLIER, 11, bits)));
    wrong.extend([-2, -1, 1, 2].map(|off| (MULTIPLIER.wrapping_add(off as u64), 11, 48)));
    wrong.extend((0..48).map(|bit| (MULTIPLIER ^ (1 << bit), 11, 48)));
    wrong.extend((0..48).map(|bit| (MULTIPLIER, 11 ^ (1 << bit), 48)));
    for (multiplier, increment, bits) in wrong {
        let next = congruence(multiplier, increment, bits);
        assert!(!agrees(&next), "{multiplier} {increment} {bits}");
    }
    for bit in 0..48 {
        assert!(!agrees(&|draw| next(draw & !(1 << bit))), "bit {bit} is lost");
        assert!(!agrees(&|draw| next(draw % (1 << bit))), "from bit {bit} on all are lost");
        assert!(!agrees(&|draw| next(draw) & !(1 << bit)), "bit {bit} of the next is lost");
    }
    let product = congruence(MULTIPLIER, 0, 48);
    assert!(!agrees(&|draw| product(draw) + 11), "the increment behind the remainder");
    assert!(!agrees(&|draw| product((draw + 11) % (1 << 48))), "the increment first");
    assert!(!agrees(&|draw| after(draw, 2)), "every second draw");
}

/// A search for a handle.
type Search = fn(&Protect) -> Option<u64>;

/// Wrong ones.
const SEARCHES: [(&str, Search); 10] = [
    ("none", |protect| protect.candidate(0)),
    ("from the next draw on", |protect| protect.first_free(next(protect.draw), next, |_| true)),
    ("of draws, whatever the length", |protect| {
        let in_use = |draw| protect.rows.iter().any(|row| row.handle % (1 << 48) == draw);
        let free = (0..65).find(|&many| !in_use(after(protect.draw, many)));
        free.and_then(|many| protect.candidate(many))
    }),
    ("in the recipient's rows", |protect| {
        protect.first_free(protect.draw, next, |row| row.recipient == protect.recipient)
    }),
    ("in the source's rows", |protect| {
        protect.first_free(protect.draw, next, |row| row.source == protect.source)
    }),
    ("in the rows that aren't spent", |protect| {
        protect.first_free(protect.draw, next, |row| !row.spent)
    }),
    ("of one step", |protect| protect.candidate(usize::from(protect.in_use(0)))),
    ("of as many steps as there are rows", |protect| protect.candidate(protect.rows.len())),
    ("of as many steps as candidates are in use", |protect| {
        protect.candidate((0..64).filter(|&many| protect.in_use(many)).count())
    }),
    ("for the last in use", |protect| {
        let last = (0..64).rfind(|&many| protect.in_use(many));
        protect.candidate(last.map_or(0, |last| last + 1))
    }),
];

/// Some handle is not that of each wrong search, and one is behind 63 in use.
#[test]
fn other_searches_are_told_apart() {
    let protects = protects();
    for (name, search) in SEARCHES {
        let told_apart = protects.iter().any(|protect| search(protect) != Some(protect.handle));
        assert!(told_apart, "a search {name}");
    }
    let behind_63 = |protect: &Protect| protect.candidate(63) == Some(protect.handle);
    assert!(protects.iter().any(behind_63));
}

//! The draws that follow one another, computed apart from both boxes, and protects
//! counted by how their handle was found.

use std::fmt;

use second::{read, Call};

use crate::held::{Escrowed, Held, Traced};
use crate::lines::lines;
use crate::random::Random;

/// A draw is below this.
const LIMIT: u64 = 1 << 48;

/// The draw after this one, as POSIX's drand48 has it.
pub fn next(draw: u64) -> u64 {
    ((25_214_903_917 * u128::from(draw) + 11) % (1 << 48)) as u64
}

/// The draw before this one, after which it comes.
pub fn before(draw: u64) -> u64 {
    // Times 25,214,903,917 it is 1, modulo 2^48.
    let inverse = 246_154_705_703_781;
    (inverse * u128::from(draw + LIMIT - 11) % (1 << 48)) as u64
}

/// The draw so many after this one.
pub fn after(draw: u64, many: usize) -> u64 {
    (0..many).fold(draw, |draw, _| next(draw))
}

/// The draw itself, one after it or before it, a number beside it, or one that
/// differs in a bit.
pub(crate) fn near(random: &mut Random, draw: u64) -> u64 {
    match random.below(8) {
        0 | 1 => draw,
        2..=4 => after(draw, 1 + random.index(3)),
        5 => before(draw),
        6 => (draw + 1) % LIMIT,
        _ => draw ^ (1 << random.below(48)),
    }
}

/// A draw near that of a row, most often of one of this length where there is one.
pub(crate) fn near_a_row(random: &mut Random, rows: &[Escrowed], length: u16) -> Option<u64> {
    let of_length = |row: &&Escrowed| row.length() == length;
    let mut near_to: Vec<&Escrowed> = rows.iter().filter(of_length).collect();
    if near_to.is_empty() || random.once_in(8) {
        near_to = rows.iter().collect();
    }
    if near_to.is_empty() {
        return None;
    }
    let row = random.pick(&near_to);
    Some(near(random, row.handle % LIMIT))
}

/// How a handle was found. One may be of several sorts.
const SORTS: [&str; 9] = [
    "given their draw",
    "given their draw, in use under another length",
    "given their draw, which comes after one in use",
    "one draw passed over",
    "2 to 8 draws passed over",
    "more draws passed over",
    "passed over from a draw that comes after one in use",
    "passed over, draw + 1 in use too",
    "passed over a draw of a spent row",
];

/// How many accepted protects there were of each sort.
#[derive(Default)]
pub struct Draws {
    sorts: [u64; SORTS.len()],
    /// The most draws that one of them passed over.
    most: usize,
}

impl Draws {
    /// One answer to a record of any kind, on a box that holds this. Gives whether an
    /// accepted protect's handle is the one that follows from what is held.
    pub fn add(&mut self, held: &Held, record: &[u8], code: u8, number: u64) -> bool {
        let (length, draw) = match read(record) {
            Ok((Call::Protect { length, draw, .. }, _)) if code == 0 => (length, draw.0),
            _ => return true,
        };
        let handle = |draw| (u64::from(length) << 48) + draw;
        let in_use = |draw| held.escrowed.iter().any(|row| row.handle == handle(draw));
        let spent = |draw| held.escrowed.iter().any(|row| row.spent && row.handle == handle(draw));
        let other_length = held.escrowed.iter().any(|row| row.handle % LIMIT == draw);
        let entered = in_use(before(draw));
        let passed = (0..=64).find(|&many| !in_use(after(draw, many)));
        let passed = passed.expect("64 rows hold at most 64 candidates");
        let sorts = [
            passed == 0,
            passed == 0 && other_length,
            passed == 0 && entered,
            passed == 1,
            (2..=8).contains(&passed),
            passed > 8,
            passed > 0 && entered,
            passed > 0 && in_use((draw + 1) % LIMIT),
            (0..passed).any(|many| spent(after(draw, many))),
        ];
        for (count, of_sort) in self.sorts.iter_mut().zip(sorts) {
            *count += u64::from(of_sort);
        }
        self.most = self.most.max(passed);
        number == handle(after(draw, passed))
    }

    /// Those of a script. What is held is read off the sheet alone. Gives whether
    /// each handle is the one that follows from it.
    pub fn count(&mut self, script: &[u8], sheet: &[u8]) -> bool {
        let mut traced = Traced::fresh();
        let mut right = true;
        for line in lines(script, sheet) {
            right &= self.add(&traced.held, line.script, line.code as u8, line.number);
            if let Some(record) = line.record().filter(|_| line.code == 0) {
                traced.accept(record, line.number);
            }
        }
        right
    }

    /// Each sort came more often than this.
    pub fn each_above(&self, least: u64) -> bool {
        self.sorts.iter().all(|&count| count > least)
    }

    /// The most draws that a protect passed over.
    pub fn most(&self) -> usize {
        self.most
    }
}

impl fmt::Display for Draws {
    fn fmt(&self, out: &mut fmt::Formatter) -> fmt::Result {
        write!(out, "accepted protects")?;
        for (sort, count) in SORTS.iter().zip(self.sorts) {
            write!(out, "\n{count:7} {sort}")?;
        }
        write!(out, "\nthe most draws passed over: {}", self.most)
    }
}

#[cfg(test)]
mod tests {
    use super::*;
    use crate::calls::{create, hand_over, protect, record_of};
    use crate::play::play;
    use second::sheet;

    /// srand48(0) begins at 0x330E. lrand48 gives the upper 31 of a draw's 48 bits,
    /// and these three after it.
    #[test]
    fn draws_follow_posix() {
        let upper = [1, 2, 3].map(|many| after(0x330E, many) >> 17);
        assert_eq!(upper, [366_850_414, 1_610_402_240, 206_956_554]);
        let after = [(0, 11), (7, 176_504_327_430), (LIMIT - 1, 281_449_761_806_750)];
        assert!(after.into_iter().all(|(draw, wanted)| next(draw) == wanted));
    }

    #[test]
    fn before_is_the_inverse() {
        for draw in (0..48).flat_map(|bit| [0, 1 << bit, (1 << bit) - 1, LIMIT - (1 << bit)]) {
            assert_eq!((next(before(draw)), before(next(draw))), (draw, draw));
            assert!(before(draw) < LIMIT);
        }
    }

    /// A sheet of five protects, the last of which has a given number.
    fn last_is(number: u64) -> (Draws, bool) {
        let calls = [create(0, 1), hand_over(0), protect(1, 0, 1, 7), protect(1, 0, 1, 7)];
        let more = [protect(1, 0, 2, 7), protect(1, 0, 1, after(7, 2)), protect(1, 0, 1, next(7))];
        let script: Vec<u8> = calls.iter().chain(&more).flat_map(record_of).collect();
        let mut sheet = "header\n0 0 11 -\n0 0 3 -\n".to_string();
        for (length, many) in [(1, 0), (1, 1), (2, 0), (1, 2)] {
            sheet += &format!("0 {} 22 -\n", (length << 48) + after(7, many));
        }
        sheet += &format!("0 {number} 22 -\n");
        let mut draws = Draws::default();
        let right = draws.count(&script, sheet.as_bytes());
        (draws, right)
    }

    #[test]
    fn handles_follow_from_the_lines_before() {
        for (many, right) in [(0, false), (1, false), (2, false), (3, true), (4, false)] {
            let (draws, follows) = last_is((1 << 48) + after(7, many));
            assert_eq!(follows, right, "{many}");
            assert_eq!(draws.sorts, [3, 1, 1, 1, 1, 0, 1, 0, 0]);
            assert_eq!(draws.most(), 2);
        }
        assert!(!last_is(after(7, 3)).1 && !last_is((2 << 48) + after(7, 3)).1);
    }

    /// Every sort comes in generated scripts, and each handle is the one that follows
    /// from what the sheet tells.
    #[test]
    fn generated_scripts_have_each_sort() {
        let mut draws = Draws::default();
        for seed in 0..400 {
            let script = play(seed).script;
            assert!(draws.count(&script, &sheet(&script)), "seed {seed}");
        }
        println!("{draws}");
        assert!(draws.each_above(50) && draws.most() > 50, "{draws}");
    }
}

//! Counts chain calls by their sort: how they end, and at which link.

use std::fmt;

use second::{read, Call};

use crate::held::{Held, Led, Sort, Traced};
use crate::lines::lines;

/// The sorts, and whether each is counted at the first link and at later ones.
/// Of accepted chains the first count is those of one link.
const SORTS: [(Sort, [bool; 2], &str); 14] = [
    (Sort::Accepted, [true, true], "accepted"),
    (Sort::NoneRuns, [true, false], "refused 4"),
    (Sort::TooLong, [false, true], "refused 20"),
    (Sort::Way, [true, false], "refused 19 by the way"),
    (Sort::CutCount, [true, true], "refused 19 by a cut count"),
    (Sort::CutContents, [true, true], "refused 19 by cut contents"),
    (Sort::ZeroLogged, [true, true], "refused 9 in a logged link"),
    (Sort::ZeroEscrowed, [true, true], "refused 9 in an escrowed link"),
    (Sort::UnknownLogged, [true, true], "refused 18 by a check"),
    (Sort::UnknownEscrowed, [true, true], "refused 18 by no row"),
    (Sort::SpentEscrowed, [true, true], "refused 18 by a spent row"),
    (Sort::HeadLogged, [true, true], "refused 19 by the head of a logged link"),
    (Sort::HeadEscrowed, [true, true], "refused 19 by the head of an escrowed link"),
    (Sort::LeftOver, [true, true], "refused 19 by bytes left over"),
];

/// How many there were of each sort, at the first link and later.
#[derive(Default)]
pub struct Chains {
    sorts: [[u64; 2]; SORTS.len()],
    /// Accepted ones with links of both ways, and of sixteen links.
    both_ways: u64,
    sixteen: u64,
}

impl Chains {
    /// One answer to a record of any kind, on a box that holds this, where
    /// `runner` or none (0) runs. Gives whether the answer to a chain is the one
    /// that follows from what is held.
    pub fn add(&mut self, held: &Held, runner: u64, record: &[u8], code: u8, number: u64) -> bool {
        // The reader's refusals, and those before a record is read.
        if matches!(code, 1..=3 | 15 | 16) {
            return true;
        }
        let (first, bytes) = match read(record) {
            Ok((Call::Chain { first, bytes }, _)) => (first, bytes),
            _ => return true,
        };
        let led = held.follow(runner, first, bytes);
        self.count_one(&led);
        (code, number) == (led.code(), led.number())
    }

    fn count_one(&mut self, led: &Led) {
        // The link at which it ends, counted from 0.
        let at = match led.sort {
            Sort::Accepted | Sort::LeftOver => led.links - 1,
            _ => led.links,
        };
        for (count, (sort, ..)) in self.sorts.iter_mut().zip(SORTS) {
            count[usize::from(at > 0)] += u64::from(sort == led.sort);
        }
        let accepted = led.sort == Sort::Accepted;
        self.both_ways += u64::from(accepted && led.ways == [true; 2]);
        self.sixteen += u64::from(accepted && led.links == 16);
    }

    /// Those of a script. What is held is read off the sheet alone. Gives whether
    /// each answer is the one that follows from it.
    pub fn count(&mut self, script: &[u8], sheet: &[u8]) -> bool {
        let mut traced = Traced::fresh();
        let mut right = true;
        for line in lines(script, sheet) {
            let (runner, code) = (traced.runner(), line.code as u8);
            right &= self.add(&traced.held, runner, line.script, code, line.number);
            if let Some(record) = line.record().filter(|_| code == 0) {
                traced.accept(record, line.number);
            }
        }
        right
    }

    /// Each sort came more often than this.
    pub fn each_above(&self, least: u64) -> bool {
        let sorts = self.sorts.iter().zip(SORTS).all(|(counts, (_, counted, _))| {
            counts.iter().zip(counted).all(|(&count, counted)| !counted || count > least)
        });
        sorts && self.both_ways > least && self.sixteen > least
    }
}

impl fmt::Display for Chains {
    fn fmt(&self, out: &mut fmt::Formatter) -> fmt::Result {
        write!(out, "chains, at the first link and later")?;
        for ([first, later], (.., name)) in self.sorts.iter().zip(SORTS) {
            write!(out, "\n{first:7} {later:7} {name}")?;
        }
        let Chains { both_ways, sixteen, .. } = self;
        write!(out, "\naccepted with both ways: {both_ways}, of sixteen links: {sixteen}")
    }
}

#[cfg(test)]
mod tests {
    use super::*;
    use crate::calls::{attest, chain, create, hand_over, heap_write, record_of};
    use crate::play::play;
    use second::{sheet, tag_of};

    /// An end that is logged and then followed; another answer is seen to be wrong.
    #[test]
    fn answers_follow_from_the_lines_before() {
        let tag = tag_of(1, &[1]).0;
        let followed = chain(2, 1, tag, &[1, 0, 1]);
        let calls = [create(0, 1), hand_over(0), followed, heap_write(0, 0, &[1]), attest(0, 1)];
        let calls = calls.iter().chain([&followed]);
        let script: Vec<u8> = calls.flat_map(record_of).collect();
        let lines = "0 0 11 -\n0 0 3 -\n18 0 24 -\n0 1 8 -\n";
        let sheet = |last: &str| format!("header\n{lines}0 {tag} 6 -\n{last} 24 -\n");
        for (last, right) in [("0 1", true), ("0 2", false), ("18 0", false), ("19 0", false)] {
            let mut chains = Chains::default();
            assert_eq!(chains.count(&script, sheet(last).as_bytes()), right, "{last}");
            let counts = chains.sorts.iter().flatten();
            assert_eq!(counts.sum::<u64>(), 2);
        }
    }

    /// Every sort comes in generated scripts, and each answer is the one that
    /// follows from what the sheet tells.
    #[test]
    fn generated_scripts_have_each_sort() {
        let mut chains = Chains::default();
        for seed in 0..400 {
            let script = play(seed).script;
            assert!(chains.count(&script, &sheet(&script)), "seed {seed}");
        }
        println!("{chains}");
        assert!(chains.each_above(5), "{chains}");
    }
}

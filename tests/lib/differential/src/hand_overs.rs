//! Counts hand overs by their sort: to whom, while who runs, with which code.

use std::fmt;

use second::NONE_RUNS;

use crate::lines::lines;

/// The sorts.
const SORTS: [&str; 9] = [
    "to 16 while one runs",
    "to 16 while none runs",
    "to another place",
    "to the running place",
    "to a place while none runs",
    "refused 6 while one runs",
    "refused 6 while none runs",
    "refused 7 while one runs",
    "refused 7 while none runs",
];

/// How many there were of each sort.
#[derive(Default)]
pub struct HandOvers {
    sorts: [u64; SORTS.len()],
    /// Records of kinds 2 and 3, which are retired, refused with 2.
    retired: [u64; 2],
}

impl HandOvers {
    /// One call, where it is a hand over or of a retired kind. `running` is the
    /// running place before it, or 16.
    pub fn add(&mut self, running: u8, record: &[u8], code: usize) {
        match *record {
            // 15 and 16 are given before a record is read.
            [map, kind @ (2 | 3), ..] if map & 1 == 1 && code < 15 => {
                assert_eq!(code, 2, "a record of kind {kind}");
                self.retired[usize::from(kind) - 2] += 1;
            }
            [0x03, 14, place, ..] if code < 15 => self.sorts[sort(running, place, code)] += 1,
            _ => {}
        }
    }

    /// Those of a script. Who runs is read off the sheet alone. Gives how many
    /// were refused and left a service running, as its next call of its heap shows.
    pub fn count(&mut self, script: &[u8], sheet: &[u8]) -> u64 {
        let mut running = NONE_RUNS;
        let (mut refused, mut left_running) = (false, 0);
        for line in lines(script, sheet) {
            self.add(running, line.script, line.code);
            let accepted = line.record().filter(|_| line.code == 0);
            // A heap write and a heap read name the running place.
            let of_running = matches!(accepted, Some([_, 5 | 6, place, ..]) if *place == running);
            left_running += u64::from(refused && of_running);
            refused = line.record().map_or(false, |record| record[1] == 14 && line.code != 0)
                && running != NONE_RUNS;
            match accepted {
                Some([_, 4]) => running = NONE_RUNS,
                Some([_, 14, place]) => running = *place,
                _ => {}
            }
        }
        left_running
    }

    /// Each sort, and each retired kind, came more often than this.
    pub fn each_above(&self, least: u64) -> bool {
        self.sorts.iter().chain(&self.retired).all(|&count| count > least)
    }
}

/// The index of the sort. No hand over is answered with another code than 0, 6
/// and 7.
fn sort(running: u8, place: u8, code: usize) -> usize {
    let one_runs = running != NONE_RUNS;
    match (code, one_runs) {
        (0, true) if place == NONE_RUNS => 0,
        (0, false) if place == NONE_RUNS => 1,
        (0, true) if place != running => 2,
        (0, true) => 3,
        (0, false) => 4,
        (6, true) => 5,
        (6, false) => 6,
        (7, true) => 7,
        (7, false) => 8,
        _ => panic!("a hand over with code {code}"),
    }
}

impl fmt::Display for HandOvers {
    fn fmt(&self, out: &mut fmt::Formatter) -> fmt::Result {
        write!(out, "hand overs")?;
        for (sort, count) in SORTS.iter().zip(self.sorts) {
            write!(out, "\n{count:7} {sort}")?;
        }
        let [kind_2, kind_3] = self.retired;
        write!(out, "\nrefused with 2: kind 2 {kind_2}, kind 3 {kind_3}")
    }
}

#[cfg(test)]
mod tests {
    use super::*;
    use crate::calls::{create, hand_over, heap_read, record_of};
    use crate::play::play;
    use second::{sheet, Call};

    #[test]
    fn each_sort_is_told_from_the_others() {
        let mut script = Vec::new();
        // None runs; place 0 runs; 17 is refused, and 0 still runs; 1 runs; none
        // runs after an exit.
        let calls = [create(0, 1), create(1, 2), hand_over(16), hand_over(5), hand_over(17)];
        calls.iter().for_each(|call| script.extend(record_of(call)));
        let calls = [hand_over(0), hand_over(0), hand_over(17), heap_read(0, 0, 1), hand_over(5)];
        calls.iter().for_each(|call| script.extend(record_of(call)));
        let calls = [hand_over(1), hand_over(16), hand_over(1), Call::Exit, hand_over(1)];
        calls.iter().for_each(|call| script.extend(record_of(call)));
        script.extend([0x03, 2, 0]);
        let mut counted = HandOvers::default();
        assert_eq!(counted.count(&script, &sheet(&script)), 1);
        assert_eq!(counted.sorts, [1, 1, 1, 1, 2, 1, 1, 1, 2]);
        assert_eq!(counted.retired, [1, 0]);
    }

    /// Every sort comes often in generated scripts, and 5 in none of them.
    #[test]
    fn generated_scripts_have_each_sort() {
        let mut counted = HandOvers::default();
        let mut left_running = 0;
        for seed in 0..400 {
            let script = play(seed).script;
            let sheet = sheet(&script);
            assert!(lines(&script, &sheet).all(|line| line.code != 5), "seed {seed}");
            left_running += counted.count(&script, &sheet);
        }
        println!("{counted}\nrefused and followed by a call of who runs: {left_running}");
        assert!(counted.each_above(10) && left_running > 50, "{counted}");
    }
}

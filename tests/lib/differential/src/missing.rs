//! Counts cut records by how many bytes they miss.

use std::fmt;

#[derive(Default)]
pub struct Missing {
    /// How many missed 1 byte, 2, and so on to 8, which is the widest field but
    /// for contents, and how many missed more.
    sorts: [u64; 9],
    /// Refusals with 1 and number 0, or with another code and a number.
    wrong: u64,
}

impl Missing {
    /// One answer. A refusal has number 0 unless it is 1, and 1 never has it.
    pub fn add(&mut self, code: usize, number: u64) {
        match (code, number) {
            (1, 1..) => self.sorts[number.min(9) as usize - 1] += 1,
            (0, _) | (2.., 0) => {}
            _ => self.wrong += 1,
        }
    }

    /// Each came more often than this.
    pub fn each_above(&self, least: u64) -> bool {
        self.sorts.iter().all(|&count| count > least)
    }

    /// 1 was the only refusal with a number other than 0, and never had 0.
    pub fn only_with_one(&self) -> bool {
        self.wrong == 0
    }
}

impl fmt::Display for Missing {
    fn fmt(&self, out: &mut fmt::Formatter) -> fmt::Result {
        let [fields @ .., more] = &self.sorts;
        write!(out, "cut records that miss")?;
        for (missing, count) in (1..).zip(fields) {
            write!(out, " {missing}: {count},")?;
        }
        write!(out, " more: {more}")
    }
}

#[cfg(test)]
mod tests {
    use super::*;

    #[test]
    fn counts_by_number() {
        let mut missing = Missing::default();
        for number in (1..=9).chain([255, 65_535, 1]) {
            missing.add(1, number);
        }
        for (code, number) in [(0, 0), (0, 5), (2, 0), (15, 0)] {
            missing.add(code, number);
        }
        assert_eq!(missing.sorts, [2, 1, 1, 1, 1, 1, 1, 1, 3]);
        assert!(missing.each_above(0) && !missing.each_above(1));
        assert!(missing.only_with_one());
    }

    #[test]
    fn other_numbers_are_wrong() {
        for (code, number) in [(1, 0), (3, 2), (15, 1), (16, 65_535)] {
            let mut missing = Missing::default();
            missing.add(code, number);
            assert!(!missing.only_with_one(), "{code} {number}");
            assert_eq!(missing.sorts, [0; 9]);
        }
    }
}

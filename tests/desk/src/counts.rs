//! What was asked, and which answers were met.

use std::collections::BTreeMap;
use std::process::ExitCode;

use interface::{Tally, TankAnswer};

use crate::wanted::{
    CHECK_SAID_NO, COOL, HOLD, IDENTITY_ZERO, NOT_SOUND, OUT_OF_RANGE, TOO_LARGE, WARM,
};

/// All that the desk answers about a tank.
const ANSWERS: [TankAnswer; 8] =
    [HOLD, COOL, WARM, OUT_OF_RANGE, CHECK_SAID_NO, IDENTITY_ZERO, NOT_SOUND, TOO_LARGE];

/// Each of them comes more often than this, about a tank alone and within a list, and
/// so does each code of a list.
const OFTEN: u64 = 500;

#[derive(Default)]
pub struct Counts {
    tally: Tally,
    /// Calls that logged corrections, tanks asked about alone, and lists.
    box_calls: u64,
    tanks: u64,
    lists: u64,
    /// The answers, about tanks alone and within lists.
    alone: BTreeMap<[u8; 3], u64>,
    listed: BTreeMap<[u8; 3], u64>,
    list_codes: BTreeMap<u8, u64>,
}

fn numbers(answer: &TankAnswer) -> [u8; 3] {
    [answer.code, answer.action, answer.refusal]
}

impl Counts {
    /// A call of the box that both sides answered with 0, or what was wrong.
    pub fn box_call(&mut self, outcome: &Result<u64, String>, what: impl FnOnce() -> String) {
        self.box_calls += 1;
        self.check(outcome, what);
    }

    /// The answer about a tank, or what was wrong.
    pub fn tank(&mut self, outcome: &Result<TankAnswer, String>, what: impl FnOnce() -> String) {
        self.tanks += 1;
        self.check(outcome, what);
        if let Ok(answer) = outcome {
            *self.alone.entry(numbers(answer)).or_default() += 1;
        }
    }

    /// A list's code and answers, or what was wrong.
    pub fn list(
        &mut self,
        outcome: &Result<(u8, Vec<TankAnswer>), String>,
        what: impl FnOnce() -> String,
    ) {
        self.lists += 1;
        self.check(outcome, what);
        if let Ok((code, answers)) = outcome {
            *self.list_codes.entry(*code).or_default() += 1;
            for answer in answers {
                *self.listed.entry(numbers(answer)).or_default() += 1;
            }
        }
    }

    fn check<T>(&mut self, outcome: &Result<T, String>, what: impl FnOnce() -> String) {
        let message = outcome.as_ref().err();
        self.tally.check(message.is_none(), || {
            format!("{}: {}", what(), message.map_or("", |message| message))
        });
    }

    /// A fact about the test itself.
    pub fn holds(&mut self, fact: bool, what: &str) {
        self.tally.check(fact, || what.into());
    }

    pub fn part(&self, name: &str) {
        let Counts { tanks, lists, box_calls, .. } = self;
        println!("{name}: {tanks} tanks, {lists} lists, {box_calls} calls of the box so far");
    }

    /// Every answer was met often, and no other.
    pub fn summary(mut self) -> ExitCode {
        println!("code action refusal: alone, in lists");
        for answer in &ANSWERS {
            let counts = [&self.alone, &self.listed]
                .map(|met| met.get(&numbers(answer)).copied().unwrap_or(0));
            println!("{:?}: {}, {}", numbers(answer), counts[0], counts[1]);
            let often = counts.iter().all(|&count| count > OFTEN);
            self.tally.check(often, || format!("{answer:?} above {OFTEN}"));
        }
        println!("lists by code: {:?}", self.list_codes);
        let often = [0, 15, 24].iter().all(|code| self.list_codes.get(code) > Some(&OFTEN));
        self.tally.check(often, || format!("lists of each code above {OFTEN}"));
        let others = self.alone.len() + self.listed.len() - 2 * ANSWERS.len();
        let none = others == 0 && self.list_codes.len() == 3;
        self.tally.check(none, || "an answer that the desk has not".into());
        self.tally.summary()
    }
}

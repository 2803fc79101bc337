//! Compares one program's sheets with those of `second`, under one profile.

use std::ffi::OsStr;
use std::fmt::{Display, Write};

use differential::{lines, Case, Chains, Draws, LevelOne, Missing, Releases};
use second::{sheet, sheet_level_one, Profile};

use crate::program::{hex, run, same};

/// More chains of each sort than this are in the fixed cases, and in the
/// generated scripts.
pub const CHAINS: u64 = 20;

/// More protects of each sort than this are in the fixed cases, and in the generated
/// scripts. In the fixed cases one passes over as many rows as there can be.
pub const DRAWS: u64 = 100;
const MOST_PASSED_OVER: usize = 63;

/// More releases of each sort than this are in the fixed cases, and in the generated
/// scripts.
pub const RELEASES: u64 = 10;

/// More level-one calls of each sort than this are in the fixed cases.
const LEVEL_ONE: u64 = 10;

/// More cut records that miss 1 to 8 bytes, of each sort, and that miss more are
/// in the fixed cases.
const CUT: u64 = 50;

/// What some fixed cases miss, of more than 8 bytes.
const MISSED: [u64; 6] = [255, 256, 257, 300, 535, 65_535];

/// So many failures are printed in full.
const PRINTED: u64 = 10;

/// The kinds and the refusals that documents 01 and 02 give to each. The
/// reader's come before a kind is known.
const FULL: [(usize, &[usize]); 14] = [
    (1, &[6, 7, 9]),
    (4, &[4]),
    (5, &[4, 6, 8, 11]),
    (6, &[4, 6, 8, 11]),
    (7, &[11]),
    (8, &[11]),
    (9, &[4, 11, 13]),
    (10, &[9]),
    (11, &[4, 9, 11, 12, 14]),
    (12, &[4, 9, 10, 11]),
    (13, &[]),
    (14, &[6, 7]),
    (15, &[4, 9, 18, 19, 20]),
    (16, &[4, 9, 10]),
];

/// Those that document 02 gives to them in a level-one paper. What has 21 is never
/// accepted.
const LEVEL_ONES: [(usize, &[usize]); 7] = [
    (1, &[6, 7, 9, 22]),
    (9, &[4, 11, 13, 23]),
    (11, &[21]),
    (12, &[21]),
    (14, &[6, 7, 22]),
    (15, &[21]),
    (16, &[21]),
];

/// The codes are below this.
const CODES: usize = 24;

/// Codes that no sheet shows: 5 is retired, 15 and 17 are the host's. Level one's
/// own are not the full box's, and those of escrow and chains not level one's.
const NEVER_FULL: [usize; 6] = [5, 15, 17, 21, 22, 23];
const NEVER_LEVEL_ONE: [usize; 9] = [5, 10, 12, 14, 15, 17, 18, 19, 20];

/// Counts what passed and failed, and what was met on the way.
pub struct Marker<'a> {
    profile: Profile,
    program: &'a OsStr,
    pub passed: u64,
    pub failed: u64,
    /// What is to be printed once all is compared.
    pub told: String,
    /// Lines with each code.
    codes: [u64; CODES],
    /// Lines with 1, by what the record misses.
    missing: Missing,
    /// Those of `MISSED` that were met.
    missed: [bool; MISSED.len()],
    /// Lines with each code above 3, and accepted ones, for each kind byte.
    kinds: [[u64; CODES]; 17],
    /// Chains, protects and releases of full papers, and calls of level-one papers.
    chains: Chains,
    draws: Draws,
    releases: Releases,
    level_one: LevelOne,
    /// Scripts with an answer that does not follow from what the sheet tells.
    wrong: u64,
}

impl<'a> Marker<'a> {
    pub fn new(profile: Profile, program: &'a OsStr) -> Self {
        Marker {
            profile,
            program,
            passed: 0,
            failed: 0,
            told: format!("{profile:?}\n"),
            codes: [0; CODES],
            missing: Missing::default(),
            missed: [false; MISSED.len()],
            kinds: [[0; CODES]; 17],
            chains: Chains::default(),
            draws: Draws::default(),
            releases: Releases::default(),
            level_one: LevelOne::default(),
            wrong: 0,
        }
    }

    /// One special check.
    pub fn check(&mut self, what: &str, outcome: Result<(), String>) {
        match outcome {
            Ok(()) => self.passed += 1,
            Err(message) => {
                self.failed += 1;
                if self.failed <= PRINTED {
                    self.tell(format!("FAILED: {:?}: {what}: {message}", self.profile));
                }
            }
        }
    }

    /// A line, or more of them, to be printed.
    pub fn tell(&mut self, text: impl Display) {
        writeln!(self.told, "{text}").expect("a String takes all that is written");
    }

    /// A special check of a fact.
    pub fn holds(&mut self, what: &str, fact: bool, otherwise: impl Into<String>) {
        self.check(what, fact.then_some(()).ok_or(otherwise.into()));
    }

    /// One script: the program's sheet, the one of `second`, and where there is
    /// one the sheet written by hand. Gives the one of `second`.
    pub fn compare(&mut self, case: &Case) -> Vec<u8> {
        let expected = match self.profile {
            Profile::Full => sheet(&case.script),
            Profile::LevelOne => sheet_level_one(&case.script),
        };
        self.count_lines(&case.script, &expected);
        let follows = match self.profile {
            Profile::Full => {
                let handles = self.draws.count(&case.script, &expected);
                let releases = self.releases.count(&case.script, &expected);
                self.chains.count(&case.script, &expected) && handles && releases
            }
            Profile::LevelOne => self.level_one.count(&case.script, &expected),
        };
        self.wrong += u64::from(!follows);
        let by_hand = match case.by_hand(self.profile) {
            Some(by_hand) => same(by_hand.as_bytes(), &expected, "written by hand"),
            None => Ok(()),
        };
        let outcome = by_hand.and_then(|()| match run(self.program, &case.script) {
            Ok(printed) => same(&printed, &expected, "the program"),
            Err(error) => Err(format!("the program: {error}")),
        });
        let with_script = |message| format!("{message}\nscript: {}", hex(&case.script));
        self.check(&case.name, outcome.map_err(with_script));
        expected
    }

    /// Counts the lines by code, by the kind of the record where one was read, and
    /// by what is missing where one was cut.
    fn count_lines(&mut self, script: &[u8], sheet: &[u8]) {
        for line in lines(script, sheet) {
            self.codes[line.code] += 1;
            self.missing.add(line.code, line.number);
            for (missed, number) in self.missed.iter_mut().zip(MISSED) {
                *missed |= line.code == 1 && line.number == number;
            }
            if let Some(record) = line.record() {
                self.kinds[usize::from(record[1])][line.code] += 1;
            }
        }
    }

    /// Every code that a sheet can show was met, and no other.
    pub fn coverage(&mut self) {
        self.tell("refusal lines");
        for (code, lines) in self.codes.into_iter().enumerate() {
            self.tell(format!("{code:7} {lines}"));
        }
        let never: &[usize] = match self.profile {
            Profile::Full => &NEVER_FULL,
            Profile::LevelOne => &NEVER_LEVEL_ONE,
        };
        for code in 0..CODES {
            let (met, wanted) = (self.codes[code] > 0, !never.contains(&code));
            self.holds(&format!("lines with {code}"), met == wanted, format!("met: {met}"));
        }
        let right = self.missing.only_with_one();
        self.holds("1 is the only refusal with a number, and never has 0", right, "another number");
        let wrong = self.wrong;
        let what =
            "handles, and answers to chains, releases and in level one, follow from the sheet";
        self.holds(what, wrong == 0, format!("{wrong} scripts"));
        self.kind_coverage();
    }

    /// Each kind met all its refusals and no others.
    fn kind_coverage(&mut self) {
        for kind in [0, 2, 3] {
            let read = self.kinds[kind].iter().any(|&lines| lines > 0);
            self.holds(&format!("no record of kind {kind} read"), !read, "some");
        }
        for (kind, refusals) in FULL {
            let own = LEVEL_ONES.iter().find(|(own, _)| *own == kind);
            let refusals = match (self.profile, own) {
                (Profile::LevelOne, Some((_, own))) => own,
                _ => refusals,
            };
            let met: Vec<usize> = (1..CODES).filter(|&code| self.kinds[kind][code] > 0).collect();
            let accepted = self.kinds[kind][0] > 0;
            let all = met == refusals && accepted != refusals.contains(&21);
            self.holds(&format!("kind {kind}'s refusals {refusals:?}"), all, format!("{met:?}"));
        }
    }

    /// Before anything is generated: cut records missed each number of bytes, and
    /// there were protects, releases and chains of each sort, or level-one calls.
    pub fn fixed_coverage(&mut self) {
        self.tell(format!("fixed scripts: {}", self.passed + self.failed));
        self.tell(format!("in fixed scripts, {}", self.missing));
        let often = self.missing.each_above(CUT);
        self.holds("cut records that miss 1 to 8 bytes and more", often, format!("{CUT}"));
        for (number, met) in MISSED.into_iter().zip(self.missed) {
            self.holds(&format!("cut records that miss {number}"), met, "none");
        }
        let (often, least) = match self.profile {
            Profile::Full => {
                self.fixed_draws();
                self.fixed_releases();
                self.tell(format!("in fixed scripts, {}", self.chains));
                (self.chains.each_above(CHAINS), CHAINS)
            }
            Profile::LevelOne => {
                self.tell(format!("in fixed scripts, {}", self.level_one));
                (self.level_one.papers_above(LEVEL_ONE), LEVEL_ONE)
            }
        };
        let otherwise = format!("not all above {least}");
        self.holds("chains, or level-one calls, of each sort in fixed scripts", often, otherwise);
    }

    /// Protects passed over draws in each way, one of them over as many as can be.
    fn fixed_draws(&mut self) {
        self.tell(format!("in fixed scripts, {}", self.draws));
        let (often, most) = (self.draws.each_above(DRAWS), self.draws.most());
        let otherwise = format!("not all above {DRAWS}");
        self.holds("protects of each sort in fixed scripts", often, otherwise);
        self.holds("the most draws passed over", most == MOST_PASSED_OVER, format!("{most}"));
    }

    /// Releases and what they bear on came in each way.
    fn fixed_releases(&mut self) {
        self.tell(format!("in fixed scripts, {}", self.releases));
        let often = self.releases.each_above(RELEASES);
        let otherwise = format!("not all above {RELEASES}");
        self.holds("releases of each sort in fixed scripts", often, otherwise);
    }

    /// Tells how many failures were not told.
    pub fn tell_more(&mut self) {
        if self.failed > PRINTED {
            self.tell(format!("{} more failed", self.failed - PRINTED));
        }
    }
}

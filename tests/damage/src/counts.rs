//! What was called, and which codes were met.

use std::process::ExitCode;

use differential::{Chains, Draws, HandOvers, Held, LevelOne, Missing, Releases, Traced};
use interface::{Both, Sides, Tally};
use second::Answer;

/// More hand overs of each sort than this are made on sound boxes.
const HAND_OVERS: u64 = 100;

/// More chains of each sort than this are asked for on sound boxes.
const CHAINS: u64 = 20;

/// More protects of each sort than this are accepted on sound boxes.
const DRAWS: u64 = 50;

/// More releases of each sort than this, and calls on which they bear, are made on sound
/// boxes.
const RELEASES: u64 = 50;

/// More cut records that miss 1 to 8 bytes, of each sort, and that miss more.
const CUT: u64 = 100;

/// More level-one calls of each sort than this are made on sound boxes.
const LEVEL_ONE: u64 = 40;

/// Parts of the test. Level one's own codes, 21 to 23, come more often than this in
/// each of them but the first.
#[rustfmt::skip]
const PARTS: [&str; 7] = [
    "other", "hand-made boxes", "scripts", "level-one scripts", "sound boxes", "damaged boxes",
    "altered boxes",
];
const OWN_CODES: u64 = 50;

/// The codes are below this.
const CODES: usize = 24;

/// The codes that no call gets: 5 is retired, 16 is the program's and 17 the
/// writer's. Level one's are not the full box's, and what only an escrow or a chain
/// brings on is not level one's.
const NEVER_FULL: [usize; 6] = [5, 16, 17, 21, 22, 23];
const NEVER_LEVEL_ONE: [usize; 9] = [5, 10, 12, 14, 16, 17, 18, 19, 20];

/// Progress is told after so many calls.
const PROGRESS: u64 = 500_000;

#[derive(Default)]
pub struct Counts {
    tally: Tally,
    calls: u64,
    told: u64,
    /// Calls with each code, of the full box and of level one.
    codes: [[u64; CODES]; 2],
    /// What is called now, and level one's own codes in each of `PARTS`.
    part: usize,
    own_codes: [[u64; 3]; PARTS.len()],
    /// Writings with each code.
    written: [u64; CODES],
    /// Those on sound boxes, by the proved side's running place.
    hand_overs: HandOvers,
    chains: Chains,
    draws: Draws,
    releases: Releases,
    level_one: LevelOne,
    /// Calls with code 1, by what the record misses.
    missing: Missing,
}

impl Counts {
    /// One call under each profile on both sides, the full box's with the box record by
    /// value and lent. The full box's answer, where they agree; the box goes on as that
    /// leaves it.
    pub fn call(
        &mut self,
        sides: &mut Sides,
        record: &[u8],
        what: impl Fn() -> String,
    ) -> Option<Answer> {
        let Both { full: (answer, left), .. } = self.both(sides, record, what)?;
        *sides = left;
        Some(answer)
    }

    /// As [`call`](Self::call), but level one's answer, and the box goes on as a
    /// level-one paper.
    pub fn call_level_one(
        &mut self,
        sides: &mut Sides,
        record: &[u8],
        what: impl Fn() -> String,
    ) -> Option<Answer> {
        let Both { level_one: (answer, left), .. } = self.both(sides, record, what)?;
        *sides = left;
        Some(answer)
    }

    fn both(&mut self, sides: &Sides, record: &[u8], what: impl Fn() -> String) -> Option<Both> {
        let running = sides.host.held.running;
        let outcome = sides.call_both(record);
        self.calls += 2;
        self.tally.check(outcome.is_ok(), || {
            let message = outcome.as_ref().err().map_or("", |message| message);
            format!("{}: {message}\nrecord: {record:02x?}", what())
        });
        let both = outcome.ok()?;
        let (full, level_one) = (&both.full.0, &both.level_one.0);
        for (codes, answer) in self.codes.iter_mut().zip([full, level_one]) {
            codes[usize::from(answer.code)] += 1;
            self.missing.add(answer.code.into(), answer.number);
        }
        if let own @ 21..=23 = level_one.code {
            self.own_codes[self.part][usize::from(own) - 21] += 1;
        }
        self.hand_overs.add(running, record, full.code.into());
        self.chain(sides, record, full);
        self.handle(sides, record, full);
        self.release(sides, record, full);
        self.follows(sides, record, full.code, level_one.code);
        Some(both)
    }

    /// Level one's answer follows from what the box held and the full box's code.
    fn follows(&mut self, sides: &Sides, record: &[u8], full: u8, code: u8) {
        if full == 15 {
            return self.tally.check(code == 15, || format!("15 is {code} in level one"));
        }
        let traced = Traced::of(&sides.second);
        let follows = self.level_one.add(&traced, record, Some(full), code);
        self.tally.check(follows, || format!("level one's {code} on these tables: {record:02x?}"));
    }

    /// The answer to a chain follows from what the tables hold. It alters nothing,
    /// so they may be read after it.
    fn chain(&mut self, sides: &Sides, record: &[u8], answer: &Answer) {
        if answer.used == 0 || record[1] != 15 {
            return;
        }
        let box_record = &sides.second.record;
        let runner = box_record.identities.get(usize::from(box_record.running)).copied();
        let (held, runner) = (Held::of(&sides.second), runner.unwrap_or(0));
        let follows = self.chains.add(&held, runner, record, answer.code, answer.number);
        self.tally.check(follows, || format!("a chain on these tables: {record:02x?}"));
    }

    /// The handle that a protect gets follows from what the tables held before it.
    fn handle(&mut self, sides: &Sides, record: &[u8], answer: &Answer) {
        if answer.code != 0 || record[1] != 11 {
            return;
        }
        let held = Held::of(&sides.second);
        let follows = self.draws.add(&held, record, answer.code, answer.number);
        self.tally.check(follows, || format!("a handle on these tables: {record:02x?}"));
    }

    /// The answer to a release, and those on which releases bear, follow from what the
    /// tables held before it.
    fn release(&mut self, sides: &Sides, record: &[u8], answer: &Answer) {
        if answer.used == 0 || !matches!(record[1], 11 | 12 | 13 | 16) {
            return;
        }
        let traced = Traced::of(&sides.second);
        let follows = self.releases.add(&traced, record, answer.code, answer.number);
        self.tally.check(follows, || format!("{answer:?} on these tables: {record:02x?}"));
    }

    /// One writing, and whether both sides agree.
    pub fn writing(&mut self, code: u8, agrees: bool, what: impl Fn() -> String) {
        self.calls += 1;
        self.tally.check(agrees, what);
        if agrees {
            self.written[usize::from(code)] += 1;
        }
    }

    /// A fact about the test itself.
    pub fn holds(&mut self, fact: bool, what: &str) {
        self.tally.check(fact, || what.into());
    }

    pub fn calls(&self) -> u64 {
        self.calls
    }

    /// What is called from now on, one of `PARTS`.
    pub fn now(&mut self, name: &str) {
        let part = PARTS.iter().position(|&part| part == name);
        self.part = part.expect("it is one of the parts");
    }

    pub fn part(&self, name: &str) {
        println!("{name}: {} calls so far", self.calls);
    }

    pub fn progress(&mut self, all: u64) {
        if self.calls / PROGRESS > self.told {
            self.told = self.calls / PROGRESS;
            println!("{} of {all} calls", self.calls);
        }
    }

    /// Hand overs of each sort were met, chains, protects, releases, cut records and
    /// level-one calls.
    pub fn summary(mut self) -> ExitCode {
        println!("{}", self.hand_overs);
        let often = self.hand_overs.each_above(HAND_OVERS);
        self.tally.check(often, || format!("hand overs of each sort above {HAND_OVERS}"));
        println!("{}", self.chains);
        let often = self.chains.each_above(CHAINS);
        self.tally.check(often, || format!("chains of each sort above {CHAINS}"));
        println!("{}", self.draws);
        let often = self.draws.each_above(DRAWS);
        self.tally.check(often, || format!("protects of each sort above {DRAWS}"));
        println!("{}", self.releases);
        let often = self.releases.each_above(RELEASES);
        self.tally.check(often, || format!("releases of each sort above {RELEASES}"));
        println!("{}", self.level_one);
        let often = self.level_one.each_above(LEVEL_ONE);
        self.tally.check(often, || format!("level-one calls of each sort above {LEVEL_ONE}"));
        println!("{}", self.missing);
        let often = self.missing.each_above(CUT);
        self.tally.check(often, || format!("cut records of each sort above {CUT}"));
        let right = self.missing.only_with_one();
        self.tally.check(right, || "1 is not the only refusal with a number".into());
        self.own_codes();
        self.all_codes();
        self.tally.summary()
    }

    /// Level one's own codes came often in each part.
    fn own_codes(&mut self) {
        for (n, (name, counts)) in PARTS.iter().zip(self.own_codes).enumerate() {
            let [escrow, place, value] = counts;
            println!("{name}: 21 {escrow}, 22 {place}, 23 {value}");
            let often = n == 0 || counts.iter().all(|&count| count > OWN_CODES);
            self.tally.check(often, || format!("{name}: each above {OWN_CODES}"));
        }
    }

    /// Every code that a host can meet in a call was met, under each profile, and no
    /// other.
    fn all_codes(&mut self) {
        let Counts { tally, codes: [full, level_one], written, .. } = self;
        println!("code full level-one writings");
        for code in 0..CODES {
            println!("{code:4} {} {} {}", full[code], level_one[code], written[code]);
            let met = full[code] > 0;
            let wanted = !NEVER_FULL.contains(&code);
            tally.check(met == wanted, || format!("calls with code {code}"));
            let met = level_one[code] > 0;
            let wanted = !NEVER_LEVEL_ONE.contains(&code);
            tally.check(met == wanted, || format!("level-one calls with code {code}"));
            let met = written[code] > 0;
            let wanted = [0, 2, 17].contains(&code);
            tally.check(met == wanted, || format!("writings with code {code}"));
        }
    }
}

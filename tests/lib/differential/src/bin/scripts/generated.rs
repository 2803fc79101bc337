//! What the generated scripts come to.

use differential::{lines, Case, Chains, Draws, HandOvers, LevelOne, Missing, Played, Releases};
use second::{Profile, ROWS, VALUES_SIZE};

use crate::marker::{Marker, CHAINS, DRAWS, RELEASES};

/// More hand overs of each sort than this are in the generated scripts.
const HAND_OVERS: u64 = 100;

/// More cut records that miss 1 to 8 bytes, of each sort, and that miss more.
const CUT: u64 = 5;

/// More level-one calls of each sort.
const LEVEL_ONE: u64 = 100;

/// Scripts played for one profile, and their sheets under it.
pub struct Generated {
    profile: Profile,
    full: Full,
    hand_overs: HandOvers,
    chains: Chains,
    draws: Draws,
    releases: Releases,
    level_one: LevelOne,
    missing: Missing,
    /// Hand overs refused and followed by a call of the service that runs.
    left_running: u64,
}

impl Generated {
    pub fn new(profile: Profile) -> Self {
        Generated {
            profile,
            full: Full::default(),
            hand_overs: HandOvers::default(),
            chains: Chains::default(),
            draws: Draws::default(),
            releases: Releases::default(),
            level_one: LevelOne::default(),
            missing: Missing::default(),
            left_running: 0,
        }
    }

    /// One script.
    pub fn compare(&mut self, marker: &mut Marker, seed: u64, played: Played) {
        self.full.count(&played.host.record);
        let case = case(self.profile, seed, played);
        let sheet = marker.compare(&case);
        self.left_running += self.hand_overs.count(&case.script, &sheet);
        match self.profile {
            Profile::Full => {
                self.chains.count(&case.script, &sheet);
                self.draws.count(&case.script, &sheet);
                self.releases.count(&case.script, &sheet);
            }
            Profile::LevelOne => {
                self.level_one.count(&case.script, &sheet);
            }
        }
        lines(&case.script, &sheet).for_each(|line| self.missing.add(line.code, line.number));
    }

    /// Tables were filled; hand overs, cut records, and protects, releases and chains
    /// or level-one calls of each sort came often.
    pub fn coverage(&self, marker: &mut Marker) {
        let Generated { profile, full, hand_overs, missing, left_running, .. } = self;
        marker.tell(format!("in generated scripts, {full}\n{hand_overs}\n{missing}"));
        marker.tell(format!("refused and followed by a call of who runs: {left_running}"));
        let filled = full.everywhere(*profile);
        marker.holds("generated scripts that fill the tables", filled, full.to_string());
        let often = hand_overs.each_above(HAND_OVERS) && *left_running > HAND_OVERS;
        let otherwise = format!("not all above {HAND_OVERS}");
        marker.holds("hand overs of each sort in generated scripts", often, otherwise);
        let often = missing.each_above(CUT);
        let otherwise = format!("not all above {CUT}");
        marker.holds("cut records of each sort in generated scripts", often, otherwise);
        let (often, least) = match profile {
            Profile::Full => {
                marker.tell(&self.draws);
                let often = self.draws.each_above(DRAWS);
                let otherwise = format!("not all above {DRAWS}");
                marker.holds("protects of each sort in generated scripts", often, otherwise);
                marker.tell(&self.releases);
                let often = self.releases.each_above(RELEASES);
                let otherwise = format!("not all above {RELEASES}");
                marker.holds("releases of each sort in generated scripts", often, otherwise);
                marker.tell(&self.chains);
                (self.chains.each_above(CHAINS), CHAINS)
            }
            Profile::LevelOne => {
                marker.tell(&self.level_one);
                (self.level_one.papers_above(LEVEL_ONE), LEVEL_ONE)
            }
        };
        let otherwise = format!("not all above {least}");
        marker.holds("chains, or level-one calls, of each sort", often, otherwise);
    }
}

/// A script played for this profile.
pub fn case(profile: Profile, seed: u64, played: Played) -> Case {
    Case::bare(format!("script generated for {profile:?}, seed {seed}"), played.script)
}

/// How many generated scripts end with a full table.
#[derive(Default)]
struct Full {
    log_rows: u64,
    log_bytes: u64,
    escrow_rows: u64,
    escrow_bytes: u64,
}

impl Full {
    fn count(&mut self, record: &second::BoxRecord) {
        self.log_rows += u64::from(usize::from(record.log_rows) == ROWS);
        self.log_bytes += u64::from(usize::from(record.log_bytes) == VALUES_SIZE);
        self.escrow_rows += u64::from(usize::from(record.escrow_rows) == ROWS);
        self.escrow_bytes += u64::from(usize::from(record.escrow_bytes) == VALUES_SIZE);
    }

    /// A level-one paper leaves the escrow empty.
    fn everywhere(&self, profile: Profile) -> bool {
        let escrow = self.escrow_rows > 0 && self.escrow_bytes > 0;
        self.log_rows > 0 && self.log_bytes > 0 && escrow == (profile == Profile::Full)
    }
}

impl std::fmt::Display for Full {
    fn fmt(&self, out: &mut std::fmt::Formatter) -> std::fmt::Result {
        let Full { log_rows, log_bytes, escrow_rows, escrow_bytes } = self;
        write!(
            out,
            "scripts that use all: log rows {log_rows}, log bytes {log_bytes}, \
             escrow rows {escrow_rows}, escrow bytes {escrow_bytes}"
        )
    }
}

//! Plays random calls on a fresh box and writes their records down. Most calls
//! are acceptable, so that full logs and escrows are reached.

use std::collections::VecDeque;

use second::{
    read, tag_of, Answer, Call, Host, Link, Profile, SoundBox, DRAW_LIMIT, HEAP_SIZE, NONE_RUNS,
    OUTPUT_SIZE, PLACES, SHARED_SIZE, VALUES_SIZE,
};

use crate::calls::{
    attest, check, create, hand_over, heap_read, heap_write, protect, record_of, release, retrieve,
    shared_read, shared_write,
};
use crate::draws::{near, near_a_row};
use crate::held::{link_value, Escrowed, Logged};
use crate::random::Random;
use crate::records::{self, Known};
use crate::style::{Style, LEVEL_ONE_STYLES, LINK, STYLES, TENANT};

/// A script and the sound box that it leads to, but for its last records: up to
/// four of them may be anything, malformed and cut too.
pub struct Played {
    pub script: Vec<u8>,
    pub host: Host,
}

/// Plays a script of up to some hundred calls. The seed decides all of it.
pub fn play(seed: u64) -> Played {
    play_one_of(seed, Profile::Full, &STYLES)
}

/// As [`play`], a level-one paper: the box is the one that it leads to.
pub fn play_level_one(seed: u64) -> Played {
    play_one_of(seed, Profile::LevelOne, &LEVEL_ONE_STYLES)
}

/// As [`play`], in the styles of chains alone.
pub fn play_chains(seed: u64) -> Played {
    play_one_of(seed, Profile::Full, &STYLES[STYLES.len() - 2..])
}

fn play_one_of(seed: u64, profile: Profile, styles: &[Style]) -> Played {
    let mut random = Random::new(seed);
    let style = styles[(seed % styles.len() as u64) as usize];
    let calls = random.between(style.calls / 4, style.calls);
    let (host, mut script) = played_on_fresh(&mut random, profile, style, |player| {
        for _ in 0..calls {
            player.step();
        }
    });
    if random.once_in(3) {
        script.extend(records::any(&mut random, &Known::of(&host)));
    }
    if random.once_in(3) {
        script.extend(records::malformed(&mut random, &Known::of(&host)));
    }
    if random.once_in(3) {
        script.extend(records::retired(&mut random));
    }
    if random.once_in(2) {
        script.extend(records::cut(&mut random, &Known::of(&host)));
    }
    Played { script, host }
}

/// A script of exactly this length, perhaps cut in its last record.
pub fn long_script(seed: u64, length: usize) -> Vec<u8> {
    let mut random = Random::new(seed);
    let style = STYLES[(seed % STYLES.len() as u64) as usize];
    let (_, mut script) = played_on_fresh(&mut random, Profile::Full, style, |player| {
        while player.script.len() < length {
            player.step();
        }
    });
    script.truncate(length);
    script
}

fn played_on_fresh(
    random: &mut Random,
    profile: Profile,
    style: Style,
    plan: impl FnOnce(&mut Player),
) -> (Host, Vec<u8>) {
    let mut host = Host::fresh();
    let mut tables = host.lend();
    let mut output = [0; OUTPUT_SIZE];
    let mut sound_box = SoundBox::new(&mut tables, &mut output).expect("a fresh box is sound");
    let mut player = Player::new(sound_box.under(profile), random, style);
    player.level_one = profile == Profile::LevelOne;
    plan(&mut player);
    let script = player.script;
    host.record = tables.record;
    (host, script)
}

/// Small identities, large ones, and ones that differ from another in one bit.
fn identities(random: &mut Random, count: usize) -> Vec<u64> {
    let base = random.u64();
    let identity = |n| match random.below(3) {
        0 => n as u64 + 1,
        1 => base ^ (1 << random.below(64)),
        _ => random.u64(),
    };
    (0..count).map(identity).map(|identity| identity.max(1)).collect()
}

/// Chooses calls by what it remembers of the answers before.
struct Player<'a> {
    sound_box: SoundBox<'a>,
    random: &'a mut Random,
    style: Style,
    /// It plays a level-one paper.
    level_one: bool,
    /// The identities to choose from, the tags and handles given so far, and what
    /// is held.
    known: Known,
    /// The identity in each place, 0 where it is empty.
    places: [u64; PLACES],
    running: Option<u8>,
    /// Records to make next: a link value is logged or escrowed as soon as it
    /// stands in the heap.
    planned: VecDeque<Vec<u8>>,
    script: Vec<u8>,
}

impl<'a> Player<'a> {
    fn new(sound_box: SoundBox<'a>, random: &'a mut Random, style: Style) -> Self {
        let known = Known { identities: identities(random, style.identities), ..Known::default() };
        Player {
            sound_box,
            random,
            style,
            level_one: false,
            known,
            places: [0; PLACES],
            running: None,
            planned: VecDeque::new(),
            script: Vec::new(),
        }
    }

    /// Makes one call and remembers what it did.
    fn step(&mut self) {
        let record = self.record();
        let answer = self.sound_box.run(&record);
        if answer.code == 0 {
            let (call, _) = read(&record).expect("an accepted record was read");
            self.remember(&call, &answer);
        }
        self.known.recipient = self.runner();
        self.script.extend(record);
    }

    fn remember(&mut self, call: &Call, answer: &Answer) {
        match *call {
            Call::Create { place, identity } => self.places[usize::from(place)] = identity,
            Call::HandOver { place } => self.running = (place != NONE_RUNS).then_some(place),
            Call::Exit => {
                if let Some(place) = self.running.take() {
                    self.places[usize::from(place)] = 0;
                }
            }
            Call::Attest { offset, length } => {
                let (identity, tag) = (self.runner(), answer.number);
                let logged = Logged { identity, tag, value: self.heap_part(offset, length) };
                if !self.known.held.logged.contains(&logged) {
                    self.known.numbers.push(tag);
                    self.known.held.logged.push(logged);
                }
            }
            Call::Protect { identity, offset, length, .. } => {
                let (source, handle) = (self.runner(), answer.number);
                self.known.numbers.push(handle);
                let value = self.heap_part(offset, length);
                let row = Escrowed { source, recipient: identity, handle, value, spent: false };
                self.known.held.escrowed.push(row);
            }
            Call::Release { handle, .. } => self.known.held.release(handle.0),
            _ => {}
        }
    }

    /// The running identity, or 0.
    fn runner(&self) -> u64 {
        self.running.map_or(0, |place| self.places[usize::from(place)])
    }

    /// A part of the running heap. No call shows the output buffer's remainder,
    /// so this look at it leaves no trace.
    fn heap_part(&mut self, offset: u16, length: u16) -> Vec<u8> {
        let place = self.running.expect("a service runs");
        self.sound_box.heap_read(place, offset, length).expect("the part is in the heap");
        self.sound_box.output()[..usize::from(length)].to_vec()
    }

    /// The next record.
    fn record(&mut self) -> Vec<u8> {
        if let Some(planned) = self.planned.pop_front() {
            return planned;
        }
        if self.random.once_in(self.style.loose) {
            return records::whole(self.random, &self.known);
        }
        match self.running {
            None => self.while_none_runs(),
            Some(place) => self.while_running(place),
        }
    }

    fn while_none_runs(&mut self) -> Vec<u8> {
        match self.random.below(24) {
            0 | 1 => self.check(),
            2 | 3 => self.shared_write(),
            4 | 5 => self.shared_read(),
            6..=9 => self.create(),
            10 => records::held_chain(self.random, &self.known),
            _ => self.hand_over(),
        }
    }

    fn while_running(&mut self, place: u8) -> Vec<u8> {
        match self.random.pick(self.style.kinds) {
            1 => self.create(),
            4 => record_of(&Call::Exit),
            5 => self.heap_write(place),
            6 => self.heap_read(place),
            7 => self.shared_write(),
            8 => self.shared_read(),
            9 => self.attest(),
            10 => self.check(),
            11 => self.protect(),
            12 => self.retrieve(),
            14 => self.hand_over(),
            15 => records::held_chain(self.random, &self.known),
            16 => self.release(),
            LINK => self.link(place),
            TENANT => self.tenant(place),
            _ => record_of(&Call::Report),
        }
    }

    /// Takes an empty place; a report when there is none.
    fn create(&mut self) -> Vec<u8> {
        match self.place_where(|identity| identity == 0) {
            Some(place) if self.level_one && self.random.once_in(16) => {
                record_of(&create(place, 0))
            }
            Some(place) => record_of(&create(place, self.random.pick(&self.known.identities))),
            None => record_of(&Call::Report),
        }
    }

    /// Who runs leaves, and another comes, runs and logs a value.
    fn tenant(&mut self, place: u8) -> Vec<u8> {
        let identity = self.random.pick(&self.known.identities);
        let used = self.known.held.logged.iter().map(|logged| logged.value.len()).sum();
        let length = self.value_length(used);
        let value = self.random.bytes(usize::from(length), self.style.alphabet);
        let calls = [create(place, identity), hand_over(place), heap_write(place, 0, &value)];
        self.planned.extend(calls.iter().chain([&attest(0, length)]).map(record_of));
        record_of(&Call::Exit)
    }

    /// Mostly to a taken place; else to 16, to the running place, to an empty
    /// one or above 16. A create when there is no such place, and now and then.
    fn hand_over(&mut self) -> Vec<u8> {
        let place = match self.random.below(16) {
            0..=2 => Some(NONE_RUNS),
            3 => self.running,
            4 => self.place_where(|identity| identity == 0),
            5 => Some(self.random.pick(&[17, 18, 31, 32, 255])),
            6 | 7 => None,
            _ => self.place_where(|identity| identity != 0),
        };
        match place {
            Some(place) => record_of(&hand_over(place)),
            None => self.create(),
        }
    }

    /// In a level-one paper seldom a place above 3.
    fn place_where(&mut self, holds: fn(u64) -> bool) -> Option<u8> {
        let low = self.level_one && !self.random.once_in(8);
        let end = if low { 4 } else { PLACES as u8 };
        let places: Vec<u8> =
            (0..end).filter(|&place| holds(self.places[usize::from(place)])).collect();
        if places.is_empty() {
            None
        } else {
            Some(self.random.pick(&places))
        }
    }

    /// Half of the writes fill a good part of the heap.
    fn heap_write(&mut self, place: u8) -> Vec<u8> {
        let count = match self.random.below(2) {
            0 => self.random.between(100, HEAP_SIZE as u16),
            _ => self.random.between(0, 8),
        };
        let offset = self.offset(HEAP_SIZE, count);
        let bytes = self.random.bytes(usize::from(count), self.style.alphabet);
        record_of(&heap_write(place, offset, &bytes))
    }

    fn heap_read(&mut self, place: u8) -> Vec<u8> {
        let length = self.random.between(0, HEAP_SIZE as u16);
        record_of(&heap_read(place, self.offset(HEAP_SIZE, length), length))
    }

    fn shared_write(&mut self) -> Vec<u8> {
        let count = self.shared_length();
        let offset = self.offset(SHARED_SIZE, count);
        let bytes = self.random.bytes(usize::from(count), 256);
        record_of(&shared_write(offset, &bytes))
    }

    fn shared_read(&mut self) -> Vec<u8> {
        let length = self.shared_length();
        record_of(&shared_read(self.offset(SHARED_SIZE, length), length))
    }

    fn shared_length(&mut self) -> u16 {
        let most = if self.random.once_in(4) { SHARED_SIZE as u16 } else { 20 };
        self.random.between(0, most)
    }

    /// An offset where the length fits, one time in four at the very end.
    fn offset(&mut self, size: usize, length: u16) -> u16 {
        let last = size as u16 - length;
        if self.random.once_in(4) {
            last
        } else {
            self.random.between(0, last)
        }
    }

    /// A value's length. When few bytes are left in the table it sometimes takes
    /// just these, or one more.
    fn value_length(&mut self, used: usize) -> u16 {
        let left = (VALUES_SIZE - used) as u16;
        let (least, most) = self.style.values;
        match self.random.below(4) {
            0 if left <= most => left,
            1 if left < most => left + 1,
            _ => self.random.between(least, most),
        }
    }

    fn attest(&mut self) -> Vec<u8> {
        if self.level_one && self.random.once_in(3) {
            if let Some(record) = self.attest_again() {
                return record;
            }
        }
        let used = self.known.held.logged.iter().map(|logged| logged.value.len()).sum();
        let length = self.value_length(used);
        record_of(&attest(self.offset(HEAP_SIZE, length), length))
    }

    /// The value that who runs has logged, from where it stands in the heap, or
    /// from where it is written first.
    fn attest_again(&mut self) -> Option<Vec<u8>> {
        let (place, runner) = (self.running?, self.runner());
        let row = self.known.held.logged.iter().find(|row| row.identity == runner)?;
        let (value, length) = (row.value.clone(), row.value.len() as u16);
        let heap = self.heap_part(0, HEAP_SIZE as u16);
        let stands = (0..=HEAP_SIZE - value.len()).find(|&n| heap[n..].starts_with(&value));
        if let Some(offset) = stands {
            return Some(record_of(&attest(offset as u16, length)));
        }
        let offset = self.offset(HEAP_SIZE, length);
        self.planned.push_back(record_of(&attest(offset, length)));
        Some(record_of(&heap_write(place, offset, &value)))
    }

    /// A logged row, or one with a single thing wrong; or a pair never logged
    /// with the tag it would have.
    fn check(&mut self) -> Vec<u8> {
        let other = self.random.pick(&self.known.identities);
        let logged = &self.known.held.logged;
        if logged.is_empty() || self.random.once_in(8) {
            let value = self.random.bytes(2, self.style.alphabet);
            return record_of(&check(other, tag_of(other, &value).0, &value));
        }
        let chosen = self.random.index(logged.len());
        let Logged { mut identity, mut tag, mut value } = logged[chosen].clone();
        match self.random.below(8) {
            0 => tag ^= 1 << self.random.below(64),
            1 => identity = other,
            2 => value.push(0),
            3 if !value.is_empty() => value[0] ^= 1,
            _ => {}
        }
        record_of(&check(identity, tag, &value))
    }

    fn protect(&mut self) -> Vec<u8> {
        let recipient = self.random.pick(&self.known.identities);
        let used = self.known.held.escrowed.iter().map(|escrowed| escrowed.value.len()).sum();
        let length = self.value_length(used);
        let draw = self.draw(length);
        record_of(&protect(recipient, self.offset(HEAP_SIZE, length), length, draw))
    }

    /// One of the style's draws, which lie on both sides of 0, or one near it; or one
    /// near a row's, so that sequences are entered anywhere.
    fn draw(&mut self, length: u16) -> u64 {
        let draws = self.style.draws;
        let draw = (DRAW_LIMIT - draws / 2 + self.random.below(draws)) % DRAW_LIMIT;
        let rows = &self.known.held.escrowed;
        match self.random.below(16) {
            0 => near(self.random, draw),
            1 | 2 => near_a_row(self.random, rows, length).unwrap_or(draw),
            _ => draw,
        }
    }

    /// Mostly an unspent value for the running identity, if there is one: the first,
    /// the last or any. Else any row, spent ones too, perhaps with one thing wrong. A
    /// protect may follow at once, which uses the bytes that were freed.
    fn release(&mut self) -> Vec<u8> {
        if self.random.once_in(4) {
            return records::held_release(self.random, &self.known);
        }
        let runner = self.runner();
        let rows = self.known.held.escrowed.iter();
        let mine: Vec<(u64, u64)> = rows
            .filter(|row| row.recipient == runner && !row.spent)
            .map(|row| (row.source, row.handle))
            .collect();
        if mine.is_empty() {
            return records::held_release(self.random, &self.known);
        }
        let any = self.random.index(mine.len());
        let (source, handle) = mine[self.random.pick(&[0, mine.len() - 1, any, any])];
        if self.random.once_in(4) {
            let length = (handle >> 48) as u16;
            let other = self.draw(length);
            let draw = self.random.pick(&[handle % DRAW_LIMIT, other]);
            let offset = self.offset(HEAP_SIZE, length);
            self.planned.push_back(record_of(&protect(runner, offset, length, draw)));
        }
        record_of(&release(source, handle))
    }

    /// Mostly a value escrowed for the running identity, if there is one.
    fn retrieve(&mut self) -> Vec<u8> {
        let runner = self.runner();
        let escrowed = &self.known.held.escrowed;
        let mut rows: Vec<&Escrowed> =
            escrowed.iter().filter(|row| row.recipient == runner).collect();
        if rows.is_empty() || self.random.once_in(8) {
            rows = escrowed.iter().collect();
        }
        if rows.is_empty() {
            return record_of(&Call::Report);
        }
        let row = self.random.pick(&rows);
        let (mut source, handle, length) = (row.source, row.handle, row.length());
        if self.random.once_in(8) {
            source = self.random.pick(&self.known.identities);
        }
        record_of(&retrieve(source, self.offset(HEAP_SIZE, length), handle))
    }

    /// A link value into the heap; it is logged or escrowed next. Mostly it names
    /// the newest link there is, so that chains grow beyond sixteen links.
    fn link(&mut self, place: u8) -> Vec<u8> {
        if self.random.once_in(24) {
            return self.ring(place);
        }
        let next = self.next_link();
        let most = self.random.pick(&[0, 0, 1, 20]);
        let payload = self.random.index(most + 1);
        let mut value = link_value(next, &self.random.bytes(payload, 4));
        if self.random.once_in(12) {
            self.spoil_head(&mut value);
        }
        let length = value.len() as u16;
        let offset = self.offset(HEAP_SIZE, length);
        let put = match self.random.below(2) {
            0 => attest(offset, length),
            _ => protect(self.reader(), offset, length, self.draw(length)),
        };
        self.planned.push_back(record_of(&put));
        record_of(&heap_write(place, offset, &value))
    }

    /// What a link value names: mostly the newest link of a whole chain; none now
    /// and then, and where there is none yet; seldom a fault.
    fn next_link(&mut self) -> Option<Link> {
        let (held, reader) = (&self.known.held, self.known.identities[0]);
        let (rows, links) = (held.rows(reader), held.links(reader));
        let newest = |way| {
            let mut newest = links.iter().copied().rev().filter(|link| link.way == way).take(3);
            newest.find(|&link| held.whole(reader, link).is_some())
        };
        let longest = newest(2).into_iter().chain(newest(3));
        let longest = longest.max_by_key(|&link| held.whole(reader, link));
        let malformed = rows.iter().copied().rev().find(|row| !links.contains(row));
        match self.random.below(32) {
            0 => None,
            1 => longest.map(|link| Link { identity: 0, ..link }),
            2 => longest.map(|link| Link { number: link.number ^ 1, ..link }),
            3 | 4 if !links.is_empty() => Some(self.random.pick(&links)),
            5 if !rows.is_empty() => Some(self.random.pick(&rows)),
            6 | 7 => malformed.or(longest),
            _ => longest,
        }
    }

    /// For whom links are escrowed: mostly the first of the identities, so that
    /// whole chains are for one recipient.
    fn reader(&mut self) -> u64 {
        match self.random.below(16) {
            0 => self.random.pick(&self.known.identities),
            1 => self.runner(),
            _ => self.known.identities[0],
        }
    }

    /// An empty value, another first byte, or one byte too few behind a 2 or 3.
    fn spoil_head(&mut self, value: &mut Vec<u8>) {
        match self.random.below(3) {
            0 => value.clear(),
            1 => value[0] = self.random.pick(&[0, 4, 255]),
            _ => value.truncate(16),
        }
    }

    /// A chain that comes back on itself, by a handle told ahead: an escrowed
    /// value that names its own handle, or a logged and an escrowed value that
    /// name each other. Where the handle is in use the chain leads elsewhere.
    fn ring(&mut self, place: u8) -> Vec<u8> {
        let (identity, draw) = (self.runner(), self.draw(17));
        let escrowed = Link { way: 3, identity, number: 17 * DRAW_LIMIT + draw };
        let put = record_of(&protect(identity, 0, 17, draw));
        let value = link_value(Some(escrowed), &[]);
        if self.random.once_in(2) {
            self.planned.push_back(put);
            return record_of(&heap_write(place, 0, &value));
        }
        let logged = Link { way: 2, identity, number: tag_of(identity, &value).0 };
        let named = link_value(Some(logged), &[]);
        self.planned.push_back(record_of(&attest(0, 17)));
        self.planned.push_back(record_of(&heap_write(place, 0, &named)));
        self.planned.push_back(put);
        record_of(&heap_write(place, 0, &value))
    }
}

#[cfg(test)]
mod tests {
    use super::*;
    use crate::level_one::LevelOne;
    use second::{is_sound, sheet, sheet_level_one, ROWS};

    /// The boxes are sound, scripts come out the same each time, and the tables
    /// are filled to the last row and byte.
    #[test]
    fn boxes_are_sound_and_some_are_full() {
        let mut full = [0; 4];
        for seed in 0..160 {
            let mut played = play(seed);
            assert!(is_sound(&played.host.lend()));
            assert!(played.script == play(seed).script);
            let record = played.host.record;
            full[0] += usize::from(usize::from(record.log_rows) == ROWS);
            full[1] += usize::from(usize::from(record.log_bytes) == VALUES_SIZE);
            full[2] += usize::from(usize::from(record.escrow_rows) == ROWS);
            full[3] += usize::from(usize::from(record.escrow_bytes) == VALUES_SIZE);
        }
        assert!(full.iter().all(|&count| count > 0), "{full:?}");
    }

    /// A level-one paper's boxes are sound, use no place above 3 and no escrow and
    /// log one value of each identity; the log is filled to the last row and byte.
    #[test]
    fn level_one_papers_keep_to_their_rules() {
        let mut full = [0; 2];
        for seed in 0..200 {
            let mut played = play_level_one(seed);
            assert!(is_sound(&played.host.lend()));
            let record = played.host.record;
            assert_eq!((record.taken >> 4, record.escrow_rows), (0, 0));
            let rows = &played.host.log[..usize::from(record.log_rows)];
            for (n, row) in rows.iter().enumerate() {
                assert!(rows[..n].iter().all(|before| before.identity != row.identity));
            }
            full[0] += usize::from(usize::from(record.log_rows) == ROWS);
            full[1] += usize::from(usize::from(record.log_bytes) == VALUES_SIZE);
            assert!(played.script.len() < second::SCRIPT_MAX, "{}", played.script.len());
        }
        println!("{full:?}");
        assert!(full.iter().all(|&count| count > 2), "{full:?}");
    }

    /// Every sort that a level-one paper reaches comes often, and `second` answers
    /// what follows from the lines before.
    #[test]
    fn level_one_papers_have_each_sort() {
        let mut counted = LevelOne::default();
        for seed in 0..200 {
            let script = play_level_one(seed).script;
            assert!(counted.count(&script, &sheet_level_one(&script)), "seed {seed}");
        }
        println!("{counted}");
        assert!(counted.papers_above(10), "{counted}");
    }

    /// Most calls are accepted, whatever the style.
    #[test]
    fn most_calls_are_accepted() {
        for seed in 0..8 {
            let script = long_script(seed, 20_000);
            let sheet = String::from_utf8(sheet(&script)).expect("a sheet is ASCII");
            let lines = sheet.lines().count() - 1;
            let accepted = sheet.lines().filter(|line| line.starts_with("0 ")).count();
            println!("seed {seed}: {accepted} of {lines}");
            assert!(2 * accepted > lines);
        }
    }

    #[test]
    fn long_scripts_have_their_length() {
        for length in [0, 1, 1_000, 65_537] {
            assert_eq!(long_script(3, length).len(), length);
        }
    }
}

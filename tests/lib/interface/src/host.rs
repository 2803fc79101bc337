//! A host that lends guarded buffers, and the same box on both sides.

use second::{Answer, Profile, OUTPUT_SIZE};

use crate::declared::{
    self, call, call_lent, fresh, record_in, BoxRecord, EscrowRow, Lent, LogRow, Reply, Used,
    RECORD_WORDS,
};

/// So many elements before and behind a lent buffer must stand as they were.
const GUARD: usize = 4;

/// A lent buffer, between elements that are not lent.
#[derive(Clone, Debug, PartialEq, Eq)]
pub(crate) struct Guarded<T> {
    all: Vec<T>,
    guard: T,
}

impl<T: Copy + PartialEq> Guarded<T> {
    pub(crate) fn new(guard: T, elements: impl Iterator<Item = T>) -> Self {
        let mut all = vec![guard; GUARD];
        all.extend(elements);
        all.extend([guard; GUARD]);
        Guarded { all, guard }
    }

    pub(crate) fn lent(&self) -> &[T] {
        &self.all[GUARD..self.all.len() - GUARD]
    }

    pub(crate) fn lend(&mut self) -> &mut [T] {
        let end = self.all.len() - GUARD;
        &mut self.all[GUARD..end]
    }

    /// Zeros behind where it becomes longer.
    fn resize(&mut self, size: usize)
    where
        T: Default,
    {
        let resized = self.lent().iter().copied().chain(std::iter::repeat(T::default()));
        *self = Guarded::new(self.guard, resized.take(size));
    }

    pub(crate) fn guards_stand(&self) -> bool {
        let (before, behind) = (&self.all[..GUARD], &self.all[self.all.len() - GUARD..]);
        before.iter().chain(behind).all(|element| *element == self.guard)
    }
}

const BYTE: u8 = 0xA5;
const WORD: u64 = 0xA5A5_A5A5_A5A5_A5A5;
const LOG_ROW: LogRow = LogRow { identity: WORD, tag: WORD, first: 0xA5A5, length: 0xA5A5 };
const ESCROW_ROW: EscrowRow = EscrowRow {
    source: WORD,
    recipient: WORD,
    handle: WORD,
    first: 0xA5A5,
    length: 0xA5A5,
    mark: 0xA5,
};

/// The lent buffers, in the header's order.
#[derive(Clone, Copy, Debug)]
pub enum Buffer {
    Log,
    Escrow,
    Heaps,
    Shared,
    LogValues,
    EscrowValues,
    Output,
}

/// A box record and the buffers that its host lends for each call.
#[derive(Clone, Debug, PartialEq, Eq)]
pub struct Host {
    pub held: BoxRecord,
    log: Guarded<LogRow>,
    escrow: Guarded<EscrowRow>,
    heaps: Guarded<u8>,
    shared: Guarded<u8>,
    log_values: Guarded<u8>,
    escrow_values: Guarded<u8>,
    output: Guarded<u8>,
}

impl Host {
    /// A fresh box in buffers of their sizes, all zeros.
    pub fn fresh() -> Self {
        let host = Host::of(&second::Host::fresh(), &[0; OUTPUT_SIZE]);
        Host { held: fresh(), ..host }
    }

    /// The same box, in buffers of the same sizes.
    pub fn of(host: &second::Host, output: &[u8]) -> Self {
        let bytes = |bytes: &[u8]| Guarded::new(BYTE, bytes.iter().copied());
        Host {
            held: box_record(&host.record),
            log: Guarded::new(LOG_ROW, host.log.iter().map(log_row)),
            escrow: Guarded::new(ESCROW_ROW, host.escrow.iter().map(escrow_row)),
            heaps: bytes(&host.heaps),
            shared: bytes(&host.shared),
            log_values: bytes(&host.log_values),
            escrow_values: bytes(&host.escrow_values),
            output: bytes(output),
        }
    }

    /// One call through the C interface. The box record that comes back is kept.
    pub fn call(&mut self, record: &[u8]) -> Reply {
        self.call_under(Profile::Full, record)
    }

    /// As [`call`](Self::call), for a level-one paper.
    pub fn call_level_one(&mut self, record: &[u8]) -> Reply {
        self.call_under(Profile::LevelOne, record)
    }

    /// As [`call`](Self::call), through the profile's entry.
    pub fn call_under(&mut self, profile: Profile, record: &[u8]) -> Reply {
        let (held, lent) = self.lend();
        let reply = call(profile, *held, lent, record);
        self.held = reply.held;
        reply
    }

    /// As [`call`](Self::call), on the box record itself, which is lent.
    pub fn call_lent(&mut self, record: &[u8]) -> declared::Answer {
        let (held, lent) = self.lend();
        call_lent(held, lent, record)
    }

    /// As [`call_lent`](Self::call_lent), on a copy of the box record, which is kept. It
    /// is lent from between guards and with bytes in its padding: an error where the
    /// guards do not stand, or a refusal altered any byte of it.
    pub fn call_lent_guarded(&mut self, record: &[u8]) -> Result<declared::Answer, String> {
        let mut words = Guarded::new(WORD, [WORD; RECORD_WORDS].into_iter());
        let BoxRecord { taken, running, identities, log, escrow } = self.held;
        let held = record_in(words.lend());
        (held.taken, held.running, held.identities) = (taken, running, identities);
        (held.log, held.escrow) = (log, escrow);
        let before = words.clone();
        let answer = call_lent(record_in(words.lend()), self.lend().1, record);
        self.held = *record_in(words.lend());
        if !words.guards_stand() {
            return Err("memory beside the lent box record was altered".into());
        }
        if answer.code != 0 && words != before {
            return Err(format!("refusal {} altered the lent box record", answer.code));
        }
        Ok(answer)
    }

    /// All that it lends for a call, the box record apart.
    pub(crate) fn lend(&mut self) -> (&mut BoxRecord, Lent<'_>) {
        let lent = Lent {
            log: self.log.lend(),
            escrow: self.escrow.lend(),
            heaps: self.heaps.lend(),
            shared: self.shared.lend(),
            log_values: self.log_values.lend(),
            escrow_values: self.escrow_values.lend(),
            output: self.output.lend(),
        };
        (&mut self.held, lent)
    }

    /// Lends a buffer of another size from now on.
    pub fn resize(&mut self, buffer: Buffer, size: usize) {
        match buffer {
            Buffer::Log => self.log.resize(size),
            Buffer::Escrow => self.escrow.resize(size),
            Buffer::Heaps => self.heaps.resize(size),
            Buffer::Shared => self.shared.resize(size),
            Buffer::LogValues => self.log_values.resize(size),
            Buffer::EscrowValues => self.escrow_values.resize(size),
            Buffer::Output => self.output.resize(size),
        }
    }

    pub fn log(&mut self) -> &mut [LogRow] {
        self.log.lend()
    }

    pub fn escrow(&mut self) -> &mut [EscrowRow] {
        self.escrow.lend()
    }

    pub fn heaps(&mut self) -> &mut [u8] {
        self.heaps.lend()
    }

    pub fn shared(&mut self) -> &mut [u8] {
        self.shared.lend()
    }

    pub fn log_values(&mut self) -> &mut [u8] {
        self.log_values.lend()
    }

    pub fn escrow_values(&mut self) -> &mut [u8] {
        self.escrow_values.lend()
    }

    pub fn output(&mut self) -> &mut [u8] {
        self.output.lend()
    }

    /// The first part that is not as in the other box, if one isn't. A guard
    /// that was written to is such a part.
    pub(crate) fn differs(&self, host: &second::Host, output: &[u8]) -> Option<&'static str> {
        let parts = [
            ("the box record", self.held == box_record(&host.record)),
            ("the log's rows", self.log.lent().iter().copied().eq(host.log.iter().map(log_row))),
            (
                "the escrow's rows",
                self.escrow.lent().iter().copied().eq(host.escrow.iter().map(escrow_row)),
            ),
            ("the heaps", self.heaps.lent() == host.heaps),
            ("shared memory", self.shared.lent() == host.shared),
            ("the log's values", self.log_values.lent() == host.log_values),
            ("the escrow's values", self.escrow_values.lent() == host.escrow_values),
            ("the output buffer", self.output.lent() == output),
            ("memory beside a lent buffer", self.guards_stand()),
        ];
        parts.iter().find(|(_, same)| !same).map(|(part, _)| *part)
    }

    fn guards_stand(&self) -> bool {
        self.log.guards_stand()
            && self.escrow.guards_stand()
            && [&self.heaps, &self.shared, &self.log_values, &self.escrow_values, &self.output]
                .iter()
                .all(|buffer| buffer.guards_stand())
    }
}

fn box_record(record: &second::BoxRecord) -> BoxRecord {
    BoxRecord {
        taken: record.taken,
        running: record.running,
        identities: record.identities,
        log: Used { rows: record.log_rows, bytes: record.log_bytes },
        escrow: Used { rows: record.escrow_rows, bytes: record.escrow_bytes },
    }
}

fn log_row(row: &second::LogRow) -> LogRow {
    LogRow { identity: row.identity, tag: row.tag.0, first: row.first, length: row.length }
}

fn escrow_row(row: &second::EscrowRow) -> EscrowRow {
    let second::EscrowRow { source, recipient, handle, first, length, mark } = *row;
    EscrowRow { source, recipient, handle: handle.0, first, length, mark }
}

/// One box twice: on the C interface's side and on the side of `second`.
#[derive(Clone)]
pub struct Sides {
    pub host: Host,
    pub second: second::Host,
    pub output: Vec<u8>,
}

impl Sides {
    /// The output buffer holds `output` beforehand.
    pub fn new(second: second::Host, output: Vec<u8>) -> Self {
        Sides { host: Host::of(&second, &output), second, output }
    }

    /// One call on both sides, and on a copy of the box through the entry to which the
    /// box record is lent: the answer, or what was not the same. A refusal
    /// is held to have altered nothing, 1 to have a number other than 0 and the
    /// others to have 0, and none to be 5, which is retired.
    pub fn call(&mut self, record: &[u8]) -> Result<Answer, String> {
        self.call_under(Profile::Full, record)
    }

    /// As [`call`](Self::call), under a profile. Level one has no entry to which the
    /// box record is lent.
    pub fn call_under(&mut self, profile: Profile, record: &[u8]) -> Result<Answer, String> {
        let wanted = match profile {
            Profile::Full => self.second.call(&mut self.output, record),
            Profile::LevelOne => self.second.call_level_one(&mut self.output, record),
        };
        let before = (wanted.code != 0).then(|| self.host.clone());
        let lent = (profile == Profile::Full).then(|| self.host.clone());
        let reply = self.host.call_under(profile, record);
        let Reply { code, number, used, shown, .. } = reply;
        let answer = Answer { code, number, used, shown: usize::from(shown) };
        if answer != wanted {
            return Err(format!("the answer is {answer:?}, and second's {wanted:?}"));
        }
        if let Some(part) = self.host.differs(&self.second, &self.output) {
            return Err(format!("{part}: not as second has it, after code {code}"));
        }
        if before.map_or(false, |before| before != self.host) {
            return Err(format!("refusal {code} altered something"));
        }
        if code != 0 && (code == 1) != (number != 0) {
            return Err(format!("refusal {code} with number {number}"));
        }
        if code == 5 {
            return Err("refusal 5, which is retired".into());
        }
        if let Some(lent) = lent {
            self.answers_lent(lent, record, reply).map_err(|what| format!("lent: {what}"))?;
        }
        Ok(answer)
    }

    /// The entry to which the box record is lent answers this host as the entry by value
    /// answered, and leaves the record and the buffers as they are now.
    fn answers_lent(&self, mut host: Host, record: &[u8], reply: Reply) -> Result<(), String> {
        let answer = host.call_lent_guarded(record)?;
        let wanted = declared::Answer::from(reply);
        if answer != wanted {
            return Err(format!("the answer is {answer:?}, and by value {wanted:?}"));
        }
        if let Some(part) = host.differs(&self.second, &self.output) {
            return Err(format!("{part}: not as second has it, after code {}", answer.code));
        }
        Ok(())
    }

    /// One call on this box under each profile, each on both sides: the answers
    /// and what each leaves, or what was not the same. The profiles differ only
    /// where level one gives 21, 22 or 23, and the full box never gives these.
    pub fn call_both(&self, record: &[u8]) -> Result<Both, String> {
        let call = |profile| {
            let mut left = self.clone();
            let answer = left.call_under(profile, record);
            answer.map(|answer| (answer, left)).map_err(|what| format!("{profile:?}: {what}"))
        };
        let both = Both { full: call(Profile::Full)?, level_one: call(Profile::LevelOne)? };
        let ((full, full_left), (level_one, left)) = (&both.full, &both.level_one);
        let own = |answer: &Answer| matches!(answer.code, 21..=23);
        if own(full) {
            return Err(format!("the full box answers {full:?}"));
        }
        if own(level_one) && (level_one.used != full.used || full.used == 0) {
            return Err(format!("level one answers {level_one:?}, the full box {full:?}"));
        }
        if !own(level_one) && (level_one != full || left.host != full_left.host) {
            return Err(format!("level one does not do what the full box does: {level_one:?}"));
        }
        Ok(both)
    }
}

/// Under each profile: the answer, and the box as the call leaves it.
pub struct Both {
    pub full: (Answer, Sides),
    pub level_one: (Answer, Sides),
}

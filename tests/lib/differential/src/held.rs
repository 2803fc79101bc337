//! What the log and the escrow hold, read off a host's tables or off a script
//! and its sheet, and where a chain over it leads. No box follows a chain here.

use second::{read, Call, Host, Link, HEAPS_SIZE, HEAP_SIZE, NONE_RUNS, PLACES};

/// The most links that are followed.
const LINKS: usize = 16;

#[derive(Clone, Debug, PartialEq, Eq)]
pub struct Logged {
    pub identity: u64,
    pub tag: u64,
    pub value: Vec<u8>,
}

#[derive(Clone, Debug, PartialEq, Eq)]
pub struct Escrowed {
    pub source: u64,
    pub recipient: u64,
    pub handle: u64,
    /// None where the row is spent.
    pub value: Vec<u8>,
    /// The value was released.
    pub spent: bool,
}

impl Escrowed {
    /// The length that the handle carries, a spent row's too.
    pub fn length(&self) -> u16 {
        (self.handle >> 48) as u16
    }
}

/// The rows, each with its value.
#[derive(Clone, Debug, Default, PartialEq, Eq)]
pub struct Held {
    pub logged: Vec<Logged>,
    pub escrowed: Vec<Escrowed>,
}

impl Held {
    /// The used rows of a sound box.
    pub fn of(host: &Host) -> Self {
        let part = |values: &[u8], first: u16, length: u16| {
            values[usize::from(first)..][..usize::from(length)].to_vec()
        };
        let log = host.log[..usize::from(host.record.log_rows)].iter();
        let escrow = host.escrow[..usize::from(host.record.escrow_rows)].iter();
        Held {
            logged: log
                .map(|row| Logged {
                    identity: row.identity,
                    tag: row.tag.0,
                    value: part(&host.log_values, row.first, row.length),
                })
                .collect(),
            escrowed: escrow
                .map(|row| Escrowed {
                    source: row.source,
                    recipient: row.recipient,
                    handle: row.handle.0,
                    value: part(&host.escrow_values, row.first, row.length),
                    spent: row.mark == 1,
                })
                .collect(),
        }
    }

    /// The unspent row with all three.
    pub fn unspent(&self, handle: u64, source: u64, recipient: u64) -> Option<&Escrowed> {
        let wanted = (handle, source, recipient, false);
        let fits = |row: &&Escrowed| (row.handle, row.source, row.recipient, row.spent) == wanted;
        self.escrowed.iter().find(fits)
    }

    /// The row with this handle is spent. It stays, and its value is gone.
    pub fn release(&mut self, handle: u64) {
        let mut rows = self.escrowed.iter_mut();
        let row = rows.find(|row| row.handle == handle).expect("it was found");
        row.spent = true;
        row.value.clear();
    }

    /// Every row as a first link, of the escrow only those for `recipient`, spent ones
    /// too; whether its head is good or not.
    pub fn rows(&self, recipient: u64) -> Vec<Link> {
        self.first_links(recipient, |_| true)
    }

    /// Those with a good head. A spent row has none.
    pub fn links(&self, recipient: u64) -> Vec<Link> {
        self.first_links(recipient, |value| head(value).is_some())
    }

    fn first_links(&self, recipient: u64, holds: fn(&[u8]) -> bool) -> Vec<Link> {
        let logged = self.logged.iter().filter(|row| holds(&row.value));
        let escrowed = self.escrowed.iter().filter(|row| holds(&row.value));
        let mine = escrowed.filter(|row| row.recipient == recipient);
        let logged = logged.map(|row| Link { way: 2, identity: row.identity, number: row.tag });
        let mine = mine.map(|row| Link { way: 3, identity: row.source, number: row.handle });
        logged.chain(mine).collect()
    }

    /// The chain bytes that this chain wants, as far as it goes and at most one
    /// link beyond the sixteenth. For a logged link that isn't there they have a
    /// value all the same.
    pub fn bytes_for(&self, first: Link) -> Vec<u8> {
        let mut bytes = Vec::new();
        let mut next = Some(first);
        for _ in 0..=LINKS {
            let value = match next {
                Some(Link { way: 2, identity, number }) => {
                    let mut rows = self.logged.iter();
                    let row = rows.find(|row| row.identity == identity && row.tag == number);
                    let value = row.map(|row| &row.value);
                    bytes.extend(counted(value.map_or(&[1], |value| value)));
                    value
                }
                Some(Link { way: 3, identity, number }) => {
                    let mut rows = self.escrowed.iter();
                    let row = rows.find(|row| row.source == identity && row.handle == number);
                    row.map(|row| &row.value)
                }
                _ => None,
            };
            next = match value.and_then(|value| head(value)) {
                Some(Head::Next(link)) => Some(link),
                _ => None,
            };
        }
        bytes
    }

    /// How many links the chain has that begins here, where it is whole. One
    /// that is too long counts as sixteen.
    pub fn whole(&self, recipient: u64, first: Link) -> Option<usize> {
        let led = self.follow(recipient, first, &self.bytes_for(first));
        matches!(led.sort, Sort::Accepted | Sort::TooLong).then_some(led.links)
    }

    /// Where the chain leads that this service, or 0 for none, asks for.
    pub fn follow(&self, runner: u64, first: Link, bytes: &[u8]) -> Led {
        if runner == 0 {
            return Led { sort: Sort::NoneRuns, links: 0, ways: [false; 2] };
        }
        self.link(Walk { runner, followed: 0, ways: [false; 2] }, first, bytes)
    }

    fn link(&self, walk: Walk, link: Link, rest: &[u8]) -> Led {
        match link.way {
            _ if walk.followed == LINKS => walk.ends(Sort::TooLong),
            2 => self.logged_link(walk.by(0), link, rest),
            3 => self.escrowed_link(walk.by(1), link, rest),
            _ => walk.ends(Sort::Way),
        }
    }

    fn logged_link(&self, walk: Walk, link: Link, rest: &[u8]) -> Led {
        let (count, behind) = match *rest {
            [low, high, ref behind @ ..] => (usize::from(low) + 256 * usize::from(high), behind),
            _ => return walk.ends(Sort::CutCount),
        };
        if behind.len() < count {
            return walk.ends(Sort::CutContents);
        }
        let (value, behind) = behind.split_at(count);
        let wanted = Logged { identity: link.identity, tag: link.number, value: value.to_vec() };
        match link.identity {
            0 => walk.ends(Sort::ZeroLogged),
            _ if !self.logged.contains(&wanted) => walk.ends(Sort::UnknownLogged),
            _ => self.value(walk, value, behind, Sort::HeadLogged),
        }
    }

    fn escrowed_link(&self, walk: Walk, link: Link, rest: &[u8]) -> Led {
        let row = self.escrowed.iter().find(|row| {
            (row.source, row.recipient, row.handle) == (link.identity, walk.runner, link.number)
        });
        match row {
            _ if link.identity == 0 => walk.ends(Sort::ZeroEscrowed),
            None => walk.ends(Sort::UnknownEscrowed),
            Some(row) if row.spent => walk.ends(Sort::SpentEscrowed),
            Some(row) => self.value(walk, &row.value, rest, Sort::HeadEscrowed),
        }
    }

    fn value(&self, walk: Walk, value: &[u8], rest: &[u8], malformed: Sort) -> Led {
        match head(value) {
            None => walk.ends(malformed),
            Some(Head::Next(next)) => self.link(walk.on(), next, rest),
            Some(Head::End) if !rest.is_empty() => walk.on().ends(Sort::LeftOver),
            Some(Head::End) => walk.on().ends(Sort::Accepted),
        }
    }
}

/// What a chain has come to.
#[derive(Clone, Copy)]
struct Walk {
    runner: u64,
    followed: usize,
    /// Whether a logged link was among them, and an escrowed one.
    ways: [bool; 2],
}

impl Walk {
    fn by(mut self, way: usize) -> Self {
        self.ways[way] = true;
        self
    }

    /// One link more was found good.
    fn on(self) -> Self {
        Walk { followed: self.followed + 1, ..self }
    }

    fn ends(self, sort: Sort) -> Led {
        Led { sort, links: self.followed, ways: self.ways }
    }
}

/// What the front of a value says.
enum Head {
    End,
    Next(Link),
}

/// The head of a value, or none where it is malformed.
fn head(value: &[u8]) -> Option<Head> {
    match *value {
        [1, ..] => Some(Head::End),
        [way @ (2 | 3), ref behind @ ..] if behind.len() >= 16 => {
            let number = |bytes: &[u8]| bytes.iter().rev().fold(0, |n, &b| 256 * n + u64::from(b));
            let (identity, number) = (number(&behind[..8]), number(&behind[8..16]));
            Some(Head::Next(Link { way, identity, number }))
        }
        _ => None,
    }
}

/// A link value: it names the next link, or ends the chain; then the payload.
pub fn link_value(next: Option<Link>, payload: &[u8]) -> Vec<u8> {
    let mut value = vec![1];
    if let Some(Link { way, identity, number }) = next {
        value = vec![way];
        value.extend(identity.to_le_bytes());
        value.extend(number.to_le_bytes());
    }
    value.extend(payload);
    value
}

/// A value as the chain bytes have it, behind its 2-byte count.
pub fn counted(value: &[u8]) -> Vec<u8> {
    let count = u16::try_from(value.len()).expect("a value has at most 65,535 bytes");
    [&count.to_le_bytes(), value].concat()
}

/// How a chain ends.
#[derive(Clone, Copy, Debug, PartialEq, Eq)]
pub enum Sort {
    Accepted,
    NoneRuns,
    TooLong,
    Way,
    CutCount,
    CutContents,
    ZeroLogged,
    ZeroEscrowed,
    UnknownLogged,
    UnknownEscrowed,
    SpentEscrowed,
    HeadLogged,
    HeadEscrowed,
    LeftOver,
}

/// Where a chain leads.
#[derive(Clone, Copy, Debug, PartialEq, Eq)]
pub struct Led {
    pub sort: Sort,
    /// How many links were found good.
    pub links: usize,
    /// Whether a logged link was tried, and an escrowed one.
    pub ways: [bool; 2],
}

impl Led {
    pub fn code(&self) -> u8 {
        match self.sort {
            Sort::Accepted => 0,
            Sort::NoneRuns => 4,
            Sort::ZeroLogged | Sort::ZeroEscrowed => 9,
            Sort::UnknownLogged | Sort::UnknownEscrowed | Sort::SpentEscrowed => 18,
            Sort::Way | Sort::CutCount | Sort::CutContents => 19,
            Sort::HeadLogged | Sort::HeadEscrowed | Sort::LeftOver => 19,
            Sort::TooLong => 20,
        }
    }

    /// The answer's number.
    pub fn number(&self) -> u64 {
        match self.sort {
            Sort::Accepted => self.links as u64,
            _ => 0,
        }
    }
}

/// What a script leads to, as its records and its sheet tell: who runs, the
/// heaps, and what is held. Or what a host's tables tell.
pub struct Traced {
    pub(crate) places: [u64; PLACES],
    pub(crate) running: u8,
    heaps: Vec<u8>,
    pub held: Held,
}

impl Traced {
    /// A fresh box.
    pub fn fresh() -> Self {
        let held = Held::default();
        Traced { places: [0; PLACES], running: NONE_RUNS, heaps: vec![0; HEAPS_SIZE], held }
    }

    /// A sound box.
    pub fn of(host: &Host) -> Self {
        let second::BoxRecord { identities: places, running, .. } = host.record;
        Traced { places, running, heaps: host.heaps.clone(), held: Held::of(host) }
    }

    /// The running identity, or 0.
    pub fn runner(&self) -> u64 {
        self.places.get(usize::from(self.running)).copied().unwrap_or(0)
    }

    /// A part of the running heap, which is in it.
    pub fn value(&self, offset: u16, length: u16) -> Vec<u8> {
        let first = HEAP_SIZE * usize::from(self.running) + usize::from(offset);
        self.heaps[first..][..usize::from(length)].to_vec()
    }

    /// The same to write to.
    fn part(&mut self, offset: u16, length: usize) -> &mut [u8] {
        &mut self.heaps[HEAP_SIZE * usize::from(self.running) + usize::from(offset)..][..length]
    }

    /// A call that was accepted, with its number.
    pub fn accept(&mut self, record: &[u8], number: u64) {
        let (call, _) = read(record).expect("an accepted record is read");
        match call {
            Call::Create { place, identity } => self.places[usize::from(place)] = identity,
            Call::HandOver { place } => self.running = place,
            Call::Exit => {
                self.part(0, HEAP_SIZE).fill(0);
                self.places[usize::from(self.running)] = 0;
                self.running = NONE_RUNS;
            }
            Call::HeapWrite { offset, bytes, .. } => {
                self.part(offset, bytes.len()).copy_from_slice(bytes);
            }
            Call::Attest { offset, length } => {
                let value = self.part(offset, length.into()).to_vec();
                let logged = Logged { identity: self.runner(), tag: number, value };
                if !self.held.logged.contains(&logged) {
                    self.held.logged.push(logged);
                }
            }
            Call::Protect { identity, offset, length, .. } => {
                let value = self.part(offset, length.into()).to_vec();
                let row = Escrowed {
                    source: self.runner(),
                    recipient: identity,
                    handle: number,
                    value,
                    spent: false,
                };
                self.held.escrowed.push(row);
            }
            Call::Retrieve { offset, handle, .. } => {
                let mut rows = self.held.escrowed.iter();
                let row = rows.find(|row| row.handle == handle.0).expect("it was found");
                let value = row.value.clone();
                self.part(offset, value.len()).copy_from_slice(&value);
            }
            Call::Release { handle, .. } => self.held.release(handle.0),
            _ => {}
        }
    }
}

//! Chains of custody, kind 15. Every link's value is put into the log or the
//! escrow, from the chain's end on, and each sheet is computed from what was put.

use second::{tag_of, Call, Link, NONE_RUNS};

use super::hand_overs::written;
use super::{first_fault, handle, three_services};
use crate::calls::{
    attest, chain, check, create, hand_over, heap_read, heap_write, protect, retrieve,
};
use crate::case::Case;
use crate::draws::next;
use crate::held::{counted, link_value};

/// The ways of a link.
const LOGGED: u8 = 2;
const ESCROWED: u8 = 3;
const WAYS: [u8; 2] = [LOGGED, ESCROWED];

/// The service that asks for the chain, in place 0.
const READER: u64 = 1;

pub fn cases() -> Vec<Case> {
    let mut cases = accepted();
    cases.extend(payloads());
    cases.extend(faults());
    cases.extend(seventeenth());
    cases.extend(cut_in_the_bytes());
    cases.extend(later_faults());
    cases.extend(heads());
    cases.extend(left_over());
    cases.extend(rings());
    cases.extend(escrowed_for_another());
    cases.extend([
        first_ways(),
        none_runs(),
        none_runs_of_a_fresh_box(),
        checked_links(),
        looked_up_links(),
        long_values(),
        each_table_is_its_own(),
        alike_values(),
        wide_identities(),
        another_place_of_the_reader(),
        after_the_sources_left(),
        whoever_runs(),
        last_rows(),
        nothing_is_altered(),
        by_hand(),
    ]);
    cases
}

/// A chain that is put link by link, its last link first. Identities 1, 2 and 3
/// are in places 0, 1 and 2 and put in turn; escrowed values are for identity 1.
#[derive(Clone)]
struct Chain {
    case: Case,
    /// The link put last: where the chain begins so far.
    first: Link,
    /// The logged values of the chain so far, each behind its count.
    bytes: Vec<u8>,
    rows: [u64; 2],
    /// The front of place 0's heap.
    heap: Vec<u8>,
}

impl Chain {
    fn new(name: impl Into<String>) -> Self {
        let mut case = three_services("");
        case.name = name.into();
        let first = Link { way: 0, identity: 0, number: 0 };
        Chain { case, first, bytes: Vec::new(), rows: [0; 2], heap: Vec::new() }
    }

    /// So many links, by these ways in turn, the last of them an end.
    fn of(name: impl Into<String>, ways: &[u8], links: usize) -> Self {
        let mut chain = Chain::new(name);
        chain.put(ways[(links - 1) % ways.len()], &[1]);
        chain.lengthen(ways, links - 1);
        chain
    }

    /// So many links in front of the chain, by these ways in turn.
    fn lengthen(&mut self, ways: &[u8], links: usize) {
        for n in (0..links).rev() {
            self.link(ways[n % ways.len()], &[]);
        }
    }

    /// A link in front of the chain: it names the first one so far.
    fn link(&mut self, way: u8, payload: &[u8]) {
        self.put(way, &link_value(Some(self.first), payload));
    }

    /// This value, whatever it is, as the first link.
    fn put(&mut self, way: u8, value: &[u8]) {
        self.put_for(READER, way, value);
    }

    fn put_for(&mut self, recipient: u64, way: u8, value: &[u8]) {
        let [logged, escrowed] = self.rows;
        let place = ((logged + escrowed) % 3) as u8;
        let (identity, length) = (u64::from(place) + 1, value.len() as u16);
        self.case.accept(0, hand_over(place));
        self.case.accept(u64::from(length), heap_write(place, 0, value));
        let number = if way == LOGGED {
            let tag = tag_of(identity, value).0;
            self.case.accept(tag, attest(0, length));
            self.bytes = [counted(value), self.bytes.clone()].concat();
            self.rows[0] += 1;
            tag
        } else {
            let (handle, draw) = (handle(length, 100 + escrowed), 100 + escrowed);
            self.case.accept(handle, protect(recipient, 0, length, draw));
            self.rows[1] += 1;
            handle
        };
        if place == 0 {
            let old = self.heap.get(value.len()..).unwrap_or_default();
            self.heap = [value, old].concat();
        }
        self.case.accept(0, hand_over(0));
        self.first = Link { way, identity, number };
    }

    /// The chain call, and then that nothing was altered by it.
    fn answered(&mut self, code: u8, links: u64) {
        let Link { way, identity, number } = self.first;
        self.case.answer(code, links, chain(way, identity, number, &self.bytes));
        self.unaltered();
    }

    fn unaltered(&mut self) {
        let [logged, escrowed] = self.rows;
        self.case.accept(3 + 256 * logged + 65_536 * escrowed, Call::Report);
        self.case.show(&self.heap, heap_read(0, 0, self.heap.len() as u16));
    }

    /// Calls with these bytes instead.
    fn with_bytes(&mut self, code: u8, links: u64, bytes: &[u8]) {
        let Link { way, identity, number } = self.first;
        self.case.answer(code, links, chain(way, identity, number, bytes));
    }
}

/// The ways of a chain's links, in turn: all logged, all escrowed, alternating
/// from either, and mixed.
const PATTERNS: [(&str, &[u8]); 6] = [
    ("logged", &[2]),
    ("escrowed", &[3]),
    ("alternating from logged", &[2, 3]),
    ("alternating from escrowed", &[3, 2]),
    ("mixed from logged", &[2, 2, 3, 2, 3, 3, 3]),
    ("mixed from escrowed", &[3, 3, 2, 2, 2]),
];

/// Chains of 1 to 16 links. A seventeenth link, whichever, is 20.
fn accepted() -> Vec<Case> {
    let mut cases = Vec::new();
    for (pattern, ways) in PATTERNS {
        for links in 1..=20 {
            let mut chain = Chain::of(format!("a chain of {links} links, {pattern}"), ways, links);
            chain.answered(if links > 16 { 20 } else { 0 }, links as u64);
            cases.push(chain.case);
        }
    }
    cases
}

/// Values of 17 to 256 bytes, ends of 1 to 256. What stands behind a head doesn't
/// matter. Sixteen links of 256 bytes fill the log, or the escrow.
fn payloads() -> Vec<Case> {
    let mut cases = Vec::new();
    for (pattern, ways) in PATTERNS {
        for length in [0, 1, 2, 16, 17, 100, 238, 239] {
            for byte in [0, 1, 2, 3, 255] {
                let name = format!("payloads of {length} times {byte}, {pattern}");
                let mut chain = Chain::new(name);
                let payload = vec![byte; length];
                let end = if length == 239 { vec![byte; 255] } else { payload.clone() };
                chain.put(ways[15 % ways.len()], &link_value(None, &end));
                for n in (0..15).rev() {
                    chain.link(ways[n % ways.len()], &payload);
                }
                chain.answered(0, 16);
                cases.push(chain.case);
            }
        }
    }
    cases
}

/// The values of the last links with a head that is malformed.
const MALFORMED: [&[u8]; 11] = [
    &[4],
    &[],
    &[0],
    &[255],
    &[2],
    &[3],
    &[2, 1, 0, 0, 0, 0, 0, 0, 0, 9, 9, 9, 9, 9, 9, 9],
    &[3, 1, 0, 0, 0, 0, 0, 0, 0, 9, 9, 9, 9, 9, 9, 9],
    &[0, 1, 0, 0, 0, 0, 0, 0, 0, 9, 9, 9, 9, 9, 9, 9, 9],
    &[4, 1, 0, 0, 0, 0, 0, 0, 0, 9, 9, 9, 9, 9, 9, 9, 9],
    &[254, 1, 0, 0, 0, 0, 0, 0, 0, 9, 9, 9, 9, 9, 9, 9, 9],
];

/// What is wrong with one link.
#[derive(Clone, Copy, Debug)]
struct Faults {
    /// Its logged value is cut in the chain bytes behind so many of its bytes and
    /// of its count's.
    cut: Option<usize>,
    identity_0: bool,
    /// Its number is another one.
    unknown: bool,
    malformed: Option<&'static [u8]>,
}

impl Faults {
    /// Each set of them, with a cut in the count and in the contents. An escrowed
    /// link isn't cut.
    fn all(way: u8) -> Vec<Faults> {
        let cuts: &[_] = if way == LOGGED { &[None, Some(0), Some(1), Some(2)] } else { &[None] };
        let mut all = Vec::new();
        for &cut in cuts {
            for identity_0 in [false, true] {
                for unknown in [false, true] {
                    for malformed in [None, Some(MALFORMED[0])] {
                        all.push(Faults { cut, identity_0, unknown, malformed });
                    }
                }
            }
        }
        let whole = Faults { cut: None, identity_0: false, unknown: false, malformed: None };
        let others = MALFORMED.iter().skip(1);
        all.extend(others.map(|&value| Faults { malformed: Some(value), ..whole }));
        all
    }

    /// A chain that so far has this one link, and ends with it.
    fn link(&self, name: String, way: u8) -> Chain {
        let mut chain = Chain::new(name);
        chain.put(way, self.malformed.unwrap_or(&[1]));
        chain.bytes.truncate(self.cut.unwrap_or(chain.bytes.len()));
        if self.identity_0 {
            chain.first.identity = 0;
        }
        if self.unknown {
            chain.first.number ^= 1;
        }
        chain
    }

    fn code(&self, links_before: usize) -> u8 {
        first_fault(&[
            (20, links_before == 16),
            (19, self.cut.is_some()),
            (9, self.identity_0),
            (18, self.unknown),
            (19, self.malformed.is_some()),
        ])
    }
}

/// Every set of faults at the first link, the second, the fifteenth, the sixteenth
/// and the seventeenth, by each way, behind links of each pattern.
fn faults() -> Vec<Case> {
    let mut cases = Vec::new();
    for way in WAYS {
        for faults in Faults::all(way) {
            for (pattern, ways) in &PATTERNS[..4] {
                for before in [0, 1, 14, 15, 16] {
                    // Without a link before it the pattern doesn't matter.
                    if before == 0 && *ways != [LOGGED] {
                        continue;
                    }
                    let name = format!("{faults:?} of way {way} behind {before}, {pattern}");
                    let mut chain = faults.link(name, way);
                    chain.lengthen(ways, before);
                    chain.answered(faults.code(before), before as u64 + 1);
                    cases.push(chain.case);
                }
            }
        }
    }
    cases
}

/// Sixteen links, and a seventeenth that is good and is followed by nothing, by
/// bytes or by links: 20.
fn seventeenth() -> Vec<Case> {
    let mut cases = Vec::new();
    for (pattern, ways) in PATTERNS {
        let mut chain = Chain::of(format!("seventeen links, {pattern}, any bytes"), ways, 17);
        let bytes = chain.bytes.clone();
        chain.answered(20, 0);
        for more in [&b"\0"[..], b"\0\0", b"\x01\0\x01", b"\xFF\xFF"] {
            chain.with_bytes(20, 0, &[&bytes, more].concat());
        }
        // Where the seventeenth is logged its value may be cut or not there at all.
        if ways[16 % ways.len()] == LOGGED {
            for cut in 1..=3 {
                chain.with_bytes(20, 0, &bytes[..bytes.len() - cut]);
            }
        }
        chain.unaltered();
        cases.push(chain.case);
    }
    cases
}

/// The chain bytes of sixteen links cut at every byte: 19, wherever it is.
fn cut_in_the_bytes() -> Vec<Case> {
    let mut cases = Vec::new();
    for (pattern, ways) in PATTERNS {
        let mut chain = Chain::of(format!("chain bytes cut everywhere, {pattern}"), ways, 16);
        let bytes = chain.bytes.clone();
        for end in 0..bytes.len() {
            chain.with_bytes(19, 0, &bytes[..end]);
        }
        chain.answered(0, 16);
        cases.push(chain.case);
    }
    cases
}

/// A fault at a link, and another at the next one: the first is given.
fn later_faults() -> Vec<Case> {
    let mut cases = Vec::new();
    let all = |way| Faults::all(way).into_iter().filter(|faults| faults.cut.is_none()).take(8);
    for ways in [[2, 2], [2, 3], [3, 2], [3, 3]] {
        for later in Faults::all(ways[1]) {
            for (n, earlier) in all(ways[0]).enumerate() {
                if earlier.malformed.is_some() || n == 0 {
                    continue;
                }
                let name = format!("{earlier:?} before {later:?}, ways {ways:?}");
                let mut chain = later.link(name, ways[1]);
                chain.link(ways[0], &[]);
                if earlier.identity_0 {
                    chain.first.identity = 0;
                }
                if earlier.unknown {
                    chain.first.number ^= 1 << 47;
                }
                chain.answered(earlier.code(0), 0);
                cases.push(chain.case);
            }
        }
    }
    cases
}

/// Every first byte of a value, with 0, 1, 15, 16 and 17 bytes behind it that name
/// a link of identity 0: 9 where it is named at all.
fn heads() -> Vec<Case> {
    let firsts: Vec<u8> = (0..=255).collect();
    let mut cases = Vec::new();
    for way in WAYS {
        for behind in [0, 1, 8, 15, 16, 17, 255] {
            // As many as a table has room for.
            let few = if behind == 255 { 16 } else { 64 };
            cases.extend(firsts.chunks(few).map(|firsts| heads_of(way, behind, firsts)));
        }
    }
    cases
}

fn heads_of(way: u8, behind: usize, firsts: &[u8]) -> Case {
    let name = format!("heads from {} with {behind} behind, way {way}", firsts[0]);
    let mut chain = Chain::new(name);
    for &first in firsts {
        let value = [&[first][..], &vec![0; behind]].concat();
        chain.bytes.clear();
        chain.put(way, &value);
        let code = match first {
            1 => 0,
            2 | 3 if behind >= 16 => 9,
            _ => 19,
        };
        // The next link, where it is logged, has a value in the bytes.
        if first == 2 {
            chain.bytes.extend(counted(&[1]));
            let code = if behind >= 16 { 9 } else { 19 };
            chain.answered(code, 0);
            continue;
        }
        chain.answered(code, 1);
    }
    chain.case
}

/// Bytes behind the last logged value: 19, whatever they are. The end itself is
/// good, so without them the chain is accepted.
fn left_over() -> Vec<Case> {
    let mut cases = Vec::new();
    for (pattern, ways) in PATTERNS {
        for links in [1, 2, 3, 15, 16] {
            let name = format!("bytes left over behind {links} links, {pattern}");
            let mut chain = Chain::of(name, ways, links);
            let bytes = chain.bytes.clone();
            let more: [&[u8]; 7] =
                [b"\0", b"\x01", b"\0\0", b"\x01\0", b"\x01\0\x01", b"\xFF\xFF", &bytes];
            for more in more.iter().filter(|more| !more.is_empty()) {
                chain.with_bytes(19, 0, &[&bytes, *more].concat());
            }
            chain.answered(0, links as u64);
            cases.push(chain.case);
        }
    }
    cases
}

/// Chains that come back on themselves, by a handle told ahead. They run on to
/// 20, or to 19 where the bytes end before that.
fn rings() -> Vec<Case> {
    let mut cases = vec![own_handle(17), own_handle(256), own_handle(100)];
    cases.push(each_other());
    cases.push(ring_of_three());
    cases
}

/// An escrowed value that names its own handle.
fn own_handle(length: u16) -> Case {
    let mut case = three_services(&format!("a value of {length} bytes names its own handle"));
    let own = handle(length, 5);
    let link = Link { way: ESCROWED, identity: 1, number: own };
    let value = link_value(Some(link), &vec![7; usize::from(length) - 17]);
    case.accept(length.into(), heap_write(0, 0, &value));
    case.accept(own, protect(1, 0, length, 5));
    for bytes in [&b""[..], b"\0", b"\x01\0\x01"] {
        case.refuse(20, chain(ESCROWED, 1, own, bytes));
    }
    case.refuse(18, chain(ESCROWED, 2, own, b""));
    case.accept(0, hand_over(1));
    case.refuse(18, chain(ESCROWED, 1, own, b""));
    case.accept(3 + 65_536, Call::Report);
    case
}

/// A logged and an escrowed value that name each other. The logged one stands in
/// the bytes at each turn.
fn each_other() -> Case {
    let mut case = three_services("a logged and an escrowed value name each other");
    let escrowed = Link { way: ESCROWED, identity: 1, number: handle(17, 9) };
    let value = link_value(Some(escrowed), &[]);
    let logged = Link { way: LOGGED, identity: 1, number: tag_of(1, &value).0 };
    case.accept(17, heap_write(0, 0, &value));
    case.accept(logged.number, attest(0, 17));
    case.accept(17, heap_write(0, 0, &link_value(Some(logged), &[])));
    case.accept(escrowed.number, protect(1, 0, 17, 9));
    for turns in 0..12 {
        let bytes = counted(&value).repeat(turns);
        let code = if turns < 8 { 19 } else { 20 };
        case.refuse(code, chain(LOGGED, 1, logged.number, &bytes));
        case.refuse(code, chain(ESCROWED, 1, escrowed.number, &bytes));
        // One byte more, and one fewer.
        let more = [&bytes[..], b"\0"].concat();
        case.refuse(code, chain(ESCROWED, 1, escrowed.number, &more));
        if turns > 0 {
            let code = if turns < 9 { 19 } else { 20 };
            let fewer = &bytes[..bytes.len() - 1];
            case.refuse(code, chain(LOGGED, 1, logged.number, fewer));
        }
    }
    case.accept(3 + 256 + 65_536, Call::Report);
    case
}

/// Two escrowed values and one logged, one after the other.
fn ring_of_three() -> Case {
    let mut case = three_services("a ring of three");
    let third = Link { way: ESCROWED, identity: 1, number: handle(17, 9) };
    let logged = link_value(Some(third), &[]);
    let second = Link { way: LOGGED, identity: 1, number: tag_of(1, &logged).0 };
    let first = Link { way: ESCROWED, identity: 1, number: handle(17, 8) };
    case.accept(17, heap_write(0, 0, &logged));
    case.accept(second.number, attest(0, 17));
    case.accept(17, heap_write(0, 0, &link_value(Some(second), &[])));
    case.accept(first.number, protect(1, 0, 17, 8));
    case.accept(17, heap_write(0, 0, &link_value(Some(first), &[])));
    case.accept(third.number, protect(1, 0, 17, 9));
    for turns in 0..8 {
        let bytes = counted(&logged).repeat(turns);
        // Of sixteen links from the first on the logged ones are 2, 5, 8, 11 and
        // 14; from the second on they are 1, 4, 7, 10, 13 and 16.
        let codes = [turns < 5, turns < 6, turns < 5].map(|few| if few { 19 } else { 20 });
        for (link, code) in [first, second, third].into_iter().zip(codes) {
            case.refuse(code, chain(link.way, link.identity, link.number, &bytes));
        }
    }
    case
}

/// The link at the end is escrowed for another service: 18, and accepted for that
/// one where it is the only escrowed one.
fn escrowed_for_another() -> Vec<Case> {
    let mut cases = Vec::new();
    for before in [0, 1, 2, 15] {
        let name = format!("escrowed for another, {before} logged links before");
        let mut chain = Chain::new(name);
        chain.put_for(2, ESCROWED, &[1]);
        chain.lengthen(&[LOGGED], before);
        chain.answered(18, 0);
        chain.case.accept(0, hand_over(2));
        let bytes = chain.bytes.clone();
        chain.with_bytes(18, 0, &bytes);
        chain.case.accept(0, hand_over(1));
        chain.with_bytes(0, before as u64 + 1, &bytes);
        chain.with_bytes(19, 0, &[&bytes[..], b"\0"].concat());
        cases.push(chain.case);
    }
    cases
}

/// Every byte in the place field, with a good and with a zero identity, and with
/// bytes that fit and none. 19 comes before 9.
fn first_ways() -> Case {
    let mut logged = Chain::of("every first way", &[LOGGED], 1);
    let bytes = logged.bytes.clone();
    let tag = logged.first.number;
    logged.put(ESCROWED, &[1]);
    let Chain { mut case, first: Link { number: handle, .. }, .. } = logged;
    for way in 0..=255 {
        for identity in [0, 1, 2] {
            let (number, source) = if way == ESCROWED { (handle, 2) } else { (tag, 1) };
            for bytes in [&bytes[..], b""] {
                let cut = way == LOGGED && bytes.is_empty();
                let left_over = way == ESCROWED && !bytes.is_empty();
                let faults = [
                    (19, ![2, 3].contains(&way) || cut),
                    (9, identity == 0),
                    (18, identity != source),
                    (19, left_over),
                ];
                case.answer(first_fault(&faults), 1, chain(way, identity, number, bytes));
            }
        }
    }
    case
}

/// 4 comes first, whatever the chain is.
fn none_runs() -> Case {
    let mut chained = Chain::of("a chain while none runs", &[LOGGED], 17);
    let bytes = chained.bytes.clone();
    chained.answered(20, 0);
    chained.put(ESCROWED, &[1]);
    let (Link { number, .. }, mut case) = (chained.first, chained.case);
    case.accept(1, chain(ESCROWED, 3, number, b""));
    case.accept(0, hand_over(NONE_RUNS));
    for way in [0, 1, 2, 3, 4, 255] {
        for identity in [0, 1, 2, 3] {
            for bytes in [&bytes[..], &bytes[..30], b"", b"\0"] {
                case.refuse(4, chain(way, identity, number, bytes));
            }
        }
    }
    case.accept(0, hand_over(0));
    case.accept(1, chain(ESCROWED, 3, number, b""));
    case
}

fn none_runs_of_a_fresh_box() -> Case {
    let mut case = Case::new("a chain on a fresh box");
    for way in [0, 1, 2, 3, 4] {
        case.refuse(4, chain(way, 0, 0, b""));
        case.refuse(4, chain(way, 1, 7, b"\x01\0\x01"));
    }
    case.accept(0, create(0, 1));
    case.refuse(4, chain(3, 1, 7, b""));
    case.accept(0, hand_over(0));
    case.refuse(18, chain(3, 1, 7, b""));
    case.refuse(18, chain(3, 1, 0, b""));
    case.refuse(18, chain(2, 1, tag_of(1, b"\x01").0, b"\x01\0\x01"));
    case.refuse(18, chain(2, 1, tag_of(1, b"").0, b"\0\0"));
    case.refuse(18, chain(2, 1, 0, b"\0\0"));
    case.accept(0, Call::Exit);
    case.refuse(4, chain(3, 1, 7, b""));
    case
}

/// A logged link wants identity, tag and value, and that it was logged.
fn checked_links() -> Case {
    let mut case = three_services("a logged link is checked");
    let value = b"\x01 a recipe";
    let (tag, bytes) = (tag_of(1, value).0, counted(value));
    case.refuse(18, chain(LOGGED, 1, tag, &bytes));
    case.accept(10, heap_write(0, 0, value));
    case.refuse(18, chain(LOGGED, 1, tag, &bytes));
    case.accept(tag, attest(0, 10));
    case.accept(1, chain(LOGGED, 1, tag, &bytes));
    for bit in 0..64 {
        case.refuse(18, chain(LOGGED, 1, tag ^ (1 << bit), &bytes));
    }
    case.refuse(18, chain(LOGGED, 1, tag.swap_bytes(), &bytes));
    for other in [&b"\x01"[..], b"\x01 a recipf", b"\x01 a recip", b"\x01 a recipe\0", b"", b"\x02"]
    {
        let other_bytes = counted(other);
        case.refuse(18, chain(LOGGED, 1, tag, &other_bytes));
        case.refuse(18, chain(LOGGED, 1, tag_of(1, other).0, &other_bytes));
    }
    for identity in [2, 3, u64::MAX, 1 << 56] {
        case.refuse(18, chain(LOGGED, identity, tag, &bytes));
        case.refuse(18, chain(LOGGED, identity, tag_of(identity, value).0, &bytes));
    }
    case.accept(1, check(1, tag, value));
    case.accept(3 + 256, Call::Report);
    case
}

/// An escrowed link wants handle, source and recipient.
fn looked_up_links() -> Case {
    let mut case = three_services("an escrowed link is looked up");
    let given = handle(6, 7);
    case.accept(6, heap_write(0, 10, b"\x01 end."));
    case.accept(given, protect(2, 10, 6, 7));
    for place in [0, 2] {
        case.accept(0, hand_over(place));
        for source in [1, 2, 3] {
            case.refuse(18, chain(ESCROWED, source, given, b""));
        }
    }
    case.accept(0, hand_over(1));
    case.accept(1, chain(ESCROWED, 1, given, b""));
    for source in [2, 3, 99, u64::MAX, 1 << 56] {
        case.refuse(18, chain(ESCROWED, source, given, b""));
    }
    case.refuse(9, chain(ESCROWED, 0, given, b""));
    let next = handle(6, next(7));
    for wrong in [given + 1, given - 1, next, 7, handle(5, 7), handle(7, 7), 0, u64::MAX] {
        case.refuse(18, chain(ESCROWED, 1, wrong, b""));
    }
    case.refuse(18, chain(ESCROWED, 1, given.swap_bytes(), b""));
    case.accept(6, retrieve(1, 0, given));
    case.accept(3 + 65_536, Call::Report);
    case
}

/// A value in the bytes of more than 256: the check is no, though its front was
/// logged, and though the tag is right.
fn long_values() -> Case {
    let mut case = three_services("long values in a chain's bytes");
    let value: Vec<u8> = [1, 1].into_iter().chain(2..=255).chain([9; 4_000]).collect();
    let tag = tag_of(1, &value[..256]).0;
    case.accept(256, heap_write(0, 0, &value[..256]));
    case.accept(tag, attest(0, 256));
    case.accept(tag_of(1, &value[..1]).0, attest(0, 1));
    case.accept(1, chain(LOGGED, 1, tag, &counted(&value[..256])));
    case.accept(1, chain(LOGGED, 1, tag_of(1, &[1]).0, &counted(&[1])));
    for count in [255, 257, 258, 300, 512, 513, 1_024, 4_000] {
        let bytes = counted(&value[..count]);
        case.refuse(18, chain(LOGGED, 1, tag, &bytes));
        case.refuse(18, chain(LOGGED, 1, tag_of(1, &value[..count]).0, &bytes));
        case.refuse(9, chain(LOGGED, 0, tag, &bytes));
        // Cut, it is 19 before it is checked.
        case.refuse(19, chain(LOGGED, 1, tag, &bytes[..bytes.len() - 1]));
        case.refuse(19, chain(LOGGED, 0, tag, &bytes[..bytes.len() - 1]));
    }
    // A count of 1 and of 256, by each of its bytes.
    case.refuse(19, chain(LOGGED, 1, tag_of(1, &[1]).0, b"\0\x01\x01"));
    let swapped = [b"\x01\0", &value[..256]].concat();
    case.refuse(18, chain(LOGGED, 1, tag, &swapped));
    case.refuse(19, chain(LOGGED, 1, tag_of(1, &[1]).0, &swapped));
    case
}

/// What is logged isn't escrowed, and the other way about, though a number and a
/// value are the same.
fn each_table_is_its_own() -> Case {
    let mut case = three_services("each table is its own");
    let tag = tag_of(1, &[1]).0;
    case.accept(1, heap_write(0, 0, &[1]));
    case.accept(tag, attest(0, 1));
    case.refuse(18, chain(ESCROWED, 1, tag, b""));
    case.refuse(18, chain(ESCROWED, 1, tag, b"\x01\0\x01"));
    case.accept(2, heap_write(0, 0, &[1, 5]));
    case.accept(handle(2, 3), protect(1, 0, 2, 3));
    case.refuse(18, chain(LOGGED, 1, handle(2, 3), b"\x02\0\x01\x05"));
    case.refuse(18, chain(LOGGED, 1, tag_of(1, &[1, 5]).0, b"\x02\0\x01\x05"));
    case.accept(1, chain(LOGGED, 1, tag, b"\x01\0\x01"));
    case.accept(1, chain(ESCROWED, 1, handle(2, 3), b""));
    // Each names the other by the wrong way.
    let wrong = |way, number| link_value(Some(Link { way, identity: 1, number }), &[]);
    for (draw, value) in [wrong(ESCROWED, tag), wrong(LOGGED, handle(2, 3))].iter().enumerate() {
        let number = handle(17, draw as u64);
        case.accept(17, heap_write(0, 0, value));
        case.accept(number, protect(1, 0, 17, draw as u64));
        case.refuse(18, chain(ESCROWED, 1, number, b"\x02\0\x01\x05"));
        case.refuse([18, 19][draw], chain(ESCROWED, 1, number, b""));
    }
    case
}

/// One value logged by each of three services, and escrowed by each for each: the
/// link that is named is the one that is followed.
fn alike_values() -> Case {
    let mut case = three_services("one value of three services");
    let value = [1, 42];
    for place in 0..3 {
        let identity = u64::from(place) + 1;
        case.accept(0, hand_over(place));
        case.accept(2, heap_write(place, 0, &value));
        case.accept(tag_of(identity, &value).0, attest(0, 2));
        for recipient in 1..=3 {
            let draw = 10 * identity + recipient;
            case.accept(handle(2, draw), protect(recipient, 0, 2, draw));
        }
    }
    for place in 0..3 {
        case.accept(0, hand_over(place));
        for identity in 1..=3 {
            for other in 1..=3 {
                let code = if identity == other { 0 } else { 18 };
                let (tag, bytes) = (tag_of(other, &value).0, counted(&value));
                case.answer(code, 1, chain(LOGGED, identity, tag, &bytes));
                for recipient in 1..=3 {
                    let mine = identity == other && recipient == u64::from(place) + 1;
                    let number = handle(2, 10 * other + recipient);
                    let code = if mine { 0 } else { 18 };
                    case.answer(code, 1, chain(ESCROWED, identity, number, b""));
                }
            }
        }
    }
    case
}

/// An identity with eight different bytes, which stands in the call and in a link
/// value: each of its bytes counts, and each of the number's.
fn wide_identities() -> Case {
    let mut case = Case::new("wide identities in a chain");
    let identity = 0x8877_6655_4433_2211;
    case.accept(4, create(4, identity));
    case.accept(0, hand_over(4));
    let value = [&[1][..], &[9; 255]].concat();
    let bytes = counted(&value);
    case.accept(256, heap_write(4, 0, &value));
    case.accept(tag_of(identity, &value).0, attest(0, 256));
    let draw = 0x6655_4433_2211;
    case.accept(handle(256, draw), protect(identity, 0, 256, draw));
    let logged = Link { way: LOGGED, identity, number: tag_of(identity, &value).0 };
    let escrowed = Link { way: ESCROWED, identity, number: handle(256, draw) };
    for (n, (link, bytes)) in [(logged, &bytes[..]), (escrowed, b"")].into_iter().enumerate() {
        let Link { way, identity, number } = link;
        case.accept(1, chain(way, identity, number, bytes));
        for byte in 0..8 {
            let flipped = 0x40 << (8 * byte);
            case.refuse(18, chain(way, identity ^ flipped, number, bytes));
            case.refuse(18, chain(way, identity, number ^ flipped, bytes));
            let wrong = Link { identity: identity ^ flipped, ..link };
            named(&mut case, 100 * n as u64 + byte, (18, wrong), bytes);
            let wrong = Link { number: number ^ flipped, ..link };
            named(&mut case, 100 * n as u64 + 10 + byte, (18, wrong), bytes);
        }
        named(&mut case, 100 * n as u64 + 20, (0, link), bytes);
    }
    case
}

/// An escrowed value in place 4, for its identity, that names the link: the code of
/// a chain of both.
fn named(case: &mut Case, draw: u64, (code, link): (u8, Link), bytes: &[u8]) {
    let number = handle(17, draw);
    case.accept(17, heap_write(4, 0, &link_value(Some(link), &[])));
    case.accept(number, protect(0x8877_6655_4433_2211, 0, 17, draw));
    case.answer(code, 2, chain(ESCROWED, 0x8877_6655_4433_2211, number, bytes));
}

/// The recipient is an identity, not a place.
fn another_place_of_the_reader() -> Case {
    let mut chained = Chain::of("a chain from another place of the reader", &[3, 2], 4);
    chained.answered(0, 4);
    chained.case.accept(9, create(9, READER));
    chained.case.accept(0, hand_over(9));
    let bytes = chained.bytes.clone();
    chained.with_bytes(0, 4, &bytes);
    chained.case.accept(0, hand_over(0));
    chained.case.accept(0, Call::Exit);
    chained.with_bytes(4, 0, &bytes);
    chained.case.accept(0, hand_over(9));
    chained.with_bytes(0, 4, &bytes);
    chained.case.accept(0, create(0, 7));
    chained.case.accept(0, hand_over(0));
    chained.with_bytes(18, 0, &bytes);
    chained.case
}

/// Rows outlast those who put them.
fn after_the_sources_left() -> Case {
    let mut chained = Chain::of("a chain whose sources have left", &[2, 3, 3], 16);
    chained.answered(0, 16);
    for place in [1, 2] {
        chained.case.accept(0, hand_over(place));
        chained.case.accept(0, Call::Exit);
    }
    chained.case.accept(0, hand_over(0));
    let bytes = chained.bytes.clone();
    chained.with_bytes(0, 16, &bytes);
    chained.case
}

/// Logged links are for all; escrowed ones for their recipient.
fn whoever_runs() -> Case {
    let mut chained = Chain::of("chains for whoever runs", &[LOGGED], 3);
    let (logged, bytes) = (chained.first, chained.bytes.clone());
    chained.link(ESCROWED, &[]);
    let Chain { mut case, first: escrowed, .. } = chained;
    for place in 0..3 {
        case.accept(0, hand_over(place));
        case.accept(3, chain(LOGGED, logged.identity, logged.number, &bytes));
        let code = if place == 0 { 0 } else { 18 };
        case.answer(code, 4, chain(ESCROWED, escrowed.identity, escrowed.number, &bytes));
        case.refuse(9, chain(ESCROWED, 0, escrowed.number, &bytes));
    }
    case
}

/// Links in the first and in the last rows of full tables.
fn last_rows() -> Case {
    let mut chained = Chain::of("links in the last rows", &[3, 2], 2);
    let (first, bytes) = (chained.first, chained.bytes.clone());
    for n in 0..62 {
        chained.put(LOGGED, &[5, n]);
        chained.put(ESCROWED, &[5, n]);
    }
    (chained.first, chained.bytes) = (first, bytes);
    chained.link(LOGGED, &[]);
    chained.link(ESCROWED, &[]);
    assert_eq!(chained.rows, [64, 64]);
    chained.answered(0, 4);
    chained.case.accept(2, chain(first.way, first.identity, first.number, b"\x01\0\x01"));
    chained.case
}

/// A chain, accepted or refused, leaves heaps, tables and who runs as they are.
fn nothing_is_altered() -> Case {
    let mut chained = Chain::of("a chain alters nothing", &[2, 3], 5);
    let value = link_value(Some(chained.first), &[]);
    chained.put(ESCROWED, &value);
    let (Link { way, identity, number }, bytes) = (chained.first, chained.bytes.clone());
    let calls = [
        (0, chain(way, identity, number, &bytes)),
        (9, chain(way, 0, number, &bytes)),
        (18, chain(way, identity, number + 1, &bytes)),
        (19, chain(1, identity, number, &bytes)),
        (19, chain(way, identity, number, &bytes[1..])),
        (19, chain(way, identity, number, b"")),
    ];
    for (code, call) in calls {
        chained.case.answer(code, 6, call);
        chained.unaltered();
        let case = &mut chained.case;
        case.accept(17, retrieve(identity, 100, number));
        case.show(&value, heap_read(0, 100, 17));
        case.accept(17, heap_write(0, 100, &[7; 17]));
        case.answer(code, 6, call);
        case.show(&[7; 17], heap_read(0, 100, 17));
        case.accept(1, check(1, tag_of(1, &[1]).0, &[1]));
    }
    chained.case
}

/// An end that identity 1 logs, a link of its own that names it, and one that
/// names itself; each refusal. Records and lines are written out.
fn by_hand() -> Case {
    const ID: &str = "0100000000000000";
    const TAG: &str = "5F35F58FDC2D9A52";
    let chain = |way: &str, identity: &str, number: &str, bytes: &str| {
        format!("67 0F {way} {identity} {number} {bytes}")
    };
    let (end, own) = ("0700000000001100", "0800000000001100");
    let linked = format!("4B 05 00 0000 1100 02 {ID} {TAG}");
    let protected = |draw: &str| format!("3D 0B {ID} 0000 1100 {draw}00000000000000");
    let records = [
        (format!("07 01 00 {ID}"), "0 0 11 -"),
        (chain("02", ID, TAG, "0300 0100 01"), "4 0 24 -"),
        ("03 0E 00".into(), "0 0 3 -"),
        ("4B 05 00 0000 0100 01".into(), "0 1 8 -"),
        (chain("02", ID, TAG, "0300 0100 01"), "18 0 24 -"),
        ("19 09 0000 0100".into(), "0 5952120282854798687 6 -"),
        (chain("02", ID, TAG, "0300 0100 01"), "0 1 24 -"),
        (linked, "0 17 24 -"),
        (protected("07"), "0 4785074604081159 22 -"),
        (chain("03", ID, end, "0300 0100 01"), "0 2 24 -"),
        (chain("03", ID, end, "0000"), "19 0 21 -"),
        (chain("03", ID, end, "0100 01"), "19 0 22 -"),
        (chain("03", ID, end, "0200 0100"), "19 0 23 -"),
        (chain("03", ID, end, "0300 0100 02"), "18 0 24 -"),
        (chain("03", ID, end, "0400 0100 01 00"), "19 0 25 -"),
        (chain("03", "0000000000000000", end, "0300 0100 01"), "9 0 24 -"),
        (chain("03", "0200000000000000", end, "0300 0100 01"), "18 0 24 -"),
        (chain("03", ID, own, "0300 0100 01"), "18 0 24 -"),
        (chain("00", "0000000000000000", end, "0300 0100 01"), "19 0 24 -"),
        (chain("01", ID, end, "0300 0100 01"), "19 0 24 -"),
        (chain("04", ID, end, "0300 0100 01"), "19 0 24 -"),
        (format!("4B 05 00 0000 1100 03 {ID} {own}"), "0 17 24 -"),
        (protected("08"), "0 4785074604081160 22 -"),
        (chain("03", ID, own, "0000"), "20 0 21 -"),
        ("01 0D".into(), "0 131329 2 -"),
        ("67 0F 02".into(), "1 8 0 -"),
    ];
    let records: Vec<_> = records.iter().map(|(record, line)| (&record[..], *line)).collect();
    written("chains by hand", &records)
}

//! The desk over a box, on both sides, and what this test knows of that box.

use differential::broken;
use differential::calls::{attest, create, hand_over, heap_write, record_of};
use interface::{Sides, Tank, TankAnswer};
use second::{Call, Host, OUTPUT_SIZE};

use crate::counts::Counts;
use crate::wanted::{wanted, wanted_code, Logged};

/// The identities of two probes' programs, in places 3 and 9 of [`Desk::fresh`].
/// Every byte of the first is another.
pub const PROBE: u64 = 0x0807_0605_0403_0201;
pub const OTHER_PROBE: u64 = PROBE + 1;
pub const PLACE: u8 = 3;
pub const OTHER_PLACE: u8 = 9;

/// What the output buffer holds.
pub const OUTPUT: u8 = 0xEE;

#[derive(Clone)]
pub struct Desk {
    sides: Sides,
    logged: Vec<Logged>,
    is_sound: bool,
}

impl Desk {
    /// Over any box. What is logged is read from the rows; whether the box is sound is
    /// told clause by clause.
    pub fn over(host: Host, output: Vec<u8>) -> Self {
        let is_sound = output.len() == OUTPUT_SIZE && broken(&host).is_empty();
        let logged = if is_sound { rows(&host) } else { Vec::new() };
        Desk { sides: Sides::new(host, output), logged, is_sound }
    }

    /// Over a box with the two probes' programs, of which none has logged anything.
    pub fn fresh(counts: &mut Counts) -> Self {
        let mut desk = Desk::over(Host::fresh(), vec![OUTPUT; OUTPUT_SIZE]);
        desk.accept(counts, &create(PLACE, PROBE));
        desk.accept(counts, &create(OTHER_PLACE, OTHER_PROBE));
        desk
    }

    /// As [`fresh`](Self::fresh), with these corrections logged by the first probe.
    pub fn with(counts: &mut Counts, corrections: &[i16]) -> Self {
        let mut desk = Desk::fresh(counts);
        for correction in corrections {
            desk.log(counts, PLACE, correction.to_le_bytes());
        }
        desk
    }

    /// The program in this place logs a correction.
    pub fn log(&mut self, counts: &mut Counts, place: u8, bytes: [u8; 2]) {
        let tag = self.log_value(counts, place, &bytes);
        let probe = self.sides.second.record.identities[usize::from(place)];
        self.logged.push(Logged { probe, tag, bytes });
    }

    /// The program in this place logs a value, which need not be of two bytes; its
    /// tag.
    pub fn log_value(&mut self, counts: &mut Counts, place: u8, value: &[u8]) -> u64 {
        self.accept(counts, &hand_over(place));
        self.accept(counts, &heap_write(place, 40, value));
        self.accept(counts, &attest(40, value.len() as u16))
    }

    /// A call that is accepted on both sides; its number.
    fn accept(&mut self, counts: &mut Counts, call: &Call) -> u64 {
        let answer = self.sides.call(&record_of(call));
        let outcome = answer.and_then(|answer| match answer.code {
            0 => Ok(answer.number),
            code => Err(format!("refused with {code}")),
        });
        counts.box_call(&outcome, || format!("{call:?}"));
        outcome.unwrap_or(0)
    }

    /// The corrections that are logged, none on a box that isn't sound.
    pub fn logged(&self) -> &[Logged] {
        &self.logged
    }

    /// The logged correction of this value.
    pub fn correction(&self, value: i32) -> Logged {
        *self.logged.iter().find(|logged| logged.value() == value).expect("it was logged")
    }

    pub fn is_sound(&self) -> bool {
        self.is_sound
    }

    /// The box as `second` has it.
    pub fn host(&self) -> &Host {
        &self.sides.second
    }

    fn known(&self) -> Option<&[Logged]> {
        self.is_sound.then_some(&self.logged[..])
    }

    /// The answer about a tank, by the request's words.
    pub fn answer(&self, tank: &Tank) -> TankAnswer {
        wanted(tank, self.known())
    }

    /// One tank, on both sides and by the request's words.
    pub fn ask(&mut self, counts: &mut Counts, tank: &Tank, what: &str) {
        let wanted = self.answer(tank);
        let outcome = self.sides.desk(tank).and_then(|answer| match answer == wanted {
            true => Ok(answer),
            false => Err(format!("the answer is {answer:?}, and the request's {wanted:?}")),
        });
        counts.tank(&outcome, || format!("{what}: {tank:?}"));
    }

    /// A list with as many answers.
    pub fn list(&mut self, counts: &mut Counts, tanks: &[Tank], what: &str) {
        self.list_with(counts, tanks, tanks.len(), what);
    }

    /// A list with so many answers lent for it.
    pub fn list_with(&mut self, counts: &mut Counts, tanks: &[Tank], lent: usize, what: &str) {
        let code = wanted_code(tanks.len(), lent);
        let all = tanks.iter().map(|tank| self.answer(tank));
        let wanted = (code, all.filter(|_| code == 0).collect());
        let outcome = self.sides.shift(tanks, lent).and_then(|is| match is == wanted {
            true => Ok(is),
            false => Err(format!("the answers are {is:?}, and the request's {wanted:?}")),
        });
        counts.list(&outcome, || format!("{what}, {lent} answers: {tanks:?}"));
    }
}

/// What the rows of a sound box say of values of two bytes.
fn rows(host: &Host) -> Vec<Logged> {
    let used = &host.log[..usize::from(host.record.log_rows)];
    let twos = used.iter().filter(|row| row.length == 2);
    let logged = twos.map(|row| {
        let first = usize::from(row.first);
        let bytes = [host.log_values[first], host.log_values[first + 1]];
        Logged { probe: row.identity, tag: row.tag.0, bytes }
    });
    logged.collect()
}

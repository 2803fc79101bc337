//! The tank desk, beside the plain Rust of `second`: tanks without a correction, and
//! with one that a program logged.

use std::io::{self, ErrorKind};
use std::time::{Duration, Instant};

use differential::calls::{attest, create, hand_over, heap_write, protect};
use interface::{tank_of, Sides, Tank, TankAnswer};
use second::{tag_of, Host, OUTPUT_SIZE};

use crate::boxes::{after, full};
use crate::calls::keep;
use crate::table;

/// The correction that is logged, as two bytes.
const CORRECTION: [u8; 2] = [7, 0];

/// Tanks that are all decided; one alone is asked about at the desk, more are a list.
pub struct Case {
    name: String,
    sides: Sides,
    tanks: Vec<Tank>,
}

impl Case {
    fn new(name: &str, host: &Host, tank: Tank, count: usize) -> Self {
        let sides = Sides::new(host.clone(), vec![0; OUTPUT_SIZE]);
        Case { name: name.into(), sides, tanks: vec![tank; count] }
    }

    /// Compares the two sides, then times them. Neither alters the box, and the side
    /// that comes first changes from round to round.
    pub fn time(mut self, rounds: usize) -> io::Result<()> {
        let compared = self.compare();
        compared.map_err(|message| {
            io::Error::new(ErrorKind::Other, format!("{}: {message}", self.name))
        })?;
        let (mut proved, mut plain) = (Vec::new(), Vec::new());
        for round in 0..rounds {
            if round % 2 == 0 {
                proved.push(time_proved(&mut self.sides, &self.tanks));
                plain.push(time_plain(&mut self.sides, &self.tanks));
            } else {
                plain.push(time_plain(&mut self.sides, &self.tanks));
                proved.push(time_proved(&mut self.sides, &self.tanks));
            }
        }
        table::line(&self.name, proved, plain);
        Ok(())
    }

    /// Every tank is decided, the same on both sides.
    fn compare(&mut self) -> Result<(), String> {
        let answers = match &self.tanks[..] {
            [tank] => vec![self.sides.desk(tank)?],
            tanks => self.sides.shift(tanks, tanks.len())?.1,
        };
        match answers.len() == self.tanks.len() && answers.iter().all(|answer| answer.code == 0) {
            true => Ok(()),
            false => Err(format!("not decided: {answers:?}")),
        }
    }
}

#[inline(never)]
fn time_proved(sides: &mut Sides, tanks: &[Tank]) -> Duration {
    let mut answers = [TankAnswer::default(); 8];
    let began = Instant::now();
    match tanks {
        [tank] => answers[0] = sides.host.desk(*tank),
        tanks => keep(sides.host.shift(tanks, &mut answers[..tanks.len()]).into()),
    }
    let took = began.elapsed();
    answers.iter().for_each(|answer| keep(answer.action.into()));
    took
}

#[inline(never)]
fn time_plain(sides: &mut Sides, tanks: &[Tank]) -> Duration {
    let Sides { second, output, .. } = sides;
    let tanks: Vec<_> = tanks.iter().map(tank_of).collect();
    let mut answers = [second::TankAnswer::Decided(second::Action::Hold); 8];
    let began = Instant::now();
    match &tanks[..] {
        [tank] => answers[0] = second::desk(&mut second.lend(), output, tank),
        tanks => {
            let answers = &mut answers[..tanks.len()];
            keep(second::shift(&mut second.lend(), output, tanks, answers).into());
        }
    }
    let took = began.elapsed();
    answers.iter().for_each(|answer| keep(answer.action().into()));
    took
}

/// One tank and a list of eight, on a box that holds only the correction's row and on a
/// full one, whose last row it is.
pub fn cases() -> Vec<Case> {
    let (empty, full) = (one_row(), full_log());
    let bare = Tank { reading: 1_844, setpoint: 1_800, ..Tank::default() };
    let logged = |probe: u64| {
        let tag = tag_of(probe, &CORRECTION).0;
        Tank { probe, tag, given: 1, correction: CORRECTION, ..bare }
    };
    vec![
        Case::new("empty box: a tank without a correction", &empty, bare, 1),
        Case::new("empty box: a tank with a logged correction", &empty, logged(1), 1),
        Case::new("empty box: eight tanks without a correction", &empty, bare, 8),
        Case::new("empty box: eight tanks with a logged correction", &empty, logged(1), 8),
        Case::new("full box: a tank without a correction", &full, bare, 1),
        Case::new("full box: a tank with a logged correction", &full, logged(16), 1),
        Case::new("full box: eight tanks with a logged correction", &full, logged(16), 8),
    ]
}

/// Identity 1 has logged the correction.
fn one_row() -> Host {
    let calls = [create(0, 1), hand_over(0), heap_write(0, 0, &CORRECTION), attest(0, 2)];
    after(Host::fresh(), &calls)
}

/// All rows are used, and the log's last is the correction, of identity 16.
fn full_log() -> Host {
    let calls =
        [hand_over(15), heap_write(15, 0, &CORRECTION), attest(0, 2), protect(16, 0, 64, 63)];
    after(full(16, 63), &calls)
}

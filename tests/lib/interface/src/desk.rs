//! What `include/caif.h` declares of the tank desk, and hosts that ask it.

use second::Tag;

use crate::declared::{BoxRecord, EscrowRow, Lent, LogRow};
use crate::host::{Guarded, Host, Sides};

/// `struct caif_tank`.
#[repr(C)]
#[derive(Clone, Copy, Debug, Default, PartialEq, Eq)]
pub struct Tank {
    pub reading: i32,
    pub setpoint: i32,
    pub probe: u64,
    pub tag: u64,
    pub given: u8,
    pub correction: [u8; 2],
}

/// `struct caif_tank_answer`.
#[repr(C)]
#[derive(Clone, Copy, Debug, Default, PartialEq, Eq)]
pub struct TankAnswer {
    pub code: u8,
    pub action: u8,
    pub refusal: u8,
}

extern "C" {
    fn caif_desk(
        tank: Tank,
        held: BoxRecord,
        log: *const LogRow,
        log_rows: usize,
        escrow: *const EscrowRow,
        escrow_rows: usize,
        heaps: *const u8,
        heaps_size: usize,
        shared: *const u8,
        shared_size: usize,
        log_values: *const u8,
        log_values_size: usize,
        escrow_values: *const u8,
        escrow_values_size: usize,
        output: *const u8,
        output_size: usize,
    ) -> TankAnswer;

    fn caif_shift(
        tanks: *const Tank,
        tanks_count: usize,
        answers: *mut TankAnswer,
        answers_count: usize,
        held: BoxRecord,
        log: *const LogRow,
        log_rows: usize,
        escrow: *const EscrowRow,
        escrow_rows: usize,
        heaps: *const u8,
        heaps_size: usize,
        shared: *const u8,
        shared_size: usize,
        log_values: *const u8,
        log_values_size: usize,
        escrow_values: *const u8,
        escrow_values_size: usize,
        output: *const u8,
        output_size: usize,
    ) -> u8;
}

fn desk(tank: Tank, held: BoxRecord, lent: Lent) -> TankAnswer {
    let Lent { log, escrow, heaps, shared, log_values, escrow_values, output } = lent;
    // SAFETY: as in `call`.
    unsafe {
        caif_desk(
            tank,
            held,
            log.as_ptr(),
            log.len(),
            escrow.as_ptr(),
            escrow.len(),
            heaps.as_ptr(),
            heaps.len(),
            shared.as_ptr(),
            shared.len(),
            log_values.as_ptr(),
            log_values.len(),
            escrow_values.as_ptr(),
            escrow_values.len(),
            output.as_ptr(),
            output.len(),
        )
    }
}

fn shift(tanks: &[Tank], answers: &mut [TankAnswer], held: BoxRecord, lent: Lent) -> u8 {
    let Lent { log, escrow, heaps, shared, log_values, escrow_values, output } = lent;
    // SAFETY: as in `call`.
    unsafe {
        caif_shift(
            tanks.as_ptr(),
            tanks.len(),
            answers.as_mut_ptr(),
            answers.len(),
            held,
            log.as_ptr(),
            log.len(),
            escrow.as_ptr(),
            escrow.len(),
            heaps.as_ptr(),
            heaps.len(),
            shared.as_ptr(),
            shared.len(),
            log_values.as_ptr(),
            log_values.len(),
            escrow_values.as_ptr(),
            escrow_values.len(),
            output.as_ptr(),
            output.len(),
        )
    }
}

impl Host {
    /// One tank through the C interface.
    pub fn desk(&mut self, tank: Tank) -> TankAnswer {
        let (held, lent) = self.lend();
        desk(tank, *held, lent)
    }

    /// A list of tanks, with the answers lent for it.
    pub fn shift(&mut self, tanks: &[Tank], answers: &mut [TankAnswer]) -> u8 {
        let (held, lent) = self.lend();
        shift(tanks, answers, *held, lent)
    }
}

/// As `second` is asked about it.
pub fn tank_of(tank: &Tank) -> second::Tank {
    let Tank { reading, setpoint, probe, tag, given, correction: bytes } = *tank;
    let correction = second::Correction { probe, tag: Tag(tag), bytes };
    second::Tank { reading, setpoint, correction: (given != 0).then_some(correction) }
}

fn answer_of(answer: second::TankAnswer) -> TankAnswer {
    TankAnswer { code: answer.code(), action: answer.action(), refusal: answer.refusal() }
}

/// What stands in answers before they are written. The desk never gives it.
const UNWRITTEN: TankAnswer = TankAnswer { code: 0xA5, action: 0xA6, refusal: 0xA7 };
const GUARD_TANK: Tank = Tank {
    reading: -0x5A5A_5A5B,
    setpoint: -0x5A5A_5A5B,
    probe: 0xA5A5_A5A5_A5A5_A5A5,
    tag: 0xA5A5_A5A5_A5A5_A5A5,
    given: 0xA5,
    correction: [0xA5; 2],
};

impl Sides {
    /// One tank on both sides: the answer, or what was not the same. Nothing of the
    /// box and no lent buffer is altered.
    pub fn desk(&mut self, tank: &Tank) -> Result<TankAnswer, String> {
        let before = self.host.clone();
        let wanted = second::desk(&mut self.second.lend(), &mut self.output, &tank_of(tank));
        let wanted = answer_of(wanted);
        let answer = self.host.desk(*tank);
        self.is_unaltered(&before)?;
        if answer != wanted {
            return Err(format!("the answer is {answer:?}, and second's {wanted:?}"));
        }
        Ok(answer)
    }

    /// A list on both sides, with so many answers lent for it: the code and the
    /// answers, none where it is refused whole. Nothing of the box and no lent buffer
    /// is altered but the answers, and these only where the list isn't refused.
    pub fn shift(&mut self, tanks: &[Tank], lent: usize) -> Result<(u8, Vec<TankAnswer>), String> {
        let before = self.host.clone();
        let (code, wanted) = self.second_shift(tanks, lent);
        let tanks = Guarded::new(GUARD_TANK, tanks.iter().copied());
        let mut answers = Guarded::new(UNWRITTEN, std::iter::repeat(UNWRITTEN).take(lent));
        let tanks_lent = tanks.clone();
        let is = self.host.shift(tanks_lent.lent(), answers.lend());
        self.is_unaltered(&before)?;
        if tanks_lent != tanks {
            return Err("a tank was altered".into());
        }
        if !answers.guards_stand() {
            return Err("memory beside the answers was altered".into());
        }
        if is != code || answers.lent() != wanted {
            let answers = answers.lent();
            return Err(format!("code {is}, {answers:?}, and second's {code}, {wanted:?}"));
        }
        Ok((code, if code == 0 { wanted } else { Vec::new() }))
    }

    /// The code and the answers of `second`, as they stand after the list.
    fn second_shift(&mut self, tanks: &[Tank], lent: usize) -> (u8, Vec<TankAnswer>) {
        // Stands for an answer that isn't written; the desk never gives it.
        let unwritten =
            second::TankAnswer::Refused(second::TankRefusal::NotLogged { box_code: 0xA7 });
        let tanks: Vec<_> = tanks.iter().map(tank_of).collect();
        let mut answers = vec![unwritten; lent];
        let code = second::shift(&mut self.second.lend(), &mut self.output, &tanks, &mut answers);
        let written = |answer| if answer == unwritten { UNWRITTEN } else { answer_of(answer) };
        (code, answers.into_iter().map(written).collect())
    }

    /// Both sides are as this one was.
    fn is_unaltered(&self, before: &Host) -> Result<(), String> {
        if let Some(part) = before.differs(&self.second, &self.output) {
            return Err(format!("{part}: second altered it"));
        }
        if let Some(part) = self.host.differs(&self.second, &self.output) {
            return Err(format!("{part} was altered"));
        }
        Ok(())
    }
}

//! What the tank desk is asked and what it answers (document 02, P6). Temperatures
//! are in hundredths of a degree Celsius.

use crate::tables::Identity;
use crate::tags::Tag;

/// A tank as the desk is asked about it.
#[derive(Clone, Copy, Debug, PartialEq, Eq)]
pub struct Tank {
    pub reading: i32,
    pub setpoint: i32,
    /// With none, zero is used.
    pub correction: Option<Correction>,
}

/// What a probe's program logged about its probe, so it is claimed.
#[derive(Clone, Copy, Debug, PartialEq, Eq)]
pub struct Correction {
    /// Identity of the probe's program.
    pub probe: Identity,
    /// The tag that it got.
    pub tag: Tag,
    /// Two's complement, lowest byte first.
    pub bytes: [u8; 2],
}

/// What to do with a tank. The value of each case is its number.
#[derive(Clone, Copy, Debug, PartialEq, Eq)]
#[repr(u8)]
pub enum Action {
    Hold = 1,
    Cool = 2,
    Warm = 3,
}

impl Action {
    pub const fn number(self) -> u8 {
        self as u8
    }
}

/// Why the desk refused a tank or a list. The codes follow those of the box.
#[derive(Clone, Copy, Debug, PartialEq, Eq)]
pub enum TankRefusal {
    /// The reading or the setpoint is outside -500 to 3,000. Of a list: it isn't of
    /// 1 to 8 tanks.
    OutOfBounds,
    /// The correction isn't logged: the box refused to check it, with this code, or
    /// its check said no, which is 0.
    NotLogged { box_code: u8 },
    /// The correction is outside -50 to 50.
    CorrectionOutOfBounds,
}

impl TankRefusal {
    pub const fn code(self) -> u8 {
        match self {
            TankRefusal::OutOfBounds => 24,
            TankRefusal::NotLogged { .. } => 25,
            TankRefusal::CorrectionOutOfBounds => 26,
        }
    }
}

/// The desk's answer about one tank.
#[derive(Clone, Copy, Debug, PartialEq, Eq)]
pub enum TankAnswer {
    Decided(Action),
    Refused(TankRefusal),
}

impl TankAnswer {
    /// 0 or the code of a refusal.
    pub const fn code(self) -> u8 {
        match self {
            TankAnswer::Decided(_) => 0,
            TankAnswer::Refused(refusal) => refusal.code(),
        }
    }

    /// The action's number, 0 with a refusal.
    pub const fn action(self) -> u8 {
        match self {
            TankAnswer::Decided(action) => action.number(),
            TankAnswer::Refused(_) => 0,
        }
    }

    /// The box's own refusal, with 25 alone. 0 there means that the check said no.
    pub const fn refusal(self) -> u8 {
        match self {
            TankAnswer::Refused(TankRefusal::NotLogged { box_code }) => box_code,
            TankAnswer::Decided(_) | TankAnswer::Refused(_) => 0,
        }
    }
}

#[cfg(test)]
mod tests {
    use super::*;

    /// The three numbers of each answer.
    #[test]
    fn numbers() {
        use TankAnswer::{Decided, Refused};
        let not_logged = |box_code| Refused(TankRefusal::NotLogged { box_code });
        let cases = [
            (Decided(Action::Hold), (0, 1, 0)),
            (Decided(Action::Cool), (0, 2, 0)),
            (Decided(Action::Warm), (0, 3, 0)),
            (Refused(TankRefusal::OutOfBounds), (24, 0, 0)),
            (not_logged(0), (25, 0, 0)),
            (not_logged(9), (25, 0, 9)),
            (not_logged(15), (25, 0, 15)),
            (Refused(TankRefusal::CorrectionOutOfBounds), (26, 0, 0)),
        ];
        for (answer, wanted) in cases {
            assert_eq!((answer.code(), answer.action(), answer.refusal()), wanted);
        }
    }
}

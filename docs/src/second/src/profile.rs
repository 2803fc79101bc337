//! The full box and the level-one paper (document 02, P5).

use crate::answer::Refusal;

/// Places that the level-one paper uses: 0 to 3.
const LEVEL_ONE_PLACES: usize = 4;

/// What is refused beyond the rules of the box itself. Either profile runs on any
/// sound box, and a call that it lets through is the same call in both.
#[derive(Clone, Copy, Debug, PartialEq, Eq)]
pub enum Profile {
    /// Nothing more is refused.
    Full,
    /// Escrow, its releases and chains, places above 3, and a second value logged by an
    /// identity.
    LevelOne,
}

impl Profile {
    /// Refusal 21 where there is no escrow.
    pub(crate) fn has_escrow(self) -> Result<(), Refusal> {
        match self {
            Profile::Full => Ok(()),
            Profile::LevelOne => Err(Refusal::NoEscrow),
        }
    }

    /// Refusal 22 where this place, below 16, is not to be used.
    pub(crate) fn has_place(self, index: usize) -> Result<(), Refusal> {
        match self {
            Profile::LevelOne if index >= LEVEL_ONE_PLACES => Err(Refusal::PlaceTooHigh),
            Profile::Full | Profile::LevelOne => Ok(()),
        }
    }
}

#[cfg(test)]
mod tests {
    use super::Profile::{Full, LevelOne};
    use super::Refusal;

    #[test]
    fn escrow() {
        assert_eq!(Full.has_escrow(), Ok(()));
        assert_eq!(LevelOne.has_escrow(), Err(Refusal::NoEscrow));
    }

    #[test]
    fn places() {
        for index in 0..16 {
            assert_eq!(Full.has_place(index), Ok(()));
            let wanted = if index > 3 { Err(Refusal::PlaceTooHigh) } else { Ok(()) };
            assert_eq!(LevelOne.has_place(index), wanted);
        }
    }
}

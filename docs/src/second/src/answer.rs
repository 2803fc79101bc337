//! Answers, and the codes and numbers of the refusals.

/// Why a call, a record, a script or a writing was refused. Each case has its
/// code in document 01, those of a chain in document 02, P3, those of the
/// level-one paper there in P5; the full box gives none of the latter. 5, that one
/// already runs, is retired since hand over (P1): no case has it, and the code
/// stays reserved.
#[derive(Clone, Copy, Debug, PartialEq, Eq)]
pub enum Refusal {
    /// The record ends before a field does, or is empty. So many more bytes
    /// finish the field being read (document 02, P2), never 0.
    Cut { missing: usize },
    /// Map bit 0 is down, or the kind is unknown.
    UnknownKind,
    /// The map isn't the kind's.
    WrongMap,
    /// None runs.
    NoneRuns,
    /// The place is above 15, in a hand over above 16.
    NoSuchPlace,
    /// The place is taken (create) or empty (hand over).
    PlaceTakenOrEmpty,
    /// The place isn't the running one.
    NotRunning,
    /// The identity is 0.
    ZeroIdentity,
    /// No unspent escrow row has handle, source and recipient.
    NoSuchRow,
    /// Offset + length is beyond the heap or the shared memory.
    Beyond,
    /// The draw is 2^48 or more.
    DrawTooLarge,
    /// The log has no room.
    LogFull,
    /// The escrow has no room.
    EscrowFull,
    /// A lent buffer isn't of its size, or the box isn't sound.
    Unsound,
    /// The script is too long.
    ScriptTooLong,
    /// The writer's buffer is too short, or its bytes are too many.
    CannotWrite,
    /// The check of a logged link is no, or an escrowed link has no unspent row.
    NoSuchLink,
    /// A link's way isn't 2 or 3, its logged value is cut in the chain bytes, its
    /// head is malformed, or bytes are left over at the end.
    BadChain,
    /// A link more, where sixteen have been followed.
    ChainTooLong,
    /// Protect, retrieve, chain or release in the level-one paper.
    NoEscrow,
    /// The place of a create is above 3 in the level-one paper, or that of a hand
    /// over other than 16.
    PlaceTooHigh,
    /// The identity has logged another value, in the level-one paper.
    OtherValueLogged,
}

impl Refusal {
    pub const fn code(self) -> u8 {
        match self {
            Refusal::Cut { .. } => 1,
            Refusal::UnknownKind => 2,
            Refusal::WrongMap => 3,
            Refusal::NoneRuns => 4,
            Refusal::NoSuchPlace => 6,
            Refusal::PlaceTakenOrEmpty => 7,
            Refusal::NotRunning => 8,
            Refusal::ZeroIdentity => 9,
            Refusal::NoSuchRow => 10,
            Refusal::Beyond => 11,
            Refusal::DrawTooLarge => 12,
            Refusal::LogFull => 13,
            Refusal::EscrowFull => 14,
            Refusal::Unsound => 15,
            Refusal::ScriptTooLong => 16,
            Refusal::CannotWrite => 17,
            Refusal::NoSuchLink => 18,
            Refusal::BadChain => 19,
            Refusal::ChainTooLong => 20,
            Refusal::NoEscrow => 21,
            Refusal::PlaceTooHigh => 22,
            Refusal::OtherValueLogged => 23,
        }
    }

    /// The answer's number: what a cut record misses, and 0 with every other
    /// refusal.
    pub const fn number(self) -> u64 {
        match self {
            Refusal::Cut { missing } => missing as u64,
            _ => 0,
        }
    }
}

/// The answer to a call.
#[derive(Clone, Copy, Debug, Default, PartialEq, Eq)]
pub struct Answer {
    /// 0 or the code of a refusal.
    pub code: u8,
    /// What an accepted call tells, or the refusal's number.
    pub number: u64,
    /// Record bytes used.
    pub used: usize,
    /// How many bytes are shown, at the front of the output buffer.
    pub shown: usize,
}

impl Answer {
    /// A refusal has its own number and shows nothing.
    pub const fn refused(refusal: Refusal, used: usize) -> Self {
        Answer { code: refusal.code(), number: refusal.number(), used, shown: 0 }
    }
}

#[cfg(test)]
mod tests {
    use super::Answer;
    use super::Refusal::{self, *};

    /// The code that the documents give. A refusal more does not compile before it
    /// has its line here.
    fn documented(refusal: Refusal) -> u8 {
        match refusal {
            Cut { .. } => 1,
            UnknownKind => 2,
            WrongMap => 3,
            NoneRuns => 4,
            NoSuchPlace => 6,
            PlaceTakenOrEmpty => 7,
            NotRunning => 8,
            ZeroIdentity => 9,
            NoSuchRow => 10,
            Beyond => 11,
            DrawTooLarge => 12,
            LogFull => 13,
            EscrowFull => 14,
            Unsound => 15,
            ScriptTooLong => 16,
            CannotWrite => 17,
            NoSuchLink => 18,
            BadChain => 19,
            ChainTooLong => 20,
            NoEscrow => 21,
            PlaceTooHigh => 22,
            OtherValueLogged => 23,
        }
    }

    const REFUSALS: [Refusal; 22] = [
        Cut { missing: 7 },
        UnknownKind,
        WrongMap,
        NoneRuns,
        NoSuchPlace,
        PlaceTakenOrEmpty,
        NotRunning,
        ZeroIdentity,
        NoSuchRow,
        Beyond,
        DrawTooLarge,
        LogFull,
        EscrowFull,
        Unsound,
        ScriptTooLong,
        CannotWrite,
        NoSuchLink,
        BadChain,
        ChainTooLong,
        NoEscrow,
        PlaceTooHigh,
        OtherValueLogged,
    ];

    /// The codes as the documents give them; 5 is not among them.
    #[test]
    fn codes() {
        let codes = (1..=23).filter(|&code| code != 5);
        assert!(REFUSALS.iter().map(|refusal| refusal.code()).eq(codes));
        assert!(REFUSALS.iter().all(|&refusal| refusal.code() == documented(refusal)));
    }

    /// 1 is the only refusal with a number other than 0.
    #[test]
    fn numbers() {
        for refusal in REFUSALS {
            let code = refusal.code();
            let number = if code == 1 { 7 } else { 0 };
            for used in [0, 22] {
                let wanted = Answer { code, number, used, shown: 0 };
                assert_eq!(Answer::refused(refusal, used), wanted);
            }
        }
        for missing in [1, 2, 8, 255, 256, 65_535] {
            assert_eq!(Cut { missing }.number(), missing as u64);
        }
    }
}

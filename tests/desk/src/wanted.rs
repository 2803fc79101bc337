//! What the request's words make of a tank. Nothing of `second` is used.

use interface::{Tank, TankAnswer};

/// A correction that a probe's program logged, and the tag that it got.
#[derive(Clone, Copy, Debug, PartialEq, Eq)]
pub struct Logged {
    pub probe: u64,
    pub tag: u64,
    pub bytes: [u8; 2],
}

impl Logged {
    /// The tank with this as its correction.
    pub fn tank(&self, reading: i32, setpoint: i32) -> Tank {
        let Logged { probe, tag, bytes: correction } = *self;
        Tank { reading, setpoint, probe, tag, given: 1, correction }
    }

    pub fn value(&self) -> i32 {
        value_of(self.bytes)
    }
}

/// A tank without a correction.
pub fn bare(reading: i32, setpoint: i32) -> Tank {
    Tank { reading, setpoint, ..Tank::default() }
}

/// "two bytes, lowest first, in two's complement"
pub fn value_of(bytes: [u8; 2]) -> i32 {
    i16::from_le_bytes(bytes).into()
}

pub const HOLD: TankAnswer = decided(1);
pub const COOL: TankAnswer = decided(2);
pub const WARM: TankAnswer = decided(3);
pub const OUT_OF_RANGE: TankAnswer = refused(24, 0);
pub const CHECK_SAID_NO: TankAnswer = refused(25, 0);
pub const IDENTITY_ZERO: TankAnswer = refused(25, 9);
pub const NOT_SOUND: TankAnswer = refused(25, 15);
pub const TOO_LARGE: TankAnswer = refused(26, 0);

const fn decided(action: u8) -> TankAnswer {
    TankAnswer { code: 0, action, refusal: 0 }
}

const fn refused(code: u8, refusal: u8) -> TankAnswer {
    TankAnswer { code, action: 0, refusal }
}

/// The answer about a tank on a box that is sound, with this logged, or that isn't,
/// which is none.
pub fn wanted(tank: &Tank, logged: Option<&[Logged]>) -> TankAnswer {
    let range = -500..=3_000;
    if !range.contains(&tank.reading) || !range.contains(&tank.setpoint) {
        return OUT_OF_RANGE;
    }
    if tank.given == 0 {
        return action(tank.reading - tank.setpoint);
    }
    let logged = match logged {
        None => return NOT_SOUND,
        Some(_) if tank.probe == 0 => return IDENTITY_ZERO,
        Some(logged) => logged,
    };
    let asked = Logged { probe: tank.probe, tag: tank.tag, bytes: tank.correction };
    if !logged.contains(&asked) {
        return CHECK_SAID_NO;
    }
    match value_of(tank.correction) {
        correction @ -50..=50 => action(tank.reading + correction - tank.setpoint),
        _ => TOO_LARGE,
    }
}

/// "above 50 is cool, below −50 is warm, otherwise hold"
fn action(difference: i32) -> TankAnswer {
    match difference {
        51.. => COOL,
        -50..=50 => HOLD,
        _ => WARM,
    }
}

/// The code of a list with so many answers lent: "15: a lent buffer isn't of its size";
/// then "an empty or longer list is refused whole as 24".
pub fn wanted_code(tanks: usize, answers: usize) -> u8 {
    match tanks {
        _ if answers != tanks => 15,
        1..=8 => 0,
        _ => 24,
    }
}

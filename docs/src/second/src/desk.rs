//! The tank desk (document 02, P6): whether a tank is held, cooled or warmed. It
//! sees the box as a stranger does, through the entry and the writer. Temperatures
//! are in hundredths of a degree Celsius.

use std::ops::RangeInclusive;

use crate::tank::{Action, Correction, Tank, TankAnswer, TankRefusal};
use crate::{call, write_call, Call, Refusal, Tables};

/// The most tanks in a shift list.
pub const SHIFT_MAX: usize = 8;

/// What a reading and a setpoint may be.
const TEMPERATURES: RangeInclusive<i32> = -500..=3_000;
/// What a correction may be.
const CORRECTIONS: RangeInclusive<i32> = -50..=50;
/// A tank this far from its setpoint, either way, is still held.
const TOLERANCE: i32 = 50;

/// The length of a check's record: map, kind, identity, number, count, two bytes.
const CHECK_SIZE: usize = 1 + 1 + 8 + 8 + 2 + 2;

/// Decides about a tank. The box and the lent buffers are unaltered: a check is all
/// that is asked of them.
///
/// Open: document 02 doesn't say whether a tank without a correction needs a sound
/// box. Here the box isn't asked about such a tank, so it is decided on any box.
pub fn desk(tables: &mut Tables, output: &mut [u8], tank: &Tank) -> TankAnswer {
    match decide(tables, output, tank) {
        Ok(action) => TankAnswer::Decided(action),
        Err(refusal) => TankAnswer::Refused(refusal),
    }
}

/// Decides about 1 to 8 tanks in order, each with its own answer; 0. Answers of
/// another count are a lent buffer that isn't of its size: 15. Then an empty or
/// longer list is refused whole, with 24. No answer of a refused list is written.
///
/// Open: neither document gives the size of the buffer for the answers. Here it is
/// one for each tank. Document 01's 15 comes first, as in its order.
///
/// Open: document 02 doesn't give a list's code where tanks in it are refused. Here
/// it is 0, since a tank's refusal is that tank's own answer.
pub fn shift(
    tables: &mut Tables,
    output: &mut [u8],
    tanks: &[Tank],
    answers: &mut [TankAnswer],
) -> u8 {
    if answers.len() != tanks.len() {
        return Refusal::Unsound.code();
    }
    if tanks.is_empty() || tanks.len() > SHIFT_MAX {
        return TankRefusal::OutOfBounds.code();
    }
    for (tank, answer) in tanks.iter().zip(answers) {
        *answer = desk(tables, output, tank);
    }
    0
}

fn decide(tables: &mut Tables, output: &mut [u8], tank: &Tank) -> Result<Action, TankRefusal> {
    if !TEMPERATURES.contains(&tank.reading) || !TEMPERATURES.contains(&tank.setpoint) {
        return Err(TankRefusal::OutOfBounds);
    }
    let correction = match &tank.correction {
        Some(correction) => logged_correction(tables, output, correction)?,
        None => 0,
    };
    // All three are in bounds, so the sum is far from the ends of its type.
    Ok(action_at(tank.reading + correction - tank.setpoint))
}

/// The action for a tank that is so far above its setpoint.
fn action_at(difference: i32) -> Action {
    if difference > TOLERANCE {
        Action::Cool
    } else if difference < -TOLERANCE {
        Action::Warm
    } else {
        Action::Hold
    }
}

/// The value of a correction that the probe logged, or refusal 25 or 26.
fn logged_correction(
    tables: &mut Tables,
    output: &mut [u8],
    correction: &Correction,
) -> Result<i32, TankRefusal> {
    let Correction { probe, tag, bytes } = *correction;
    let check = Call::Check { identity: probe, tag, bytes: &bytes };
    // As long as the record, so the writer doesn't refuse it.
    let mut record = [0; CHECK_SIZE];
    let written = write_call(&check, &mut record);
    let answer = call(tables, output, &record[..written.length]);
    if answer.code != 0 || answer.number != 1 {
        return Err(TankRefusal::NotLogged { box_code: answer.code });
    }
    let value = twos_complement(bytes);
    if CORRECTIONS.contains(&value) {
        Ok(value)
    } else {
        Err(TankRefusal::CorrectionOutOfBounds)
    }
}

/// The number in two bytes, lowest first: the top bit weighs -32,768, each other
/// one the power of 2 that is its place.
fn twos_complement(bytes: [u8; 2]) -> i32 {
    let [low, high] = bytes.map(i32::from);
    let top = high / 128;
    low + 256 * (high - 128 * top) - 32_768 * top
}

#[cfg(test)]
mod tests {
    use super::*;

    #[test]
    fn twos_complement_by_hand() {
        let cases = [
            ([0x00, 0x00], 0),
            ([0x01, 0x00], 1),
            ([0x00, 0x01], 256),
            ([0x32, 0x00], 50),
            ([0x80, 0x00], 128),
            ([0xFF, 0x00], 255),
            ([0xFF, 0x7F], 32_767),
            ([0x00, 0x80], -32_768),
            ([0x01, 0x80], -32_767),
            ([0xCE, 0xFF], -50),
            ([0xCD, 0xFF], -51),
            ([0x00, 0xFF], -256),
            ([0xFF, 0xFF], -1),
        ];
        for (bytes, value) in cases {
            assert_eq!(twos_complement(bytes), value, "{bytes:?}");
        }
    }

    /// Counting up from -32,768 meets every pair of bytes, the low byte the quicker.
    #[test]
    fn twos_complement_of_every_pair() {
        let mut value = -32_768;
        for high in (0x80..=0xFF).chain(0x00..=0x7F) {
            for low in 0x00..=0xFF {
                assert_eq!(twos_complement([low, high]), value);
                assert_eq!(i32::from(i16::from_le_bytes([low, high])), value);
                value += 1;
            }
        }
        assert_eq!(value, 32_768);
    }

    #[test]
    fn actions_at_every_difference() {
        for difference in -3_600..=3_600 {
            let wanted = match difference {
                51..=3_600 => Action::Cool,
                -50..=50 => Action::Hold,
                _ => Action::Warm,
            };
            assert_eq!(action_at(difference), wanted, "{difference}");
        }
    }
}

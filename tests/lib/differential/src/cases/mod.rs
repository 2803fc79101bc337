//! Scripts for every boundary, every refusal and every order of refusals, most
//! with the whole expected sheet, written out or computed by the case.

mod bounds;
mod chains;
mod draws;
mod exam;
mod fnv;
mod hand_overs;
mod level_one;
mod limits;
mod order;
mod reader;
mod releases;
mod services;
mod tables;

use crate::calls::{create, hand_over};
use crate::case::Case;

/// All of them.
pub fn all() -> Vec<Case> {
    let groups = [
        exam::cases(),
        fnv::cases(),
        bounds::cases(),
        tables::cases(),
        draws::cases(),
        services::cases(),
        hand_overs::cases(),
        chains::cases(),
        releases::cases(),
        order::cases(),
        reader::cases(),
        limits::cases(),
        level_one::cases(),
    ];
    groups.into_iter().flatten().collect()
}

/// Identities 1, 2 and 3 in places 0, 1 and 2, place 0 running.
fn three_services(name: &str) -> Case {
    let mut case = Case::new(name);
    for place in 0..3 {
        case.accept(u64::from(place), create(place, u64::from(place) + 1));
    }
    case.accept(0, hand_over(0));
    case
}

/// The handle of a length and a draw.
fn handle(length: u16, draw: u64) -> u64 {
    (u64::from(length) << 48) + draw
}

/// The first number whose fault holds, or 0 when none does.
pub(crate) fn first_fault(faults: &[(u8, bool)]) -> u8 {
    faults.iter().find(|(_, holds)| *holds).map_or(0, |(number, _)| *number)
}

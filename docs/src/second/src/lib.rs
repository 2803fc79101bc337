//! The box of document 01, amended by requests P1 to P8 of document 02: places with
//! heaps, shared memory, a log and an escrow, worked by fourteen calls, as the full
//! box or as the level-one paper (P5), and the tank desk over it (P6). P4 altered no
//! answer, and P7 only the handles of draws that are in use. A second program,
//! written from those documents alone.

#![forbid(unsafe_code)]

mod answer;
mod calls;
mod chain;
mod desk;
mod profile;
mod record;
mod sheet;
mod sound;
mod tables;
mod tags;
mod tank;

pub use answer::{Answer, Refusal};
pub use calls::{call, call_level_one, SoundBox};
pub use chain::{Link, LINKS_MAX, WAY_END, WAY_ESCROWED, WAY_LOGGED};
pub use desk::{desk, shift, SHIFT_MAX};
pub use profile::Profile;
pub use record::{read, write, write_call, Call, Fields, Kind, Written};
pub use sheet::{sheet, sheet_level_one, HEADER, SCRIPT_MAX};
pub use sound::{has_its_sizes, is_sound};
pub use tables::{
    BoxRecord, EscrowRow, Host, Identity, LogRow, Place, Tables, HEAPS_SIZE, HEAP_SIZE, NONE_RUNS,
    OUTPUT_SIZE, PLACES, ROWS, SHARED_SIZE, SPENT, VALUES_SIZE, VALUE_MAX,
};
pub use tags::{fnv1a, tag_of, Draw, Handle, Tag, DRAW_LIMIT};
pub use tank::{Action, Correction, Tank, TankAnswer, TankRefusal};

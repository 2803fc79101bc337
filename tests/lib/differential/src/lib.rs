//! What the programs that compare two boxes share: scripts, sound and damaged
//! boxes, and records, all made from fixed seeds.
//!
//! The first box is the proved one, seen from outside. The second is the crate
//! `second`, written from documents 01 and 02 alone.

#![forbid(unsafe_code)]

pub mod bases;
pub mod calls;
pub mod case;
pub mod cases;
pub mod chains;
pub mod clauses;
pub mod cuts;
pub mod damage;
pub mod draws;
pub mod hand_made;
pub mod hand_overs;
pub mod held;
pub mod level_one;
pub mod lines;
pub mod missing;
pub mod play;
pub mod random;
pub mod records;
pub mod releases;
mod style;

pub use bases::bases;
pub use calls::record_of;
pub use case::Case;
pub use chains::Chains;
pub use clauses::{broken, Clause};
pub use cuts::{Cut, Layout, Next, LAYOUTS};
pub use damage::{damages, pairs, scramble, Damage};
pub use draws::Draws;
pub use hand_made::hand_made;
pub use hand_overs::HandOvers;
pub use held::{counted, link_value, Held, Traced};
pub use level_one::LevelOne;
pub use lines::lines;
pub use missing::Missing;
pub use play::{play, play_chains, play_level_one, Played};
pub use random::Random;
pub use releases::Releases;

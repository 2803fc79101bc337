//! The C interface for Rust hosts: what `include/caif.h` declares, a host that
//! calls through it, and that host compared with one of `second`; the full box,
//! through the entry by value and the one to which the box record is lent, or
//! a level-one paper, by the profile. With the feature `desk` the tank desk too.

mod declared;
#[cfg(feature = "desk")]
mod desk;
mod host;
mod tally;

pub use declared::{
    fresh, write, Answer, BoxRecord, EscrowRow, Fields, LogRow, Reply, Used, Written,
};
#[cfg(feature = "desk")]
pub use desk::{tank_of, Tank, TankAnswer};
pub use host::{Both, Buffer, Host, Sides};
pub use second::Profile;
pub use tally::Tally;

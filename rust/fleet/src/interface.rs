//! The number of the board's interface, by which the crate and its static library are known to fit.

/// Number of the interface that this crate is for, as in `include/fleet.h`. The crate is built with a static library of this number and with no other.
pub const INTERFACE: u32 = 1;

//! The number of the interface, by which the crate and the static library are known to fit.

/// Number of the interface that this crate is for, as in the C header. The crate is built with a static library of this number and with no other.
pub const INTERFACE: u32 = 10;

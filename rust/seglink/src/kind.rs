//! The kind of a speed question's segments: packets or sheets.
use crate::Unit;

/// What the segments of a speed question are. Any bytes may be handed over, and bytes that are not a segment of this kind are refused.
#[derive(Clone, Copy, Debug, PartialEq, Eq, Hash)]
pub enum Kind {
    /// Packets, whose speeds are multiples of 5 km/h.
    Packet = 0,
    /// Sheets, whose speeds are in km/h.
    Sheet = 1,
}

impl Kind {
    /// Returns the number by which the library knows the kind.
    pub(crate) fn number(self) -> u32 {
        self as u32
    }

    /// Returns the unit in which a place in a segment of this kind is counted.
    pub(crate) fn unit(self) -> Unit {
        match self {
            Kind::Packet => Unit::Bit,
            Kind::Sheet => Unit::Byte,
        }
    }
}

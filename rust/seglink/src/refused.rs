//! The error of every operation: a refusal and its place.
use crate::Refusal;
use core::fmt;

/// Why an operation refused, and where. Prints as `6 at bit 300: a field does not fit in the body's remaining bits`, and without a place where the
/// refusal has none.
#[derive(Clone, Copy, Debug, PartialEq, Eq, Hash)]
#[non_exhaustive]
pub struct Refused {
    /// Why the operation refused.
    pub refusal: Refusal,
    /// Where the fault is, counted from 0 at the start of the packet or sheet: the first bit of the field or the first byte of the number at
    /// fault; the first bit or byte that is left; the first padding bit that is 1. 0 for a refusal that [has no place](Refusal::has_place).
    /// Of a run, the place is within the segment that is refused, or within the journey beside it. Of a wrong step, it is the first wrong centimetre of the run's last segment.
    pub place: u32,
    /// Unit of the place.
    pub unit: Unit,
}

/// Unit of a place.
#[derive(Clone, Copy, Debug, PartialEq, Eq, Hash)]
#[non_exhaustive]
pub enum Unit {
    /// The bits of a packet, the top bit of each byte first.
    Bit,
    /// The bytes of a sheet.
    Byte,
    /// The centimetres of a run's last segment.
    Centimetre,
}

impl fmt::Display for Unit {
    fn fmt(&self, f: &mut fmt::Formatter<'_>) -> fmt::Result {
        f.write_str(match self {
            Unit::Bit => "bit",
            Unit::Byte => "byte",
            Unit::Centimetre => "centimetre",
        })
    }
}

impl fmt::Display for Refused {
    fn fmt(&self, f: &mut fmt::Formatter<'_>) -> fmt::Result {
        let Refused { refusal, place, unit } = self;
        if refusal.has_place() {
            write!(f, "{} at {unit} {place}: {}", refusal.number(), refusal.ground())
        } else {
            refusal.fmt(f)
        }
    }
}

#[cfg(feature = "std")]
impl std::error::Error for Refused {}

/// An error of input and output with the refusal inside: `NotFound` for a key that is not kept, `InvalidInput` for what else the caller chose (the
/// room, the train, x, the run, the steps), `InvalidData` for the fault of a packet or a sheet.
#[cfg(feature = "std")]
impl From<Refused> for std::io::Error {
    fn from(refused: Refused) -> std::io::Error {
        use std::io::ErrorKind;
        let kind = match refused.refusal {
            Refusal::NotKept => ErrorKind::NotFound,
            refusal if refusal.is_of_bytes() => ErrorKind::InvalidData,
            _ => ErrorKind::InvalidInput,
        };
        std::io::Error::new(kind, refused)
    }
}

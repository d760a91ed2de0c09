//! The refusals of the build definition, each with its number and its ground.
use core::fmt;

/// Why an operation refused. If several grounds are met, the order of the build definition decides which refusal is given.
/// Prints as `7: a padding bit is 1`.
///
/// ```
/// use seglink::Refusal;
///
/// assert_eq!(Refusal::try_from(7), Ok(Refusal::PaddingBit));
/// assert_eq!(u32::from(Refusal::PaddingBit), 7);
/// assert_eq!(Refusal::PaddingBit.to_string(), "7: a padding bit is 1");
/// assert_eq!(Refusal::try_from(0).unwrap_err().to_string(), "no refusal has the number 0");
/// ```
#[derive(Clone, Copy, Debug, PartialEq, Eq, Hash)]
#[non_exhaustive]
pub enum Refusal {
    /// 1: a packet has fewer than 15 bytes.
    ShortPacket = 1,
    /// 2: the packet number is neither 4 nor 6, is 4 where a segment is needed, or is 6 where a journey is needed.
    PacketNumber = 2,
    /// 3: the packet's bytes are not 15 + L_PACKET_ATO / 8, rounded up.
    PacketLength = 3,
    /// 4: a field is outside its range or set, or not 0 where it is not used. Not used are NID_CTRACTION at voltage 0, the last eight fields at
    /// a passing point, and fields of a temporary constraint by its type and range; its current is 1,023 in a packet.
    FieldValue = 4,
    /// 5: a change's location does not rise, is 0, or is at or past L_SP; or a temporary constraint's start is not below its end.
    ChangeLocation = 5,
    /// 6: a field does not fit in the body's remaining bits.
    BodyBits = 6,
    /// 7: a padding bit is 1.
    PaddingBit = 7,
    /// 8: the result is longer than the lent room, or a packet's deliveries together are; or a store has no room for a sheet.
    ShortRoom = 8,
    /// 9: a sheet ends too soon, has bytes left, or a number is not in its shortest form or not below 4,294,967,296.
    SheetForm = 9,
    /// 10: the train's length, cant deficiency or maximum is not allowed.
    TrainValue = 10,
    /// 11: x is at or past L_SP of the run's last segment.
    PastEnd = 11,
    /// 12: a sheet's body would exceed 65,535 bits.
    LongBody = 12,
    /// 13: bits of the body are left after the last field.
    BitsLeft = 13,
    /// 14: an intake's sheet is asked for before a completion, after the next delivery or in phase 2 with a refusal or place that no
    /// completion gives; or with the packet's room cut short. An [`Intake`](crate::Intake) has only states that the library returned, and
    /// never cuts its room short.
    TooEarly = 14,
    /// 15: the kind is neither 0 nor 1. A [`Kind`](crate::Kind) is never another.
    UnknownKind = 15,
    /// 16: the run has no segment or more than 4.
    RunCount = 16,
    /// 17: no sheet with the key is kept in the stores that are asked.
    NotKept = 17,
    /// 18: there are no steps or more than 128, unequal numbers of starts and speeds, or starts that do not rise from 0 on or reach L_SP.
    Steps = 18,
    /// 19: the last step at or before a centimetre does not give the permitted speed.
    WrongSpeed = 19,
    /// 21: a store has more than 65,536 bytes, or its used part is not a run of accepted sheets with different keys. Only the first can be
    /// said of a [`Shelf`](crate::Shelf) that was not made of a used part.
    NoShelf = 21,
    /// 22: the leg is no segment of the journey, or the run would begin before the journey.
    NoLeg = 22,
    /// 23: a segment's NID_C, NID_SP or version are not those of the journey's segment at its place.
    OtherSegment = 23,
    /// 24: a segment is not travelled in its nominal direction.
    ReverseLeg = 24,
    /// 25: a constraint of type 0 uses a location outside its segment: a start at or past L_SP, an end of 0 or past L_SP.
    ConstraintPlace = 25,
    /// 26: the train may still stand on a segment before the run: the run does not begin at leg 0, and x counted from the run's start is
    /// below the train's length.
    TailBefore = 26,
}

/// Each refusal with its ground, in the words of the C header.
const GROUNDS: [(Refusal, &str); 25] = [
    (Refusal::ShortPacket, "a packet has fewer than 15 bytes"),
    (
        Refusal::PacketNumber,
        "the packet number is neither 4 nor 6, is 4 where a segment is needed, or is 6 where a journey is needed",
    ),
    (Refusal::PacketLength, "the packet's bytes are not 15 + L_PACKET_ATO / 8, rounded up"),
    (Refusal::FieldValue, "a field is outside its range or set, or not 0 where it is not used"),
    (
        Refusal::ChangeLocation,
        "a change's location does not rise, is 0, or is at or past L_SP; or a temporary constraint's start is not below its end",
    ),
    (Refusal::BodyBits, "a field does not fit in the body's remaining bits"),
    (Refusal::PaddingBit, "a padding bit is 1"),
    (
        Refusal::ShortRoom,
        "the result is longer than the lent room, or a packet's deliveries together are; or a store has no room for a sheet",
    ),
    (
        Refusal::SheetForm,
        "a sheet ends too soon, has bytes left, or a number is not in its shortest form or not below 4,294,967,296",
    ),
    (Refusal::TrainValue, "the train's length, cant deficiency or maximum is not allowed"),
    (Refusal::PastEnd, "x is at or past L_SP of the run's last segment"),
    (Refusal::LongBody, "a sheet's body would exceed 65,535 bits"),
    (Refusal::BitsLeft, "bits of the body are left after the last field"),
    (
        Refusal::TooEarly,
        "an intake's sheet is asked for before a completion, after the next delivery or in phase 2 with a refusal or place that no \
         completion gives; or with the packet's room cut short",
    ),
    (Refusal::UnknownKind, "the kind is neither 0 nor 1"),
    (Refusal::RunCount, "the run has no segment or more than 4"),
    (Refusal::NotKept, "no sheet with the key is kept in the stores that are asked"),
    (
        Refusal::Steps,
        "there are no steps or more than 128, unequal numbers of starts and speeds, or starts that do not rise from 0 on or reach \
         L_SP",
    ),
    (Refusal::WrongSpeed, "the last step at or before a centimetre does not give the permitted speed"),
    (
        Refusal::NoShelf,
        "a store has more than 65,536 bytes, or its used part is not a run of accepted sheets with different keys",
    ),
    (Refusal::NoLeg, "the leg is no segment of the journey, or the run would begin before the journey"),
    (
        Refusal::OtherSegment,
        "a segment's NID_C, NID_SP or version are not those of the journey's segment at its place",
    ),
    (Refusal::ReverseLeg, "a segment is not travelled in its nominal direction"),
    (
        Refusal::ConstraintPlace,
        "a constraint of type 0 uses a location outside its segment: a start at or past L_SP, an end of 0 or past L_SP",
    ),
    (
        Refusal::TailBefore,
        "the train may still stand on a segment before the run: the run does not begin at leg 0, and x counted from the run's \
         start is below the train's length",
    ),
];

impl Refusal {
    /// Returns the number of the build definition.
    #[must_use]
    pub const fn number(self) -> u32 {
        self as u32
    }

    /// Returns the ground in words.
    #[must_use]
    pub fn ground(self) -> &'static str {
        GROUNDS.iter().find(|&&(refusal, _)| refusal == self).expect("each refusal has its ground").1
    }

    /// Returns the refusal with this number, if there is one.
    #[must_use]
    pub fn from_number(number: u32) -> Option<Refusal> {
        GROUNDS.iter().map(|&(refusal, _)| refusal).find(|refusal| refusal.number() == number)
    }

    /// Returns whether the refusal is given at a bit or a byte, 4, 5, 6, 7, 9 and 13, or at a centimetre, 19. The place of every other refusal
    /// is 0.
    #[must_use]
    pub const fn has_place(self) -> bool {
        use Refusal::*;
        matches!(self, FieldValue | ChangeLocation | BodyBits | PaddingBit | SheetForm | BitsLeft | WrongSpeed)
    }

    /// Returns whether a packet or a sheet is refused so for its own bytes, whatever else is handed over: 1 to 7, 9, 12 and 13.
    #[cfg(feature = "std")]
    pub(crate) fn is_of_bytes(self) -> bool {
        matches!(self.number(), 1..=7 | 9 | 12 | 13)
    }
}

impl fmt::Display for Refusal {
    fn fmt(&self, f: &mut fmt::Formatter<'_>) -> fmt::Result {
        write!(f, "{}: {}", self.number(), self.ground())
    }
}

#[cfg(feature = "std")]
impl std::error::Error for Refusal {}

impl From<Refusal> for u32 {
    fn from(refusal: Refusal) -> u32 {
        refusal.number()
    }
}

impl TryFrom<u32> for Refusal {
    type Error = UnknownRefusal;

    fn try_from(number: u32) -> Result<Refusal, UnknownRefusal> {
        Refusal::from_number(number).ok_or(UnknownRefusal(number))
    }
}

/// A number that is no refusal's; 0 is success.
#[derive(Clone, Copy, Debug, PartialEq, Eq, Hash)]
pub struct UnknownRefusal(pub u32);

impl fmt::Display for UnknownRefusal {
    fn fmt(&self, f: &mut fmt::Formatter<'_>) -> fmt::Result {
        write!(f, "no refusal has the number {}", self.0)
    }
}

#[cfg(feature = "std")]
impl std::error::Error for UnknownRefusal {}

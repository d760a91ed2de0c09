//! The refusals of the build definition, with its numbers, and their places.

#[derive(Clone, Copy, Debug, PartialEq, Eq)]
pub enum Refusal {
    /// A packet has fewer than 15 bytes.
    Short = 1,
    /// The packet number is neither 4 nor 6, or is 4 where a segment is needed.
    Number = 2,
    /// The bytes are not 15 + L_PACKET_ATO / 8, rounded up.
    Size = 3,
    /// A field outside its range or set, or not 0 where it is not used: NID_CTRACTION at voltage 0, the last eight fields at a passing
    /// point, fields of a temporary constraint; its current not 1,023 in a packet.
    Field = 4,
    /// A change's location that does not rise, is 0, or is at or past L_SP; a temporary constraint's end that is not past its start.
    Location = 5,
    /// A field does not fit in the body's remaining bits.
    Bits = 6,
    /// A padding bit is 1.
    Padding = 7,
    /// The result is longer than the lent room, or a packet's deliveries together are; or a store has no room for a sheet.
    Room = 8,
    /// A sheet ends too soon, has bytes left, or a number is not well formed.
    Sheet = 9,
    /// The train's length, cant deficiency or maximum is not allowed.
    Train = 10,
    /// x is at or past L_SP of the run's last segment.
    PastEnd = 11,
    /// A sheet's body would exceed 65,535 bits.
    Body = 12,
    /// Bits of the body are left after the last field.
    Left = 13,
    /// An intake's sheet is asked for before a completion or after the next delivery, in phase 2 with a refusal or a place that no
    /// completion gives, or with the packet's room cut short.
    Early = 14,
    /// The kind of the segments is neither 0, packets, nor 1, sheets.
    Kind = 15,
    /// A run has no segment, or more than 4.
    Run = 16,
    /// No sheet with the key is kept in the stores that are asked.
    NotKept = 17,
    /// There are no steps or more than 128, unequal numbers of starts and speeds, or starts that do not rise from 0 on or reach L_SP.
    Steps = 18,
    /// The last step at or before a centimetre does not give the permitted speed.
    WrongSpeed = 19,
    /// A list of cards has none or more than 64, or no card of a number.
    Cards = 20,
    /// A store has more than 65,536 bytes, or its used part is not a run of accepted sheets with different keys.
    NoShelf = 21,
    /// The leg is no segment of the journey, or the run would begin before the journey.
    NoLeg = 22,
    /// A segment's NID_C, NID_SP or version are not those of the journey's segment at its place.
    OtherSegment = 23,
    /// The journey's segment is not travelled in its nominal direction.
    ReverseLeg = 24,
    /// A speed constraint of the journey's segment starts or ends outside the segment.
    ConstraintPlace = 25,
    /// The train may still stand on a segment before the run.
    TailBefore = 26,
}

/// A refusal, and the bit of the packet or the byte of the sheet at which it is given, both counted from 0.
#[derive(Clone, Copy, Debug, PartialEq, Eq)]
pub struct Refused {
    pub refusal: Refusal,
    pub place: usize,
}

impl Refusal {
    pub fn at(self, place: usize) -> Refused {
        Refused { refusal: self, place }
    }

    /// Makes a refusal that has no place: its place is 0.
    pub fn nowhere(self) -> Refused {
        self.at(0)
    }
}

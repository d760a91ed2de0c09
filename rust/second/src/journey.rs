//! A journey as an owned structure: the segments that it runs over, each with its timing points and temporary constraints.

use crate::segment::{Header, Identity};

/// Packet number of a journey on this link.
pub const JOURNEY_NUMBER: u32 = 4;

/// Widths in bits of the last eight fields of a timing point, which are 0 at a passing point.
pub const HALT_WIDTHS: [u32; 8] = [2, 1, 1, 1, 15, 17, 10, 1];

pub struct Journey {
    pub header: Header,
    pub status: u32,
    pub legs: Vec<Leg>,
}

/// One segment of the journey.
pub struct Leg {
    pub identity: Identity,
    /// Q_SP_DIR is 1: the segment is run in its nominal direction.
    pub nominal: bool,
    pub points: Vec<TimingPoint>,
    pub constraints: Vec<Constraint>,
}

pub struct TimingPoint {
    pub number: u32,
    pub latest_arrival: Moment,
    pub window: u32,
    pub alignment: u32,
    pub stop: Stop,
    pub ends_journey: bool,
    pub daylight_saving: bool,
}

pub struct Moment {
    pub date: u32,
    pub seconds: u32,
}

/// Q_Stop_Skip_Passes, with the fields of a halt unless the train passes.
pub enum Stop {
    /// 0: a stopping point.
    Stopping(Halt),
    /// 1: a stopping point that is skipped.
    Skipped(Halt),
    /// 2: a passing point.
    Passing,
}

pub struct Halt {
    pub door_side: u32,
    pub centralised_opening: bool,
    pub relaxed_coupler: bool,
    pub train_hold: bool,
    pub departure: Moment,
    pub dwell: u32,
    pub automatic_closing: bool,
}

/// A temporary constraint: its type with its values, and its range.
pub struct Constraint {
    pub kind: ConstraintType,
    pub range: Range,
}

/// Q_TC_Type, with the values that it uses.
pub enum ConstraintType {
    /// 0: a speed in km/h; Q_FRONT is 1 if its end takes no train length delay.
    Speed { front: bool, speed: u32 },
    /// 1: a rate of low adhesion.
    Adhesion(u32),
    /// 2: the driving modes above GoA1 are not available.
    AboveGoa1,
    /// 3: the driving mode GoA1 is not available.
    Goa1,
}

/// Q_TC_Range, with locations in centimetres.
pub enum Range {
    /// 0: the constraint starts at this location.
    Starts(u32),
    /// 1: the constraint ends at this location.
    Ends(u32),
    /// 2: the constraint starts and ends at these locations, the start below the end.
    Both(u32, u32),
    /// 3: the whole segment.
    Whole,
}

impl ConstraintType {
    /// Makes a type of its number, 0 to 3, and the values of the fields that it uses.
    pub fn of(number: u32, front: bool, speed: u32, rate: u32) -> ConstraintType {
        match number {
            0 => ConstraintType::Speed { front, speed },
            1 => ConstraintType::Adhesion(rate),
            2 => ConstraintType::AboveGoa1,
            _ => ConstraintType::Goa1,
        }
    }

    pub fn number(&self) -> u32 {
        match self {
            ConstraintType::Speed { .. } => 0,
            ConstraintType::Adhesion(_) => 1,
            ConstraintType::AboveGoa1 => 2,
            ConstraintType::Goa1 => 3,
        }
    }

    /// Returns Q_FRONT, the speed in km/h and the adhesion; a value that is not used is 0.
    pub fn content(&self) -> [u32; 3] {
        match self {
            ConstraintType::Speed { front, speed } => [u32::from(*front), *speed, 0],
            ConstraintType::Adhesion(rate) => [0, 0, *rate],
            ConstraintType::AboveGoa1 | ConstraintType::Goa1 => [0; 3],
        }
    }
}

impl Range {
    pub fn number(&self) -> u32 {
        match self {
            Range::Starts(_) => 0,
            Range::Ends(_) => 1,
            Range::Both(..) => 2,
            Range::Whole => 3,
        }
    }

    /// Returns the start and the end in cm; a location that is not used is 0.
    pub fn locations(&self) -> [u32; 2] {
        match self {
            Range::Starts(start) => [*start, 0],
            Range::Ends(end) => [0, *end],
            Range::Both(start, end) => [*start, *end],
            Range::Whole => [0; 2],
        }
    }
}

impl Stop {
    pub fn kind(&self) -> u32 {
        match self {
            Stop::Stopping(_) => 0,
            Stop::Skipped(_) => 1,
            Stop::Passing => 2,
        }
    }

    /// Returns the last eight fields of a timing point.
    pub fn halt(&self) -> [u32; 8] {
        match self {
            Stop::Stopping(halt) | Stop::Skipped(halt) => [
                halt.door_side,
                halt.centralised_opening.into(),
                halt.relaxed_coupler.into(),
                halt.train_hold.into(),
                halt.departure.date,
                halt.departure.seconds,
                halt.dwell,
                halt.automatic_closing.into(),
            ],
            Stop::Passing => [0; 8],
        }
    }
}

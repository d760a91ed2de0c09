//! A segment as an owned structure, in the units of the railway: centimetres, km/h, millimetres, volts, amperes.

/// Packet number of a segment on this link.
pub const SEGMENT_NUMBER: u32 = 6;

/// The cant deficiencies in millimetres, rising; NC_CDDIFF is the place in this list.
pub const CANTS: [u32; 11] = [80, 100, 130, 150, 165, 180, 210, 225, 245, 275, 300];

/// The voltages; M_VOLTAGE is the place in this list.
pub const VOLTAGES: [u32; 6] = [0, 25_000, 15_000, 3_000, 1_500, 750];

/// M_CURRENT if there is no limit.
pub const NO_LIMIT: u32 = 1_023;

/// Centimetres that are added to an altitude when it is sent.
pub const ALTITUDE_ADDED: i32 = 100_000;

pub struct Segment {
    pub header: Header,
    pub identity: Identity,
    pub length: u32,
    pub eoa_offset: u32,
    pub utc_offset: u32,
    pub altitude: i32,
    /// At least one; the first starts at 0.
    pub elements: Vec<Element>,
    /// At least one; the first is at 0.
    pub voltages: Vec<VoltageChange>,
    /// At least one; the first is at 0.
    pub currents: Vec<CurrentChange>,
}

pub struct Header {
    pub operational: u32,
    pub engine: u32,
    pub date: u32,
    pub seconds: u32,
    pub counter: u32,
}

#[derive(PartialEq, Eq)]
pub struct Identity {
    pub country: u32,
    pub number: u32,
    pub version: [u32; 2],
}

pub struct Element {
    pub start: u32,
    pub speed: u32,
    /// Q_FRONT is 1: the element's end takes no train length delay.
    pub front: bool,
    pub entries: Vec<Entry>,
}

pub struct Entry {
    pub class: Class,
    pub speed: u32,
}

/// Q_DIFF, with the class whose meaning it decides.
#[derive(PartialEq, Eq)]
pub enum Class {
    /// Q_DIFF 0: a cant deficiency in millimetres.
    Cant(u32),
    /// Q_DIFF 1: a category whose speed is taken instead.
    Instead(u32),
    /// Q_DIFF 2: a category whose speed is taken if it is lower.
    Lower(u32),
}

pub struct VoltageChange {
    pub location: u32,
    pub volts: u32,
    pub traction: u32,
}

pub struct CurrentChange {
    pub location: u32,
    /// None: no limit.
    pub amperes: Option<u32>,
}

/// Returns whether each four-bit digit of NID_OPERATIONAL is 0 to 9 or F.
pub fn is_operational(number: u32) -> bool {
    format!("{number:X}").chars().all(|digit| digit.is_ascii_digit() || digit == 'F')
}

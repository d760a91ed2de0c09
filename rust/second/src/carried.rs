//! The content of a packet or a sheet: a segment or a journey.

use crate::journey::Journey;
use crate::segment::Segment;

pub enum Carried {
    Segment(Segment),
    Journey(Journey),
}

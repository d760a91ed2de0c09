//! The restricted speed: the permitted speed on a run of a journey's segments, lowered by the journey's temporary constraints of a speed.

use crate::journey::{ConstraintType, Journey, Leg, Range};
use crate::refusal::{Refusal, Refused};
use crate::segment::Segment;
use crate::speed::{permitted, Train};

/// A restriction to a speed in km/h, from a start on and before an end, in cm from the run's start.
struct Restriction {
    speed: u32,
    start: u32,
    end: u32,
    /// Q_FRONT is 1: the end takes no train length delay.
    front: bool,
}

/// Returns the lowest of the permitted speed in km/h of a train at location `x`, in cm, of the last segment of a run and of the restrictions that
/// hold there. `last` is the number of the journey's segment in which x lies.
pub fn restricted(run: &[Segment], journey: &Journey, last: u32, train: &Train, x: u32) -> Result<u32, Refused> {
    let first = first_leg(run, journey, last)?;
    let mut restrictions = Vec::new();
    let (mut begin, mut end) = (0, 0);
    for (segment, leg) in run.iter().zip(&journey.legs[first..]) {
        begin = end;
        restrictions.append(&mut restrictions_on(segment, leg, begin)?);
        end += segment.length;
    }
    let permitted = permitted(run, train, x)?;
    let location = begin + x;
    if first > 0 && location < train.length {
        return Err(Refusal::TailBefore.nowhere());
    }
    let holding = restrictions.iter().filter(|restriction| restriction.holds(location, train));
    Ok(holding.map(|restriction| restriction.speed).fold(permitted, u32::min))
}

/// Returns the number of the journey's segment that is the run's first; x lies in its segment number `last`.
fn first_leg(run: &[Segment], journey: &Journey, last: u32) -> Result<usize, Refused> {
    let last = last as usize;
    let first = (last + 1).checked_sub(run.len());
    first.filter(|_| last < journey.legs.len()).ok_or_else(|| Refusal::NoLeg.nowhere())
}

/// Returns the restrictions on a segment of the journey that begins `begin` cm from the run's start. Refuses a leg over another segment or in reverse,
/// and a restriction that starts or ends outside the segment.
fn restrictions_on(segment: &Segment, leg: &Leg, begin: u32) -> Result<Vec<Restriction>, Refused> {
    if segment.identity != leg.identity {
        return Err(Refusal::OtherSegment.nowhere());
    }
    if !leg.nominal {
        return Err(Refusal::ReverseLeg.nowhere());
    }
    let mut restrictions = Vec::new();
    for constraint in &leg.constraints {
        if let ConstraintType::Speed { front, speed } = constraint.kind {
            let (start, end) = ends_of(&constraint.range, segment.length).ok_or_else(|| Refusal::ConstraintPlace.nowhere())?;
            restrictions.push(Restriction { speed, start: begin + start, end: begin + end, front });
        }
    }
    Ok(restrictions)
}

/// Returns where a range starts and ends on a segment of a length, if each location that it uses lies there: a start before the segment's end, an
/// end past its start.
fn ends_of(range: &Range, length: u32) -> Option<(u32, u32)> {
    let starts = |start: u32| Some(start).filter(|start| (0..length).contains(start));
    let ends = |end: u32| Some(end).filter(|end| (1..=length).contains(end));
    match *range {
        Range::Starts(start) => Some((starts(start)?, length)),
        Range::Ends(end) => Some((0, ends(end)?)),
        Range::Both(start, end) => Some((starts(start)?, ends(end)?)),
        Range::Whole => Some((0, length)),
    }
}

impl Restriction {
    /// Returns whether the restriction holds at a location: to its end, with Q_FRONT 0 to its end plus the train's length.
    fn holds(&self, location: u32, train: &Train) -> bool {
        let delay = if self.front { 0 } else { train.length };
        (self.start..self.end + delay).contains(&location)
    }
}

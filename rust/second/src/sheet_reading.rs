//! Reading a sheet: number by number down into a segment or a journey.

use crate::carried::Carried;
use crate::journey::*;
use crate::numbers::Numbers;
use crate::refusal::{Refusal, Refused};
use crate::segment::*;

/// Returns the segment or journey in a sheet, or the refusal that comes first in the document's order.
pub fn carried_in(sheet: &[u8]) -> Result<Carried, Refused> {
    let mut numbers = Numbers::new(sheet);
    match any(&mut numbers)? {
        SEGMENT_NUMBER => Ok(Carried::Segment(to_the_end(numbers, segment)?)),
        JOURNEY_NUMBER => Ok(Carried::Journey(to_the_end(numbers, journey)?)),
        _ => Err(Refusal::Number.nowhere()),
    }
}

/// Returns the segment in a sheet; refuses any other packet number than a segment's.
pub fn segment_of(sheet: &[u8]) -> Result<Segment, Refused> {
    let mut numbers = Numbers::new(sheet);
    match any(&mut numbers)? {
        SEGMENT_NUMBER => to_the_end(numbers, segment),
        _ => Err(Refusal::Number.nowhere()),
    }
}

/// Returns the journey in a sheet; refuses any other packet number than a journey's.
pub fn journey_of(sheet: &[u8]) -> Result<Journey, Refused> {
    let mut numbers = Numbers::new(sheet);
    match any(&mut numbers)? {
        JOURNEY_NUMBER => to_the_end(numbers, journey),
        _ => Err(Refusal::Number.nowhere()),
    }
}

/// Reads by `read`, and refuses bytes that are left after it.
fn to_the_end<T>(mut numbers: Numbers, read: fn(&mut Numbers) -> Result<T, Refused>) -> Result<T, Refused> {
    let content = read(&mut numbers)?;
    if numbers.is_empty() {
        Ok(content)
    } else {
        Err(Refusal::Sheet.at(numbers.place()))
    }
}

/// Reads the next number: first it must be there and well formed, then allowed; it is refused at its first byte.
fn judged(numbers: &mut Numbers, allowed: impl Fn(u32) -> bool, otherwise: Refusal) -> Result<u32, Refused> {
    let place = numbers.place();
    let number = numbers.take().ok_or_else(|| Refusal::Sheet.at(place))?;
    if allowed(number) {
        Ok(number)
    } else {
        Err(otherwise.at(place))
    }
}

/// Reads the next number; every number is allowed.
fn any(numbers: &mut Numbers) -> Result<u32, Refused> {
    within(numbers, 0, u32::MAX)
}

/// Reads the next number, which must be from `smallest` to `largest`.
fn within(numbers: &mut Numbers, smallest: u32, largest: u32) -> Result<u32, Refused> {
    judged(numbers, |number| smallest <= number && number <= largest, Refusal::Field)
}

/// Reads the next number, which must fit in a field of `width` bits.
fn fitting(numbers: &mut Numbers, width: u32) -> Result<u32, Refused> {
    within(numbers, 0, (1 << width) - 1)
}

/// Reads the next number, which must be in the list.
fn among(numbers: &mut Numbers, list: &[u32]) -> Result<u32, Refused> {
    judged(numbers, |number| list.contains(&number), Refusal::Field)
}

fn segment(numbers: &mut Numbers) -> Result<Segment, Refused> {
    let header = header(numbers)?;
    let identity = identity(numbers)?;
    let length = within(numbers, 1, 16_777_215)?;
    let eoa_offset = fitting(numbers, 24)?;
    let utc_offset = within(numbers, 0, 112)?;
    let altitude = fitting(numbers, 20)? as i32 - ALTITUDE_ADDED;
    let elements = list(numbers, length, element)?;
    let voltages = list(numbers, length, voltage)?;
    let currents = list(numbers, length, current)?;
    Ok(Segment { header, identity, length, eoa_offset, utc_offset, altitude, elements, voltages, currents })
}

fn header(numbers: &mut Numbers) -> Result<Header, Refused> {
    let operational = judged(numbers, is_operational, Refusal::Field)?;
    let engine = fitting(numbers, 24)?;
    let date = fitting(numbers, 15)?;
    let seconds = within(numbers, 0, 86_399)?;
    let counter = fitting(numbers, 8)?;
    Ok(Header { operational, engine, date, seconds, counter })
}

fn identity(numbers: &mut Numbers) -> Result<Identity, Refused> {
    let country = fitting(numbers, 10)?;
    let number = any(numbers)?;
    let version = [fitting(numbers, 8)?, fitting(numbers, 8)?];
    Ok(Identity { country, number, version })
}

/// A function that reads the item at a location.
type Item<T> = fn(&mut Numbers, u32) -> Result<T, Refused>;

/// Reads the item at the start, then at most 31 changes whose locations rise and lie before the segment's end.
fn list<T>(numbers: &mut Numbers, end: u32, item: Item<T>) -> Result<Vec<T>, Refused> {
    let mut items = vec![item(numbers, 0)?];
    let mut free = 1..end;
    for _ in 0..within(numbers, 0, 31)? {
        let location = judged(numbers, |location| free.contains(&location), Refusal::Location)?;
        free.start = location + 1;
        items.push(item(numbers, location)?);
    }
    Ok(items)
}

fn element(numbers: &mut Numbers, start: u32) -> Result<Element, Refused> {
    let speed = within(numbers, 0, 604)?;
    let front = flag(numbers)?;
    let mut entries = Vec::new();
    for _ in 0..within(numbers, 0, 31)? {
        entries.push(entry(numbers)?);
    }
    Ok(Element { start, speed, front, entries })
}

fn entry(numbers: &mut Numbers) -> Result<Entry, Refused> {
    let class = match within(numbers, 0, 2)? {
        0 => Class::Cant(among(numbers, &CANTS)?),
        1 => Class::Instead(within(numbers, 0, 2)?),
        _ => Class::Lower(within(numbers, 0, 2)?),
    };
    let speed = within(numbers, 0, 604)?;
    Ok(Entry { class, speed })
}

fn voltage(numbers: &mut Numbers, location: u32) -> Result<VoltageChange, Refused> {
    let volts = among(numbers, &VOLTAGES)?;
    let traction = within(numbers, 0, if volts == 0 { 0 } else { 1_023 })?;
    Ok(VoltageChange { location, volts, traction })
}

fn current(numbers: &mut Numbers, location: u32) -> Result<CurrentChange, Refused> {
    let number = within(numbers, 0, 10_010)?;
    Ok(CurrentChange { location, amperes: number.checked_sub(1) })
}

fn journey(numbers: &mut Numbers) -> Result<Journey, Refused> {
    let header = header(numbers)?;
    let status = within(numbers, 0, 4)?;
    let mut legs = Vec::new();
    for _ in 0..fitting(numbers, 8)? {
        legs.push(leg(numbers)?);
    }
    Ok(Journey { header, status, legs })
}

fn leg(numbers: &mut Numbers) -> Result<Leg, Refused> {
    let identity = identity(numbers)?;
    let nominal = flag(numbers)?;
    let mut points = Vec::new();
    for _ in 0..fitting(numbers, 5)? {
        points.push(timing_point(numbers)?);
    }
    let mut constraints = Vec::new();
    for _ in 0..fitting(numbers, 5)? {
        constraints.push(constraint(numbers)?);
    }
    Ok(Leg { identity, nominal, points, constraints })
}

fn timing_point(numbers: &mut Numbers) -> Result<TimingPoint, Refused> {
    let number = any(numbers)?;
    let latest_arrival = moment(numbers, 86_400)?;
    let window = fitting(numbers, 10)?;
    let alignment = within(numbers, 0, 2)?;
    let kind = within(numbers, 0, 2)?;
    let ends_journey = flag(numbers)?;
    let daylight_saving = flag(numbers)?;
    let stop = match kind {
        0 => Stop::Stopping(halt(numbers)?),
        1 => Stop::Skipped(halt(numbers)?),
        _ => passing(numbers)?,
    };
    Ok(TimingPoint { number, latest_arrival, window, alignment, stop, ends_journey, daylight_saving })
}

fn halt(numbers: &mut Numbers) -> Result<Halt, Refused> {
    let door_side = fitting(numbers, 2)?;
    let centralised_opening = flag(numbers)?;
    let relaxed_coupler = flag(numbers)?;
    let train_hold = flag(numbers)?;
    let departure = moment(numbers, 86_399)?;
    let dwell = fitting(numbers, 10)?;
    let automatic_closing = flag(numbers)?;
    Ok(Halt { door_side, centralised_opening, relaxed_coupler, train_hold, departure, dwell, automatic_closing })
}

fn passing(numbers: &mut Numbers) -> Result<Stop, Refused> {
    for _ in HALT_WIDTHS {
        zero(numbers)?;
    }
    Ok(Stop::Passing)
}

fn constraint(numbers: &mut Numbers) -> Result<Constraint, Refused> {
    let number = fitting(numbers, 2)?;
    let range = range(numbers)?;
    let kind = constraint_type(numbers, number)?;
    // no limit: no type of two bits uses the current
    zero(numbers)?;
    Ok(Constraint { kind, range })
}

fn range(numbers: &mut Numbers) -> Result<Range, Refused> {
    Ok(match fitting(numbers, 2)? {
        0 => {
            let start = fitting(numbers, 24)?;
            zero(numbers)?;
            Range::Starts(start)
        }
        1 => {
            zero(numbers)?;
            Range::Ends(fitting(numbers, 24)?)
        }
        2 => {
            let start = fitting(numbers, 24)?;
            Range::Both(start, end_after(numbers, start)?)
        }
        _ => {
            zero(numbers)?;
            zero(numbers)?;
            Range::Whole
        }
    })
}

/// Reads a constraint's end: it must fit in 24 bits, then be past the start.
fn end_after(numbers: &mut Numbers, start: u32) -> Result<u32, Refused> {
    let place = numbers.place();
    let end = fitting(numbers, 24)?;
    if start < end {
        Ok(end)
    } else {
        Err(Refusal::Location.at(place))
    }
}

/// Reads the numbers from Q_FRONT to Q_Low_Adhesion_Rate; a number that the type does not use must be 0.
fn constraint_type(numbers: &mut Numbers, number: u32) -> Result<ConstraintType, Refused> {
    let (speed, adhesion) = (number == 0, number == 1);
    let front = within(numbers, 0, if speed { 1 } else { 0 })? == 1;
    let kmh = within(numbers, 0, if speed { 604 } else { 0 })?;
    let rate = within(numbers, 0, if adhesion { 5 } else { 0 })?;
    Ok(ConstraintType::of(number, front, kmh, rate))
}

fn moment(numbers: &mut Numbers, last: u32) -> Result<Moment, Refused> {
    Ok(Moment { date: fitting(numbers, 15)?, seconds: within(numbers, 0, last)? })
}

fn flag(numbers: &mut Numbers) -> Result<bool, Refused> {
    Ok(within(numbers, 0, 1)? == 1)
}

/// Reads a number that is not used: it must be 0.
fn zero(numbers: &mut Numbers) -> Result<(), Refused> {
    within(numbers, 0, 0).map(|_| ())
}

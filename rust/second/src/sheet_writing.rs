//! Writing a sheet: the numbers in packet order, without L_PACKET_ATO and padding.

use crate::carried::Carried;
use crate::journey::*;
use crate::numbers::push;
use crate::segment::*;

/// Returns the sheet of a segment or journey.
pub fn sheet_of(carried: &Carried) -> Vec<u8> {
    let numbers = match carried {
        Carried::Segment(segment) => segment_numbers(segment),
        Carried::Journey(journey) => journey_numbers(journey),
    };
    let mut sheet = Vec::new();
    numbers.into_iter().for_each(|number| push(&mut sheet, number));
    sheet
}

fn journey_numbers(journey: &Journey) -> Vec<u32> {
    let mut numbers = header(JOURNEY_NUMBER, &journey.header).to_vec();
    numbers.extend([journey.status, journey.legs.len() as u32]);
    for leg in &journey.legs {
        numbers.extend(identity(&leg.identity));
        numbers.extend([u32::from(leg.nominal), leg.points.len() as u32]);
        leg.points.iter().for_each(|point| timing_point(&mut numbers, point));
        numbers.push(leg.constraints.len() as u32);
        leg.constraints.iter().for_each(|constraint| temporary_constraint(&mut numbers, constraint));
    }
    numbers
}

fn timing_point(numbers: &mut Vec<u32>, point: &TimingPoint) {
    let Moment { date, seconds } = point.latest_arrival;
    numbers.extend([point.number, date, seconds, point.window, point.alignment, point.stop.kind()]);
    numbers.extend([u32::from(point.ends_journey), u32::from(point.daylight_saving)]);
    numbers.extend(point.stop.halt());
}

/// Adds the numbers of a temporary constraint; the last number, 0, stands for no limit of current.
fn temporary_constraint(numbers: &mut Vec<u32>, constraint: &Constraint) {
    numbers.extend([constraint.kind.number(), constraint.range.number()]);
    numbers.extend(constraint.range.locations());
    numbers.extend(constraint.kind.content());
    numbers.push(0);
}

fn segment_numbers(segment: &Segment) -> Vec<u32> {
    let mut numbers = start(segment);
    for (place, element) in segment.elements.iter().enumerate() {
        place_of(&mut numbers, place, element.start);
        numbers.extend([element.speed, u32::from(element.front), element.entries.len() as u32]);
        numbers.extend(element.entries.iter().flat_map(entry));
        count_after_first(&mut numbers, place, segment.elements.len());
    }
    for (place, change) in segment.voltages.iter().enumerate() {
        place_of(&mut numbers, place, change.location);
        numbers.extend([change.volts, change.traction]);
        count_after_first(&mut numbers, place, segment.voltages.len());
    }
    for (place, change) in segment.currents.iter().enumerate() {
        place_of(&mut numbers, place, change.location);
        numbers.push(change.amperes.map_or(0, |amperes| amperes + 1));
        count_after_first(&mut numbers, place, segment.currents.len());
    }
    numbers
}

fn start(segment: &Segment) -> Vec<u32> {
    let mut numbers = header(SEGMENT_NUMBER, &segment.header).to_vec();
    numbers.extend(identity(&segment.identity));
    numbers.extend([segment.length, segment.eoa_offset, segment.utc_offset, (segment.altitude + ALTITUDE_ADDED) as u32]);
    numbers
}

fn header(number: u32, header: &Header) -> [u32; 6] {
    [number, header.operational, header.engine, header.date, header.seconds, header.counter]
}

fn identity(identity: &Identity) -> [u32; 4] {
    [identity.country, identity.number, identity.version[0], identity.version[1]]
}

fn entry(entry: &Entry) -> [u32; 3] {
    match entry.class {
        Class::Cant(millimetres) => [0, millimetres, entry.speed],
        Class::Instead(category) => [1, category, entry.speed],
        Class::Lower(category) => [2, category, entry.speed],
    }
}

/// Adds the location of a list's item; the first item, at the start, has none.
fn place_of(numbers: &mut Vec<u32>, place: usize, location: u32) {
    if place > 0 {
        numbers.push(location);
    }
}

/// Adds the count of changes after the first item of a list.
fn count_after_first(numbers: &mut Vec<u32>, place: usize, items: usize) {
    if place == 0 {
        numbers.push(items as u32 - 1);
    }
}

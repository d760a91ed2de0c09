//! Writing a packet: the bits of the body come first, because the header counts them.

use crate::bits::{bytes_of, push};
use crate::carried::Carried;
use crate::journey::*;
use crate::refusal::{Refusal, Refused};
use crate::segment::*;

/// Returns the packet of a segment or journey; refuses it if the header cannot count the bits of the body.
pub fn packet_of(carried: &Carried) -> Result<Vec<u8>, Refused> {
    let (number, head, mut body) = match carried {
        Carried::Segment(segment) => (SEGMENT_NUMBER, &segment.header, segment_body(segment)),
        Carried::Journey(journey) => (JOURNEY_NUMBER, &journey.header, journey_body(journey)),
    };
    let mut packet = header(number, counted(&body)?, head);
    packet.append(&mut body);
    Ok(bytes_of(&packet))
}

/// Refuses a journey if a packet's header could not count the bits of its body.
pub fn fits_a_packet(journey: &Journey) -> Result<(), Refused> {
    counted(&journey_body(journey)).map(|_| ())
}

/// Returns the count of a body's bits, which the header has in 16 bits.
fn counted(body: &[bool]) -> Result<u16, Refused> {
    u16::try_from(body.len()).map_err(|_| Refusal::Body.nowhere())
}

fn segment_body(segment: &Segment) -> Vec<bool> {
    let mut body = Vec::new();
    identity(&mut body, &segment.identity);
    measures(&mut body, segment);
    elements(&mut body, &segment.elements);
    voltages(&mut body, &segment.voltages);
    currents(&mut body, &segment.currents);
    body
}

fn journey_body(journey: &Journey) -> Vec<bool> {
    let mut body = Vec::new();
    push(&mut body, 3, journey.status);
    push(&mut body, 8, journey.legs.len() as u32);
    for leg in &journey.legs {
        identity(&mut body, &leg.identity);
        push(&mut body, 1, u32::from(leg.nominal));
        push(&mut body, 5, leg.points.len() as u32);
        leg.points.iter().for_each(|point| timing_point(&mut body, point));
        push(&mut body, 5, leg.constraints.len() as u32);
        leg.constraints.iter().for_each(|constraint| temporary_constraint(&mut body, constraint));
    }
    body
}

fn header(number: u32, length: u16, header: &Header) -> Vec<bool> {
    let mut bits = Vec::new();
    push(&mut bits, 8, number);
    push(&mut bits, 16, length.into());
    push(&mut bits, 32, header.operational);
    push(&mut bits, 24, header.engine);
    push(&mut bits, 15, header.date);
    push(&mut bits, 17, header.seconds);
    push(&mut bits, 8, header.counter);
    bits
}

fn identity(body: &mut Vec<bool>, identity: &Identity) {
    push(body, 10, identity.country);
    push(body, 32, identity.number);
    push(body, 8, identity.version[0]);
    push(body, 8, identity.version[1]);
}

fn measures(body: &mut Vec<bool>, segment: &Segment) {
    push(body, 24, segment.length);
    push(body, 24, segment.eoa_offset);
    push(body, 7, segment.utc_offset);
    push(body, 20, (segment.altitude + ALTITUDE_ADDED) as u32);
}

/// Writes a list: the item at the start, the count of changes, and each change with its location.
fn list<T>(body: &mut Vec<bool>, items: &[T], location: fn(&T) -> u32, write: fn(&mut Vec<bool>, &T)) {
    write(body, &items[0]);
    push(body, 5, items.len() as u32 - 1);
    for item in &items[1..] {
        push(body, 24, location(item));
        write(body, item);
    }
}

fn elements(body: &mut Vec<bool>, elements: &[Element]) {
    list(body, elements, |element| element.start, element);
}

fn element(body: &mut Vec<bool>, element: &Element) {
    push(body, 7, element.speed / 5);
    push(body, 1, u32::from(element.front));
    push(body, 5, element.entries.len() as u32);
    for entry in &element.entries {
        let (kind, class) = match entry.class {
            Class::Cant(millimetres) => (0, place(&CANTS, millimetres)),
            Class::Instead(category) => (1, category),
            Class::Lower(category) => (2, category),
        };
        push(body, 2, kind);
        push(body, 4, class);
        push(body, 7, entry.speed / 5);
    }
}

fn voltages(body: &mut Vec<bool>, voltages: &[VoltageChange]) {
    list(
        body,
        voltages,
        |change| change.location,
        |body, change| {
            push(body, 4, place(&VOLTAGES, change.volts));
            push(body, 10, change.traction);
        },
    );
}

fn currents(body: &mut Vec<bool>, currents: &[CurrentChange]) {
    list(
        body,
        currents,
        |change| change.location,
        |body, change| {
            push(body, 10, change.amperes.map_or(NO_LIMIT, |amperes| amperes / 10));
        },
    );
}

fn timing_point(body: &mut Vec<bool>, point: &TimingPoint) {
    push(body, 32, point.number);
    push(body, 15, point.latest_arrival.date);
    push(body, 17, point.latest_arrival.seconds);
    push(body, 10, point.window);
    push(body, 2, point.alignment);
    push(body, 2, point.stop.kind());
    push(body, 2, u32::from(point.ends_journey));
    push(body, 1, u32::from(point.daylight_saving));
    for (width, value) in HALT_WIDTHS.into_iter().zip(point.stop.halt()) {
        push(body, width, value);
    }
}

fn temporary_constraint(body: &mut Vec<bool>, constraint: &Constraint) {
    let [start, end] = constraint.range.locations();
    let [front, speed, adhesion] = constraint.kind.content();
    push(body, 2, constraint.kind.number());
    push(body, 2, constraint.range.number());
    push(body, 24, start);
    push(body, 24, end);
    push(body, 1, front);
    push(body, 7, speed / 5);
    push(body, 3, adhesion);
    push(body, 10, NO_LIMIT);
}

/// Returns the place of a figure that is known to stand in the list.
fn place(list: &[u32], figure: u32) -> u32 {
    list.iter().take_while(|other| **other != figure).count() as u32
}

//! The second program: the operations of the build definition and of its requests, from the documents alone, to be compared with the archive.
//! It favours plainness over speed: bits are a list, and a segment or a journey is an owned structure that every operation builds whole.

mod bits;
mod carried;
#[cfg(test)]
mod desk;
#[cfg(test)]
mod desk_bytes;
#[cfg(test)]
mod desk_cants;
#[cfg(test)]
mod desk_constraints;
#[cfg(test)]
mod desk_fleet;
#[cfg(test)]
mod desk_intakes;
#[cfg(test)]
mod desk_journeys;
#[cfg(test)]
mod desk_kinds;
#[cfg(test)]
mod desk_maxima;
#[cfg(test)]
mod desk_places;
#[cfg(test)]
mod desk_restricted;
#[cfg(test)]
mod desk_runs;
#[cfg(test)]
mod desk_shelves;
#[cfg(test)]
mod desk_steps;
#[cfg(test)]
mod desk_wires;
mod fleet;
mod intake;
mod journey;
mod numbers;
mod packet_reading;
mod packet_writing;
mod refusal;
mod restricted;
mod segment;
mod sheet_reading;
mod sheet_writing;
mod shelf;
mod speed;
mod steps;

pub use fleet::{lowest, move_card, screen, Card};
pub use intake::{Intake, Told};
pub use refusal::{Refusal, Refused};
pub use shelf::{add, key_of, lookup, remove, Key, Part};
pub use speed::Train;

use journey::Journey;
use segment::Segment;

/// Writes the sheet of a packet at the start of the room and returns its length.
pub fn packet_to_sheet(packet: &[u8], room: &mut [u8]) -> Result<usize, Refused> {
    let carried = packet_reading::carried_in(packet)?;
    lay(&sheet_writing::sheet_of(&carried), room)
}

/// Writes the packet of a sheet at the start of the room and returns its length.
pub fn sheet_to_packet(sheet: &[u8], room: &mut [u8]) -> Result<usize, Refused> {
    let carried = sheet_reading::carried_in(sheet)?;
    lay(&packet_writing::packet_of(&carried)?, room)
}

/// Kinds of the segments that the speed question takes.
pub const KIND_PACKET: u32 = 0;
pub const KIND_SHEET: u32 = 1;

/// How many segments a question lends; a run has one of them, or up to all.
pub const LENT: usize = 4;

/// Returns the permitted speed in km/h at location `x`, in cm, of the last segment of a run: the first `count` of the segments lent, in order of
/// travel, all of one kind. A packet's speeds count 5 km/h, a sheet's 1 km/h; no speed is above the train's maximum.
pub fn permitted_speed(kind: u32, count: u32, lent: [&[u8]; LENT], train: &Train, x: u32) -> Result<u32, Refused> {
    speed::permitted(&run_of(kind, count, lent)?, train, x)
}

/// Returns the restricted speed in km/h at location `x`, in cm, of the last segment of a run: the lowest of the permitted speed and of the speeds of
/// the journey's temporary constraints that hold there. The journey is of the segments' kind; x lies in its segment number `leg`, 0 the first.
pub fn restricted_speed(
    kind: u32,
    count: u32,
    lent: [&[u8]; LENT],
    journey: &[u8],
    leg: u32,
    train: &Train,
    x: u32,
) -> Result<u32, Refused> {
    let run = run_of(kind, count, lent)?;
    restricted::restricted(&run, &journey_of(kind, journey)?, leg, train, x)
}

/// Checks the steps that start at `starts`, in cm, with these speeds, in km/h, against the permitted speed at every centimetre of the last segment of
/// a run. With [`Refusal::WrongSpeed`] the place is the first wrong centimetre.
pub fn check_steps(
    kind: u32,
    count: u32,
    lent: [&[u8]; LENT],
    train: &Train,
    starts: &[u32],
    speeds: &[u32],
) -> Result<(), Refused> {
    steps::check(&run_of(kind, count, lent)?, train, starts, speeds)
}

/// Returns the places at which a list of right steps for a train can need a step, in any order.
pub fn step_places(kind: u32, count: u32, lent: [&[u8]; LENT], train: &Train) -> Result<Vec<u32>, Refused> {
    Ok(speed::changes(&run_of(kind, count, lent)?, train))
}

/// Reads the segments of a run, in order.
fn run_of(kind: u32, count: u32, lent: [&[u8]; LENT]) -> Result<Vec<Segment>, Refused> {
    let read: fn(&[u8]) -> Result<Segment, Refused> = match kind {
        KIND_PACKET => packet_reading::segment_of,
        KIND_SHEET => sheet_reading::segment_of,
        _ => return Err(Refusal::Kind.nowhere()),
    };
    if count == 0 || count as usize > LENT {
        return Err(Refusal::Run.nowhere());
    }
    lent[..count as usize].iter().map(|segment| read(segment)).collect()
}

/// Reads a journey of a kind that is known. A sheet is refused too if its packet would be too long.
fn journey_of(kind: u32, journey: &[u8]) -> Result<Journey, Refused> {
    if kind == KIND_PACKET {
        return packet_reading::journey_of(journey);
    }
    let journey = sheet_reading::journey_of(journey)?;
    packet_writing::fits_a_packet(&journey)?;
    Ok(journey)
}

/// Returns the permitted speed on a run of one segment.
pub fn permitted_speed_one(kind: u32, segment: &[u8], train: &Train, x: u32) -> Result<u32, Refused> {
    permitted_speed(kind, 1, [segment, &[], &[], &[]], train, x)
}

/// Returns the altitude of a packet in signed centimetres.
pub fn altitude_of_packet(packet: &[u8]) -> Result<i32, Refused> {
    Ok(packet_reading::segment_of(packet)?.altitude)
}

/// Copies a result to the start of the room, or leaves the room as it was.
fn lay(result: &[u8], room: &mut [u8]) -> Result<usize, Refused> {
    let start = room.get_mut(..result.len()).ok_or_else(|| Refusal::Room.nowhere())?;
    start.copy_from_slice(result);
    Ok(result.len())
}

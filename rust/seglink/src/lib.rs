//! The segment link in safe Rust, over the proved static library: packets to sheets and back, packets that arrive in deliveries, permitted
//! and [restricted](restricted_speed) speeds, the altitude, a [`Shelf`] of segments, and a check of a supplier's [`Steps`].
//!
//! A packet or a sheet is of a segment (packet number 6) or of a journey (packet number 4). The conversions and an [`Intake`] take both,
//! the questions take segments alone, but for [`restricted_speed`], which takes a journey beside them.
//! A segment has up to 31 changes of speed, 31 of voltage and 31 of current.
//! A segment of a journey has up to 31 temporary constraints. A field that a constraint's type and range do not use is 0; its current, which
//! no type uses, is 1,023 in the packet. All speeds are lowered to multiples of 5 km/h on their way to the packet.
//!
//! An element of the speed profile gives a train the lowest speed of its entries by cant deficiency (Q_DIFF 0) that name the train's own
//! figure or, if there are none, the greatest figure below it; V_STATIC if there are none either. The lowest entry with Q_DIFF 1 for a category
//! of the train replaces that speed, entries with Q_DIFF 2 can only lower it. The permitted speed is the lowest of the elements that hold.
//! An element with Q_FRONT 0 holds for the train's length past its end. So a question takes a run of up to four segments, in order of travel, the
//! last of them with the train's front: their elements are laid end to end, and those on which the tail still stands count.
//! No permitted speed is above the train's own maximum.
//!
//! The permitted speed knows nothing of a journey. Where a journey is at hand, ask for the [`restricted_speed`]: it has the journey's temporary
//! constraints of a speed in it.
//!
//! Any bytes may be handed over. An operation answers, or gives the one [`Refusal`] that the build definition names, with its place,
//! and then a lent room keeps every byte it had.
//!
//! ```
//! use seglink::{Kind, Refusal, Refused, Train};
//!
//! // The build definition's sample sheet: a segment of 1 cm, 80 km/h.
//! let sheet = [6, 0xC5, 0xC6, 4, 1, 0, 0, 7, 0, 0, 0, 0, 1, 0, 0, 0, 80, 0, 0, 0, 0, 0, 0, 0, 0];
//! let mut packet = seglink::packet_of(&sheet)?;
//! assert_eq!(packet.len(), 39);
//! assert_eq!(seglink::sheet_of(&packet)?, sheet);
//! assert_eq!(seglink::altitude_of_packet(&packet)?, -100_000);
//!
//! let train = Train::new(200, 150, 600).passenger(); // 2 m long, 150 mm of cant deficiency, 600 km/h at most
//! assert_eq!(seglink::permitted_speed(Kind::Packet, &[&packet], train, 0)?, 80);
//! assert_eq!(seglink::permitted_speed(Kind::Sheet, &[&sheet], train, 0)?, 80);
//! assert_eq!(seglink::permitted_speed(Kind::Packet, &[&packet], train, 1).unwrap_err().refusal, Refusal::PastEnd);
//!
//! // The next segment allows 120 km/h, and the train's tail is still on the first.
//! let mut next = sheet;
//! next[16] = 120;
//! assert_eq!(seglink::permitted_speed(Kind::Sheet, &[&next], train, 0)?, 120);
//! assert_eq!(seglink::permitted_speed(Kind::Sheet, &[&sheet, &next], train, 0)?, 80);
//!
//! // A slower train keeps to its own maximum.
//! let slower = Train::new(200, 150, 63).passenger();
//! assert_eq!(seglink::permitted_speed(Kind::Packet, &[&packet], slower, 0)?, 63);
//!
//! packet[38] = 0x24; // two padding bits
//! let refused = seglink::sheet_of(&packet).unwrap_err();
//! assert_eq!((refused.refusal, refused.place), (Refusal::PaddingBit, 306));
//! assert_eq!(refused.to_string(), "7 at bit 306: a padding bit is 1");
//! # Ok::<(), Refused>(())
//! ```
//!
//! Without the feature `std`, which is there by default, the crate needs `core` and `alloc` alone; [`Refused`] is then no `std::error::Error` and
//! turns into no `std::io::Error`, and an [`Intake`] is no `std::io::Write`.
//! The crate is checked and documented where the static library is missing, or is for another processor; a program that uses it then does not link.
#![no_std]
#![deny(unsafe_code, missing_docs)]

extern crate alloc;
#[cfg(feature = "std")]
extern crate std;

use alloc::{vec, vec::Vec};

mod boundary;
mod intake;
mod interface;
mod kind;
mod refusal;
mod refused;
#[cfg(test)]
mod refused_first;
mod restricted;
mod shelf;
mod steps;
mod train;

pub use intake::Intake;
pub use interface::INTERFACE;
pub use kind::Kind;
pub use refusal::{Refusal, UnknownRefusal};
pub use refused::{Refused, Unit};
pub use restricted::restricted_speed;
pub use shelf::{Key, Shelf};
pub use steps::{check_steps, steps_of, Steps};
pub use train::Train;

/// Bytes of a segment's smallest packet.
pub const SMALLEST_PACKET: usize = 39;
/// Bytes of a segment's largest packet: a room of this size holds the packet of any segment.
pub const LARGEST_PACKET: usize = 2073;
/// Bytes of a segment's largest sheet: a room of this size holds the sheet of any segment.
pub const LARGEST_SHEET: usize = 5728;
/// Bytes of a journey's largest packet: a room of this size holds any packet.
pub const LARGEST_JOURNEY_PACKET: usize = 8207;
/// Bytes that no journey's sheet exceeds: a room of this size holds any sheet.
pub const LARGEST_JOURNEY_SHEET: usize = 15226;

/// Writes the sheet of a packet to the start of the room and returns the sheet's length; the bytes of the room past it stay.
///
/// # Errors
///
/// Refused as the packet is (1 to 7 and 13, at a bit), then with [`Refusal::ShortRoom`]. A refusal leaves the room as it was.
pub fn packet_to_sheet(packet: &[u8], room: &mut [u8]) -> Result<usize, Refused> {
    let converted = boundary::packet_to_sheet(packet, room);
    answer(converted.refusal, converted.place, Unit::Bit, converted.length as usize)
}

/// Writes the packet of a sheet to the start of the room and returns the packet's length; the bytes of the room past it stay.
///
/// # Errors
///
/// Refused as the sheet is (2, 4, 5 and 9, at a byte), then with [`Refusal::LongBody`], then with [`Refusal::ShortRoom`]. A refusal leaves the room as it
/// was.
pub fn sheet_to_packet(sheet: &[u8], room: &mut [u8]) -> Result<usize, Refused> {
    let converted = boundary::sheet_to_packet(sheet, room);
    answer(converted.refusal, converted.place, Unit::Byte, converted.length as usize)
}

/// Returns the sheet of a packet, in a room of its own that has no spare bytes.
///
/// # Errors
///
/// Refused as [`packet_to_sheet`], and never with [`Refusal::ShortRoom`].
pub fn sheet_of(packet: &[u8]) -> Result<Vec<u8>, Refused> {
    filled(LARGEST_JOURNEY_SHEET, |room| packet_to_sheet(packet, room))
}

/// Returns the packet of a sheet, in a room of its own that has no spare bytes.
///
/// # Errors
///
/// Refused as [`sheet_to_packet`], and never with [`Refusal::ShortRoom`].
pub fn packet_of(sheet: &[u8]) -> Result<Vec<u8>, Refused> {
    filled(LARGEST_JOURNEY_PACKET, |room| sheet_to_packet(sheet, room))
}

/// Returns the permitted speed in km/h of a train at `x` cm from the start of the last segment of a run: the profile's speed, or the train's maximum
/// where that is lower. The segments, one to four of them, are in order of travel and all of one kind; the same may stand twice. Packets' speeds
/// are multiples of 5 km/h, a train's maximum need not be one.
///
/// # Errors
///
/// Refused, in this order: a run of none or more than four, of which none is read; the segments, one after the other, each with its own refusal
/// at a place within it; the train; x at or past the end of the last segment.
pub fn permitted_speed(kind: Kind, segments: &[&[u8]], train: Train, x: u32) -> Result<u32, Refused> {
    let asked = boundary::permitted_speed(kind.number(), segments, train, x);
    answer(asked.refusal, asked.place, kind.unit(), asked.speed)
}

/// Returns the altitude of a packet's segment in signed centimetres.
///
/// # Errors
///
/// Refused as the packet is: 1 to 7 and 13, at a bit.
pub fn altitude_of_packet(packet: &[u8]) -> Result<i32, Refused> {
    let asked = boundary::altitude_of_packet(packet);
    answer(asked.refusal, asked.place, Unit::Bit, asked.altitude)
}

/// Returns the number of the static library's interface, which is [`INTERFACE`].
#[must_use]
pub fn version() -> u32 {
    boundary::version()
}

/// Lends a conversion a room of `size` bytes and returns the bytes that it wrote, without the rest of the room.
fn filled(size: usize, convert: impl FnOnce(&mut [u8]) -> Result<usize, Refused>) -> Result<Vec<u8>, Refused> {
    let mut room = vec![0; size];
    let length = convert(&mut room)?;
    room.truncate(length);
    room.shrink_to_fit();
    Ok(room)
}

/// Makes a result of a library's answer. Refusal 0 is success; the library is proved to give no other number that is not a [`Refusal`].
fn answer<T>(refusal: u32, place: u32, unit: Unit, value: T) -> Result<T, Refused> {
    if refusal == 0 {
        return Ok(value);
    }
    let refusal = Refusal::from_number(refusal).expect("the static library is of this crate's version");
    Err(Refused { refusal, place, unit })
}

//! The document's desk cases, and the crossed wires that it fears.

use crate::bits::{bits_of, bytes_of, push};
use crate::numbers;
use crate::*;

/// The numbers of the document's sheet; constants name some of their places.
pub const SHEET: [u32; 23] = [6, 0x12345, 1, 0, 0, 7, 0, 0, 0, 0, 1, 0, 0, 0, 80, 0, 0, 0, 0, 0, 0, 0, 0];
const SECONDS: usize = 4;
pub const LENGTH: usize = 10;
pub const SPEED: usize = 14;
pub const FRONT: usize = 15;
pub const SPEED_CHANGES: usize = 17;
pub const VOLTAGE_CHANGES: usize = 20;
const CURRENT: usize = 21;
pub const CURRENT_CHANGES: usize = 22;

/// First bits of fields of the document's packet, and their widths in bits.
const SECONDS_BITS: (usize, u32) = (95, 17);
pub const VOLTAGE_COUNT_BITS: (usize, u32) = (120 + 165, 5);
pub const CURRENT_COUNT_BITS: (usize, u32) = (120 + 180, 5);

pub const TRAIN: Train = Train { length: 200, cant: 80, maximum: 600, freight_p: false, freight_g: false, passenger: false };

pub fn sheet(numbers: &[u32]) -> Vec<u8> {
    let mut sheet = Vec::new();
    numbers.iter().for_each(|number| numbers::push(&mut sheet, *number));
    sheet
}

/// Returns the document's sheet with one number replaced.
pub fn sheet_with(place: usize, number: u32) -> Vec<u8> {
    let mut numbers = SHEET;
    numbers[place] = number;
    sheet(&numbers)
}

/// Returns the document's packet, byte by byte.
pub fn sample() -> Vec<u8> {
    let mut packet = vec![0x06, 0x00, 0xB9, 0x00, 0x01, 0x23, 0x45, 0x00, 0x00, 0x01, 0x00, 0x00, 0x00, 0x00, 0x07];
    packet.extend([0; 10]);
    packet.push(0x40);
    packet.extend([0; 5]);
    packet.push(0x01);
    packet.extend([0; 4]);
    packet.extend([0x3F, 0xF0, 0x00]);
    packet
}

/// Returns a packet with one field replaced.
pub fn packet_with(packet: &[u8], (place, width): (usize, u32), value: u32) -> Vec<u8> {
    let mut bits = bits_of(packet);
    let mut field = Vec::new();
    push(&mut field, width, value);
    bits.splice(place..place + field.len(), field);
    bytes_of(&bits)
}

pub fn packet_of(sheet: &[u8]) -> Result<Vec<u8>, Refused> {
    let mut room = vec![0; 8_207];
    let length = sheet_to_packet(sheet, &mut room)?;
    room.truncate(length);
    Ok(room)
}

pub fn sheet_of(packet: &[u8]) -> Result<Vec<u8>, Refused> {
    let mut room = vec![0; 15_226];
    let length = packet_to_sheet(packet, &mut room)?;
    room.truncate(length);
    Ok(room)
}

#[test]
fn the_sample_goes_both_ways() {
    let bytes = [0x06, 0xC5, 0xC6, 0x04, 0x01, 0, 0, 0x07, 0, 0, 0, 0, 0x01, 0, 0, 0, 0x50, 0, 0, 0, 0, 0, 0, 0, 0];
    assert_eq!(sheet(&SHEET), bytes);
    assert_eq!(sample().len(), 39);
    assert_eq!(sheet_of(&sample()), Ok(bytes.to_vec()));
    assert_eq!(packet_of(&bytes), Ok(sample()));
    assert_eq!(altitude_of_packet(&sample()), Ok(-100_000));
    assert_eq!(permitted_speed_one(KIND_PACKET, &sample(), &TRAIN, 0), Ok(80));
}

#[test]
fn speeds_are_lowered_to_the_whole_part() {
    assert_eq!(packet_of(&sheet_with(SPEED, 83)), Ok(sample()));
    assert_eq!(packet_of(&sheet_with(SPEED, 84)), Ok(sample()));
    assert_ne!(packet_of(&sheet_with(SPEED, 85)), Ok(sample()));
    assert!(packet_of(&sheet_with(SPEED, 85)).is_ok());
    assert_eq!(packet_of(&sheet_with(SPEED, 604)), packet_of(&sheet_with(SPEED, 600)));
    assert_eq!(packet_of(&sheet_with(SPEED, 605)), Err(Refusal::Field.at(16)));
    assert_eq!(permitted_speed_one(KIND_SHEET, &sheet_with(SPEED, 84), &TRAIN, 0), Ok(84));
}

#[test]
fn packets_are_refused_in_the_document_s_order() {
    assert_eq!(sheet_of(&[]), Err(Refusal::Short.nowhere()));
    assert_eq!(sheet_of(&sample()[..38]), Err(Refusal::Size.nowhere()));
    assert_eq!(sheet_of(&packet_with(&sample(), (38 * 8, 8), 1)), Err(Refusal::Padding.at(311)));
    assert_eq!(sheet_of(&packet_with(&sample(), (0, 8), 5)), Err(Refusal::Number.nowhere()));
    assert_eq!(sheet_of(&packet_with(&sample(), (8, 16), 186)), Err(Refusal::Left.at(305)));
    assert_eq!(sheet_of(&packet_with(&sample(), (8, 16), 184)), Err(Refusal::Size.nowhere()));
}

#[test]
fn sheets_are_refused_for_their_form() {
    assert_eq!(packet_of(&[]), Err(Refusal::Sheet.at(0)));
    assert_eq!(packet_of(&[0x80, 0x00]), Err(Refusal::Sheet.at(0)));
    assert_eq!(packet_of(&[sheet(&SHEET), vec![0]].concat()), Err(Refusal::Sheet.at(25)));
    assert_eq!(packet_of(&sheet_with(0, 5)), Err(Refusal::Number.nowhere()));
    assert_eq!(sheet(&[300, 127, 128]), [0xAC, 0x02, 0x7F, 0x80, 0x01]);
    let mut reader = numbers::Numbers::new(&[0xFF, 0xFF, 0xFF, 0xFF, 0x0F, 0x80, 0x80, 0x80, 0x80, 0x10]);
    assert_eq!(reader.take(), Some(u32::MAX));
    assert_eq!(reader.place(), 5);
    assert_eq!(reader.take(), None);
}

#[test]
fn no_current_limit_is_not_a_limit_of_nothing() {
    let none = packet_of(&sheet_with(CURRENT, 0));
    let nothing = packet_of(&sheet_with(CURRENT, 1));
    assert!(nothing.is_ok());
    assert_ne!(none, nothing);
    assert_eq!(sheet_of(&nothing.unwrap()), Ok(sheet_with(CURRENT, 1)));
    assert_eq!(packet_of(&sheet_with(CURRENT, 10_010)), packet_of(&sheet_with(CURRENT, 10_001)));
    assert_eq!(packet_of(&sheet_with(CURRENT, 10_011)), Err(Refusal::Field.at(23)));
}

#[test]
fn the_slower_element_holds_for_the_train_s_length() {
    let mut numbers = SHEET.to_vec();
    numbers[LENGTH] = 1_000;
    numbers[SPEED] = 100;
    numbers.splice(SPEED_CHANGES..=SPEED_CHANGES, [1, 500, 140, 0, 0]);
    let delayed = sheet(&numbers);
    assert_eq!(permitted_speed_one(KIND_SHEET, &delayed, &TRAIN, 699), Ok(100));
    assert_eq!(permitted_speed_one(KIND_SHEET, &delayed, &TRAIN, 700), Ok(140));
    let packet = packet_of(&delayed).unwrap();
    assert_eq!(permitted_speed_one(KIND_PACKET, &packet, &TRAIN, 699), Ok(100));
    assert_eq!(permitted_speed_one(KIND_PACKET, &packet, &TRAIN, 700), Ok(140));
    numbers[FRONT] = 1;
    assert_eq!(permitted_speed_one(KIND_SHEET, &sheet(&numbers), &TRAIN, 500), Ok(140));
    assert_eq!(permitted_speed_one(KIND_SHEET, &sheet(&numbers), &TRAIN, 499), Ok(100));
}

#[test]
fn entries_replace_and_then_lower() {
    let mut numbers = SHEET.to_vec();
    // cant 100 mm: 120 km/h; freight G instead: 60 and 90; passenger lower: 50; freight P lower: 200
    let entries = [5, 0, 100, 120, 1, 1, 90, 1, 1, 60, 2, 2, 50, 2, 0, 200];
    numbers.splice(SPEED_CHANGES - 1..SPEED_CHANGES, entries);
    let sheet = sheet(&numbers);
    let speed = |cant, freight_p, freight_g, passenger| {
        permitted_speed_one(KIND_SHEET, &sheet, &Train { length: 1, cant, freight_p, freight_g, passenger, ..TRAIN }, 0)
    };
    assert_eq!(speed(80, false, false, false), Ok(80));
    assert_eq!(speed(100, false, false, false), Ok(120));
    assert_eq!(speed(100, false, true, false), Ok(60));
    assert_eq!(speed(100, true, false, false), Ok(120));
    assert_eq!(speed(100, false, true, true), Ok(50));
}

#[test]
fn trains_and_locations_are_judged_last() {
    let sheet = sheet(&SHEET);
    for (length, cant) in [(0, 80), (150_001, 80), (200, 81)] {
        let train = Train { length, cant, ..TRAIN };
        assert_eq!(permitted_speed_one(KIND_SHEET, &sheet, &train, 9), Err(Refusal::Train.nowhere()));
        assert_eq!(permitted_speed_one(KIND_PACKET, &[], &train, 9), Err(Refusal::Short.nowhere()));
    }
    assert_eq!(permitted_speed_one(KIND_SHEET, &sheet, &TRAIN, 1), Err(Refusal::PastEnd.nowhere()));
    assert_eq!(permitted_speed_one(KIND_PACKET, &sample(), &TRAIN, u32::MAX), Err(Refusal::PastEnd.nowhere()));
}

#[test]
fn seconds_end_with_the_day() {
    let last = packet_with(&sample(), SECONDS_BITS, 86_399);
    assert_eq!(sheet_of(&last), Ok(sheet_with(SECONDS, 86_399)));
    assert_eq!(packet_of(&sheet_with(SECONDS, 86_399)), Ok(last));
    assert_eq!(sheet_of(&packet_with(&sample(), SECONDS_BITS, 86_400)), Err(Refusal::Field.at(95)));
    assert_eq!(packet_of(&sheet_with(SECONDS, 86_400)), Err(Refusal::Field.at(6)));
}

#[test]
fn locations_lie_between_the_segment_s_ends() {
    let changed = |locations: &[u32]| {
        let mut numbers = SHEET.to_vec();
        numbers[LENGTH] = 1_000;
        numbers[SPEED_CHANGES] = locations.len() as u32;
        let changes = locations.iter().flat_map(|location| [*location, 80, 0, 0]);
        numbers.splice(SPEED_CHANGES + 1..SPEED_CHANGES + 1, changes);
        packet_of(&sheet(&numbers))
    };
    assert!(changed(&[1, 999]).is_ok());
    for (wrong, place) in [([0, 5], 21), ([5, 5], 25), ([5, 4], 25), ([5, 1_000], 25), ([5, u32::MAX], 25)] {
        assert_eq!(changed(&wrong), Err(Refusal::Location.at(place)));
    }
}

#[test]
fn the_room_stays_where_it_is_too_small() {
    let mut room = [0xEE; 38];
    assert_eq!(sheet_to_packet(&sheet(&SHEET), &mut room), Err(Refusal::Room.nowhere()));
    assert_eq!(packet_to_sheet(&sample(), &mut room[..24]), Err(Refusal::Room.nowhere()));
    assert_eq!(room, [0xEE; 38]);
    assert_eq!(packet_to_sheet(&sample(), &mut room), Ok(25));
    assert_eq!((room[16], room[25]), (0x50, 0xEE));
}

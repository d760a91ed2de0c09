//! Tests of journeys, written from their request: both conversions, their limits, and the questions, which need a segment.
use crate::constraints::constraint;
use crate::segments::{bit_of, byte_of, packet, same, sheet, Field};
use crate::told;
use seglink::{
    altitude_of_packet, packet_of, packet_to_sheet, permitted_speed, sheet_of, sheet_to_packet, Kind, Refusal, Train,
    LARGEST_JOURNEY_PACKET, LARGEST_JOURNEY_SHEET,
};

/// A journey over one segment with one timing point.
pub const PACKET: [u8; 42] = [
    0x04, 0x00, 0xD1, 0x00, 0x01, 0x23, 0x45, 0x00, 0x00, 0x01, 0x00, 0x00, 0x00, 0x00, 0x07, // header
    0x20, 0x2A, 0xCC, 0x4D, 0x5E, 0x6F, 0x78, 0x8C, 0x14, 0x2E, 0xCA, 0x86, 0x42, 0x0C, 0x0E, 0x6A, 0x30, 0x12, 0xCA, 0x3A, 0xDB,
    0xA0, 0xA8, 0xBF, 0xE1, 0x30, 0x00,
];
pub const SHEET: [u8; 52] = [
    0x04, 0xC5, 0xC6, 0x04, 0x01, 0x00, 0x00, 0x07, // header
    0x01, 0x01, 0xD9, 0x02, 0xEF, 0x9B, 0xAF, 0xCD, 0x08, 0x11, 0x82, 0x01, 0x01, 0x01, // status, the segment
    0x90, 0xE4, 0xD0, 0xB2, 0x07, 0xB9, 0x60, 0x80, 0xA3, 0x05, 0xD9, 0x04, 0x01, 0x00, 0x01, 0x01, // arrival
    0x02, 0x01, 0x00, 0x01, 0xA0, 0xB7, 0x01, 0xFF, 0xA2, 0x05, 0x89, 0x06, 0x01, // departure
    0x00, // temporary constraints
];

/// The widths of a timing point's fields, and their largest values at a stopping point.
const POINT: [(usize, u32); 16] = [
    (32, u32::MAX),
    (15, 32_767),
    (17, 86_400),
    (10, 1023),
    (2, 2),
    (2, 0),
    (2, 1),
    (1, 1),
    (2, 3),
    (1, 1),
    (1, 1),
    (1, 1),
    (15, 32_767),
    (17, 86_399),
    (10, 1023),
    (1, 1),
];
const STOP: usize = 5;
/// Places of the first field of a journey's first timing point, and of the first of its last eight fields.
const FIRST: usize = 14;
const DOOR_SIDE: usize = FIRST + 8;

/// Returns the fields of a journey with at most 31 timing points and 31 constraints a segment; every number has as many groups as its
/// field allows.
pub fn journey(segments: u32, points: u32, constraints: u32) -> Vec<Field> {
    let mut fields = vec![same(8, 4), same(32, u32::MAX), same(24, 16_777_215), same(15, 32_767), same(17, 86_399), same(8, 255)];
    fields.extend([same(3, 4), same(8, segments)]);
    let point = POINT.map(|(width, value)| same(width, value));
    let constraint = constraint([0, 2, 16_777_214, 16_777_215, 1, 600, 0]);
    let mut left = (points, constraints);
    for _ in 0..segments {
        fields.extend([same(10, 1023), same(32, u32::MAX), same(8, 255), same(8, 255), same(1, 1)]);
        at_most_31(&mut fields, &mut left.0, &point);
        at_most_31(&mut fields, &mut left.1, &constraint);
    }
    assert_eq!(left, (0, 0));
    fields
}

/// Adds a count, at most 31, and as many of the items that are left.
fn at_most_31(fields: &mut Vec<Field>, left: &mut u32, item: &[Field]) {
    let here = (*left).min(31);
    *left -= here;
    fields.push(same(5, here));
    (0..here).for_each(|_| fields.extend(item));
}

/// Checks that the packet and the sheet are refused at one field.
pub fn refuses(fields: &[Field], refusal: Refusal, index: usize) {
    assert_eq!(told(sheet_of(&packet(fields))), Err((refusal, bit_of(fields, index))));
    assert_eq!(told(packet_of(&sheet(fields))), Err((refusal, byte_of(fields, index))));
}

pub fn converts(fields: &[Field]) {
    let (packet, sheet) = (packet(fields), sheet(fields));
    assert_eq!(sheet_of(&packet).unwrap(), sheet);
    assert_eq!(packet_of(&sheet).unwrap(), packet);
}

#[test]
fn a_journey_goes_both_ways() {
    assert_eq!(sheet_of(&PACKET).unwrap(), SHEET);
    assert_eq!(packet_of(&SHEET).unwrap(), PACKET);
    converts(&journey(0, 0, 0));
    converts(&journey(3, 40, 35));
}

#[test]
fn the_room_is_exact_or_stays_as_it_was() {
    assert_eq!(packet_to_sheet(&PACKET, &mut [0; 52]), Ok(52));
    assert_eq!(sheet_to_packet(&SHEET, &mut [0; 42]), Ok(42));
    let mut room = [0xA5; 51];
    assert_eq!(told(packet_to_sheet(&PACKET, &mut room)), Err((Refusal::ShortRoom, 0)));
    assert_eq!(told(sheet_to_packet(&SHEET, &mut room[..41])), Err((Refusal::ShortRoom, 0)));
    assert_eq!(room, [0xA5; 51]);
}

#[test]
fn the_longest_journeys_fit_the_largest_rooms() {
    // 65,534 bits, and 65,535
    for most_bits in [journey(41, 486, 0), journey(20, 186, 550), journey(44, 0, 856)] {
        assert_eq!(packet(&most_bits).len(), LARGEST_JOURNEY_PACKET);
        converts(&most_bits);
    }
    // the most numbers of many groups in the fewest bits: timing points, 31 a segment, and a constraint, or five
    for most_bytes in [journey(17, 498, 1), journey(17, 496, 5)] {
        assert!((15_213..=LARGEST_JOURNEY_SHEET).contains(&sheet(&most_bytes).len()));
        converts(&most_bytes);
    }
}

#[test]
fn a_long_body_is_refused_after_9_and_4_and_before_8() {
    // 65,536 bits; a segment and a constraint more than the largest; the most that the counts allow
    for (segments, points, constraints) in [(62, 0, 839), (42, 486, 0), (20, 186, 551), (255, 31 * 255, 31 * 255)] {
        let long = sheet(&journey(segments, points, constraints));
        assert_eq!(told(packet_of(&long)), Err((Refusal::LongBody, 0)));
        assert_eq!(told(sheet_to_packet(&long, &mut [])), Err((Refusal::LongBody, 0)));
        assert_eq!(told(packet_of(&[&long[..], &[0]].concat())), Err((Refusal::SheetForm, long.len() as u32)));
        // the last number is a count or a constraint's current: neither can be 32
        let before = &long[..long.len() - 1];
        let place = before.len() as u32;
        assert_eq!(told(packet_of(before)), Err((Refusal::SheetForm, place)));
        assert_eq!(told(packet_of(&[before, &[32]].concat())), Err((Refusal::FieldValue, place)));
    }
}

#[test]
fn the_eight_fields_of_a_halt_are_0_at_a_passing_point() {
    let mut passing = journey(1, 1, 0);
    passing[FIRST + STOP] = same(2, 2);
    refuses(&passing, Refusal::FieldValue, DOOR_SIDE);
    for index in DOOR_SIDE..FIRST + POINT.len() {
        passing[index] = same(POINT[index - FIRST].0, 0);
    }
    converts(&passing);
    for index in DOOR_SIDE..FIRST + POINT.len() {
        let mut one = passing.clone();
        one[index] = same(POINT[index - FIRST].0, 1);
        refuses(&one, Refusal::FieldValue, index);
    }
}

#[test]
fn ranges_end_where_the_request_says() {
    let past =
        [(6, 3, 5), (FIRST + 2, 17, 86_401), (FIRST + 4, 2, 3), (FIRST + 5, 2, 3), (FIRST + 6, 2, 2), (FIRST + 13, 17, 86_400)];
    for (index, width, value) in past {
        let mut fields = journey(1, 1, 0);
        fields[index] = same(width, value);
        refuses(&fields, Refusal::FieldValue, index);
    }
}

/// Damages the journey of one timing point; the places are counted by hand.
#[test]
fn a_damaged_journey_is_refused_at_its_place() {
    let with = |place: usize, byte: u8| {
        let mut packet = PACKET;
        packet[place] = byte;
        packet
    };
    assert_eq!(told(sheet_of(&with(15, 0xA0))), Err((Refusal::FieldValue, 120)));
    assert_eq!(told(sheet_of(&with(2, 0xD0)[..41])), Err((Refusal::BodyBits, 324)));
    assert_eq!(told(sheet_of(&with(2, 0xD2))), Err((Refusal::BitsLeft, 329)));
    assert_eq!(told(sheet_of(&with(41, 0x24))), Err((Refusal::PaddingBit, 330)));
    assert_eq!(told(packet_of(&[&SHEET[..8], &[5], &SHEET[9..]].concat())), Err((Refusal::FieldValue, 8)));
    assert_eq!(told(packet_of(&SHEET[..24])), Err((Refusal::SheetForm, 22)));
    assert_eq!(told(packet_of(&[&SHEET[..], &[0]].concat())), Err((Refusal::SheetForm, 52)));
}

#[test]
fn a_question_needs_a_segment() {
    let train = Train { length: 0, cant: 0, maximum: 0, freight_p: false, freight_g: false, passenger: false };
    for fields in [journey(0, 0, 0), journey(1, 1, 0), journey(1, 1, 1)] {
        assert_eq!(told(permitted_speed(Kind::Packet, &[&packet(&fields)], train, 0)), Err((Refusal::PacketNumber, 0)));
        assert_eq!(told(permitted_speed(Kind::Sheet, &[&sheet(&fields)], train, 0)), Err((Refusal::PacketNumber, 0)));
        assert_eq!(told(altitude_of_packet(&packet(&fields))), Err((Refusal::PacketNumber, 0)));
    }
}

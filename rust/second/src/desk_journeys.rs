//! Tests of journeys like the desk cases: bytes written by hand, limits, and the order of refusals.

use crate::desk::{packet_of, packet_with, sheet, sheet_of, TRAIN};
use crate::*;

/// Numbers of a journey over one segment with one timing point; constants name some of their places.
pub const JOURNEY: [u32; 31] = [
    4, 0x12345, 1, 0, 0, 7, 1, 1, 345, 0x89ABCDEF, 17, 130, 1, 1, 0x76543210, 12_345, 86_400, 601, 1, 0, 1, 1, 2, 1, 0, 1,
    23_456, 86_399, 777, 1, 0,
];
const STATUS: usize = 6;
const LEGS: usize = 7;
const LEG: usize = 8;
const POINT: usize = 14;
const HALT: usize = 22;
const CONSTRAINTS: usize = 30;

/// Widths in bits of the journey's numbers in the packet, where L_PACKET_ATO follows the first field.
const WIDTHS: [u32; 31] =
    [8, 32, 24, 15, 17, 8, 3, 8, 10, 32, 8, 8, 1, 5, 32, 15, 17, 10, 2, 2, 2, 1, 2, 1, 1, 1, 15, 17, 10, 1, 5];

pub const PACKET: [u8; 42] = [
    0x04, 0x00, 0xD1, 0x00, 0x01, 0x23, 0x45, 0x00, 0x00, 0x01, 0x00, 0x00, 0x00, 0x00, 0x07, // header
    0x20, 0x2A, 0xCC, 0x4D, 0x5E, 0x6F, 0x78, 0x8C, 0x14, 0x2E, 0xCA, 0x86, 0x42, 0x0C, 0x0E, 0x6A, 0x30, 0x12, 0xCA, 0x3A, 0xDB,
    0xA0, 0xA8, 0xBF, 0xE1, 0x30, 0x00,
];

/// A journey in both media, and where one of its numbers begins in each.
struct Journey {
    sheet: Vec<u8>,
    byte: usize,
    packet: Vec<u8>,
    bit: usize,
}

/// Returns the journey with one number replaced.
fn with(index: usize, value: u32) -> Journey {
    edited(&JOURNEY, index, value)
}

fn edited(numbers: &[u32; 31], index: usize, value: u32) -> Journey {
    let mut numbers = *numbers;
    numbers[index] = value;
    let mut packet = PACKET.to_vec();
    for (index, value) in numbers.iter().enumerate() {
        packet = packet_with(&packet, (bit_of(index), WIDTHS[index]), *value);
    }
    Journey { sheet: sheet(&numbers), byte: sheet(&numbers[..index]).len(), packet, bit: bit_of(index) }
}

fn bit_of(index: usize) -> usize {
    let before: u32 = WIDTHS[..index].iter().sum();
    before as usize + if index > 0 { 16 } else { 0 }
}

fn accepted(journey: Journey) {
    assert_eq!(packet_of(&journey.sheet), Ok(journey.packet.clone()));
    assert_eq!(sheet_of(&journey.packet), Ok(journey.sheet));
}

/// Checks that the packet and the sheet are refused at the number.
fn refused(journey: Journey, refusal: Refusal) {
    assert_eq!(packet_of(&journey.sheet), Err(refusal.at(journey.byte)));
    assert_eq!(sheet_of(&journey.packet), Err(refusal.at(journey.bit)));
}

/// Checks that the greatest number of a field is accepted and the next refused, also in the packet if the field holds it.
fn ends_with(index: usize, most: u32) {
    accepted(with(index, most));
    let past = with(index, most + 1);
    assert_eq!(packet_of(&past.sheet), Err(Refusal::Field.at(past.byte)));
    if (most + 1) >> WIDTHS[index] == 0 {
        assert_eq!(sheet_of(&past.packet), Err(Refusal::Field.at(past.bit)));
    }
}

/// Returns the sheet of a journey with at most 31 timing points and 31 constraints a segment; all other numbers are 0.
pub fn long(legs: u32, points: u32, constraints: u32) -> Vec<u8> {
    let mut numbers = vec![4, 0, 0, 0, 0, 0, 0, legs];
    let mut left = [points, constraints];
    for _ in 0..legs {
        numbers.extend([0; 5]);
        for (left, fields) in left.iter_mut().zip([16, 8]) {
            let here = (*left).min(31);
            *left -= here;
            numbers.push(here);
            numbers.resize(numbers.len() + here as usize * fields, 0);
        }
    }
    assert_eq!(left, [0, 0]);
    sheet(&numbers)
}

#[test]
fn a_journey_goes_both_ways() {
    assert_eq!(with(0, 4).packet, PACKET);
    accepted(with(0, 4));
    let (shortest, packet) = (sheet(&[4, 0x12345, 1, 0, 0, 7, 1, 0]), [&PACKET[..2], &[11], &PACKET[3..15], &[0x20, 0]].concat());
    assert_eq!(shortest, [0x04, 0xC5, 0xC6, 0x04, 0x01, 0, 0, 0x07, 0x01, 0x00]);
    accepted(Journey { sheet: shortest, byte: 0, packet, bit: 0 });
}

#[test]
fn the_packet_number_says_what_follows() {
    for number in [0, 5, 7] {
        refused(with(0, number), Refusal::Number);
    }
    // read as a segment, the sheet has NID_C and NID_SP, the packet NID_C alone
    let shortest = |number| {
        let packet = [&[number as u8, 0, 11][..], &[0; 14]].concat();
        Journey { sheet: sheet(&[number, 0, 0, 0, 0, 0, 0, 0]), byte: 8, packet, bit: 130 }
    };
    accepted(shortest(4));
    assert_eq!(packet_of(&shortest(6).sheet), Err(Refusal::Sheet.at(8)));
    assert_eq!(sheet_of(&shortest(6).packet), Err(Refusal::Bits.at(130)));
}

#[test]
fn a_segment_is_needed_for_a_question() {
    let sheet = sheet(&JOURNEY);
    let train = Train { length: 0, ..TRAIN };
    assert_eq!(permitted_speed_one(KIND_SHEET, &sheet, &train, 0), Err(Refusal::Number.nowhere()));
    assert_eq!(permitted_speed_one(KIND_PACKET, &PACKET, &train, 0), Err(Refusal::Number.nowhere()));
    assert_eq!(altitude_of_packet(&PACKET), Err(Refusal::Number.nowhere()));
    assert_eq!(altitude_of_packet(&PACKET[..41]), Err(Refusal::Number.nowhere()));
    assert_eq!(altitude_of_packet(&PACKET[..14]), Err(Refusal::Short.nowhere()));
    assert_eq!(permitted_speed_one(KIND_SHEET, &[4], &train, 0), Err(Refusal::Number.nowhere()));
}

#[test]
fn ranges_end_where_the_request_says() {
    for (index, most) in [(STATUS, 4), (POINT + 2, 86_400), (POINT + 4, 2), (POINT + 6, 1), (HALT + 5, 86_399)] {
        ends_with(index, most);
    }
    refused(with(POINT + 5, 3), Refusal::Field);
}

#[test]
fn numbers_fit_the_packet_s_fields() {
    for index in [LEG, LEG + 2, LEG + 3, LEG + 4, POINT + 1, POINT + 3, POINT + 7, HALT, HALT + 1, HALT + 4, HALT + 6, HALT + 7] {
        ends_with(index, (1 << WIDTHS[index]) - 1);
    }
    accepted(with(POINT, u32::MAX));
    for (index, past) in [(LEGS, 256), (LEG + 5, 32), (CONSTRAINTS, 32)] {
        let journey = with(index, past);
        assert_eq!(packet_of(&journey.sheet), Err(Refusal::Field.at(journey.byte)));
    }
}

#[test]
fn a_passing_point_says_nothing_of_a_halt() {
    let mut passing = JOURNEY;
    passing[POINT + 5] = 2;
    passing[HALT..CONSTRAINTS].fill(0);
    accepted(edited(&passing, 0, 4));
    for index in HALT..CONSTRAINTS {
        refused(edited(&passing, index, 1), Refusal::Field);
    }
    accepted(with(POINT + 5, 1));
    // the door side is the first of the last eight fields that is not 0
    refused(Journey { byte: 38, bit: 276, ..with(POINT + 5, 2) }, Refusal::Field);
}

#[test]
fn bodies_are_at_most_65_535_bits() {
    // 11 + 69 * 41 + 129 * 486 = 65,534, and 11 + 69 * 44 + 73 * 856 = 65,535
    for ((legs, points, constraints), bits) in
        [((41, 486, 0), [0xFF, 0xFE]), ((44, 0, 856), [0xFF; 2]), ((20, 186, 550), [0xFF; 2])]
    {
        let sheet = long(legs, points, constraints);
        let longest = packet_of(&sheet).unwrap();
        assert_eq!((longest.len(), longest[0], &longest[1..3]), (8_207, 4, &bits[..]));
        assert_eq!(sheet_of(&longest), Ok(sheet));
    }
    // 11 + 69 * 62 + 73 * 839 = 65,536
    let none = [(42, 486, 0), (41, 487, 0), (62, 0, 839), (41, 486, 1), (44, 0, 857), (255, 31 * 255, 31 * 255)];
    for (legs, points, constraints) in none {
        assert_eq!(packet_of(&long(legs, points, constraints)), Err(Refusal::Body.nowhere()));
    }
}

#[test]
fn a_long_body_is_judged_after_the_sheet_and_before_the_room() {
    let long = long(42, 486, 0);
    assert_eq!(sheet_to_packet(&long, &mut []), Err(Refusal::Body.nowhere()));
    let last = long.len() - 1;
    assert_eq!(packet_of(&[&long[..], &[0]].concat()), Err(Refusal::Sheet.at(long.len())));
    assert_eq!(packet_of(&long[..last]), Err(Refusal::Sheet.at(last)));
    assert_eq!(packet_of(&[&long[..last], &[1]].concat()), Err(Refusal::Sheet.at(last + 1)));
    assert_eq!(packet_of(&[&long[..last], &[32]].concat()), Err(Refusal::Field.at(last)));
    assert_eq!(packet_of(&[&long[..last], &[1, 4]].concat()), Err(Refusal::Field.at(last + 1)));
}

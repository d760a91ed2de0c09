//! Tests of a journey's temporary constraints, written from their request: both conversions, lowered speeds, fields that are not used.
use crate::journeys::{converts, journey, refuses, PACKET, SHEET};
use crate::segments::{byte_of, packet, same, sheet, speed, Field, NO_LIMIT};
use crate::told;
use seglink::{packet_of, packet_to_sheet, sheet_of, sheet_to_packet, Refusal};

/// A constraint by its numbers from Q_TC_Type to Q_Low_Adhesion_Rate.
type Numbers = [u32; 7];
const LAST: u32 = 16_777_215;
/// A restriction to 43 km/h from 1,000 to 2,500 cm.
const RESTRICTION: Numbers = [0, 2, 1_000, 2_500, 1, 43, 0];
const SLIPPERY: Numbers = [1, 1, 0, 2_500, 0, 0, 5];
const MODES: Numbers = [2, 3, 0, 0, 0, 0, 0];

/// Places of the count of constraints in the journey of one timing point, and of the fields of its first constraint.
const COUNT: usize = 30;
const TYPE: usize = 31;
const RANGE: usize = 32;
const START: usize = 33;
const END: usize = 34;
const FRONT: usize = 35;
const SPEED: usize = 36;
const ADHESION: usize = 37;
const CURRENT: usize = 38;

pub fn constraint([tc_type, range, start, end, front, kmh, adhesion]: Numbers) -> Vec<Field> {
    let place = [same(2, tc_type), same(2, range), same(24, start), same(24, end)];
    [&place[..], &[same(1, front), speed(kmh), same(3, adhesion), NO_LIMIT]].concat()
}

/// Returns the fields of the journey of one timing point with a constraint.
fn constrained(numbers: Numbers) -> Vec<Field> {
    let mut fields = journey(1, 1, 0);
    fields[COUNT] = same(5, 1);
    fields.extend(constraint(numbers));
    fields
}

/// Checks that the journey with a constraint and one field replaced is refused at that field.
fn refuses_with(numbers: Numbers, index: usize, field: Field, refusal: Refusal) {
    let mut fields = constrained(numbers);
    fields[index] = field;
    refuses(&fields, refusal, index);
}

/// Checks that the sheet is refused at a number that the packet cannot have.
fn refuses_number(numbers: Numbers, index: usize, number: u32) {
    let mut fields = constrained(numbers);
    fields[index].number = number;
    assert_eq!(told(packet_of(&sheet(&fields))), Err((Refusal::FieldValue, byte_of(&fields, index))));
}

#[test]
fn a_restriction_goes_both_ways_and_its_speed_is_lowered() {
    let bytes = [0x30, 0x90, 0x00, 0x1F, 0x40, 0x00, 0x4E, 0x24, 0x40, 0xFF, 0xC0];
    let restricted = [&[0x04, 0x01, 0x1A], &PACKET[3..40], &bytes].concat();
    let given = |kmh: u8| [&SHEET[..51], &[1, 0, 2, 0xE8, 0x07, 0xC4, 0x13, 1, kmh, 0, 0]].concat();
    for kmh in 40..45 {
        assert_eq!(packet_of(&given(kmh)).unwrap(), restricted);
    }
    assert_eq!(sheet_of(&restricted).unwrap(), given(40));
    assert_ne!(packet_of(&given(39)).unwrap(), restricted);
    assert_ne!(packet_of(&given(45)).unwrap(), restricted);
    let mut room = [0xA5; 61];
    assert_eq!(told(packet_to_sheet(&restricted, &mut room)), Err((Refusal::ShortRoom, 0)));
    assert_eq!(told(sheet_to_packet(&given(43), &mut room[..50])), Err((Refusal::ShortRoom, 0)));
    assert_eq!(room, [0xA5; 61]);
}

#[test]
fn every_type_goes_with_every_range() {
    let contents = [[1, 600, 0], [0, 0, 5], [0; 3], [0; 3]];
    let locations = [[LAST, 0], [0, LAST], [LAST - 1, LAST], [0; 2]];
    for (tc_type, [front, kmh, adhesion]) in (0..).zip(contents) {
        for (range, [start, end]) in (0..).zip(locations) {
            converts(&constrained([tc_type, range, start, end, front, kmh, adhesion]));
        }
    }
}

#[test]
fn a_start_is_below_its_end() {
    for (start, end) in [(0, 1), (LAST - 1, LAST)] {
        converts(&constrained([0, 2, start, end, 0, 40, 0]));
    }
    for (start, end) in [(0, 0), (7, 7), (7, 6), (LAST, LAST), (LAST, 0)] {
        refuses(&constrained([0, 2, start, end, 0, 40, 0]), Refusal::ChangeLocation, END);
    }
    refuses_number(RESTRICTION, END, LAST + 1);
    refuses_number([0, 2, LAST, 0, 0, 40, 0], END, LAST + 1);
}

#[test]
fn a_field_that_is_not_used_is_0() {
    for (numbers, index, field) in [
        ([0, 0, 1_000, 0, 0, 40, 0], END, same(24, 1)),
        (SLIPPERY, START, same(24, 1)),
        (SLIPPERY, FRONT, same(1, 1)),
        (SLIPPERY, SPEED, speed(5)),
        (RESTRICTION, ADHESION, same(3, 1)),
        (MODES, START, same(24, LAST)),
        (MODES, END, same(24, LAST)),
        (MODES, FRONT, same(1, 1)),
        (MODES, SPEED, speed(600)),
        (MODES, ADHESION, same(3, 5)),
    ] {
        refuses_with(numbers, index, field, Refusal::FieldValue);
    }
    // an unused speed is the number 0 itself
    (1..5).for_each(|kmh| refuses_number(SLIPPERY, SPEED, kmh));
    for numbers in [RESTRICTION, SLIPPERY, MODES] {
        for (value, number) in [(0, 1), (1_000, 10_001), (1_022, 1_023)] {
            refuses_with(numbers, CURRENT, Field { width: 10, value, number }, Refusal::FieldValue);
        }
    }
}

#[test]
fn ranges_end_where_the_request_says() {
    refuses_with(RESTRICTION, SPEED, speed(605), Refusal::FieldValue);
    refuses_with(SLIPPERY, ADHESION, same(3, 6), Refusal::FieldValue);
    for (numbers, index, number) in
        [(MODES, TYPE, 4), (MODES, RANGE, 4), (RESTRICTION, START, LAST + 1), (SLIPPERY, END, LAST + 1), (RESTRICTION, FRONT, 2)]
    {
        refuses_number(numbers, index, number);
    }
    let mut most = journey(1, 1, 31);
    converts(&most);
    most[COUNT].number = 32;
    assert_eq!(told(packet_of(&sheet(&most))), Err((Refusal::FieldValue, byte_of(&most, COUNT))));
}

#[test]
fn a_count_brings_as_many_as_it_says() {
    let mut fields = constrained(RESTRICTION);
    fields[COUNT] = same(5, 2);
    let (bits, bytes) = (329 + 73, sheet(&fields).len() as u32);
    assert_eq!(told(sheet_of(&packet(&fields))), Err((Refusal::BodyBits, bits)));
    assert_eq!(told(packet_of(&sheet(&fields))), Err((Refusal::SheetForm, bytes)));
    fields[COUNT] = same(5, 0);
    assert_eq!(told(sheet_of(&packet(&fields))), Err((Refusal::BitsLeft, 329)));
    assert_eq!(told(packet_of(&sheet(&fields))), Err((Refusal::SheetForm, byte_of(&fields, TYPE))));
}

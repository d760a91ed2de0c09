//! Tests of a journey's temporary constraints: every field at the ends of its range and past them, used and not used, with refusal and place.

use crate::bits::{bits_of, bytes_of, push};
use crate::desk::{packet_of, packet_with, sheet, sheet_of};
use crate::desk_journeys::{JOURNEY, PACKET};
use crate::Refusal::{Bits, Field, Left, Location, Sheet};
use crate::*;

/// A constraint by its numbers in the sheet, in the order of its fields.
type Constraint = [u32; 8];
const TYPE: usize = 0;
const RANGE: usize = 1;
const START: usize = 2;
const END: usize = 3;
const FRONT: usize = 4;
const SPEED: usize = 5;
const ADHESION: usize = 6;
const CURRENT: usize = 7;

const WIDTHS: [u32; 8] = [2, 2, 24, 24, 1, 7, 3, 10];
/// First bits of a constraint's fields, counted from the constraint's first bit.
const BITS: [usize; 8] = [0, 2, 4, 28, 52, 53, 60, 63];
const CONSTRAINT_BITS: usize = 73;

/// The count of constraints of the journey with one timing point: its first bit, its width and its first byte in the sheet.
const COUNT: (usize, u32) = (324, 5);
const COUNT_BYTE: usize = 51;
/// The first constraint's first bit.
const FIRST: usize = 329;

const LAST: u32 = 16_777_215;

/// Greatest Q_FRONT, V_Speed_Level in km/h and adhesion of each type.
const TYPES: [[u32; 3]; 4] = [[1, 604, 0], [0, 0, 5], [0; 3], [0; 3]];
/// Greatest start and end of each range; a range with both has its start below its end.
const RANGES: [[u32; 2]; 4] = [[LAST, 0], [0, LAST], [LAST - 1, LAST], [0; 2]];

/// Yields a constraint for every pair of a type and a range, with all fields that they use at their greatest.
fn greatest() -> impl Iterator<Item = Constraint> {
    let of = |kind: usize, range: usize| {
        let ([start, end], [front, speed, adhesion]) = (RANGES[range], TYPES[kind]);
        [kind as u32, range as u32, start, end, front, speed, adhesion, 0]
    };
    (0..16).map(move |pair| of(pair / 4, pair % 4))
}

/// A restriction to 43 km/h from 1,000 to 2,500 cm.
const RESTRICTION: Constraint = [0, 2, 1_000, 2_500, 1, 43, 0, 0];

/// Returns a constraint with one number replaced.
fn with(mut constraint: Constraint, field: usize, number: u32) -> Constraint {
    constraint[field] = number;
    constraint
}

fn lowered(constraint: Constraint) -> Constraint {
    with(constraint, SPEED, constraint[SPEED] / 5 * 5)
}

/// Returns the sheet of the journey with one timing point and these constraints.
fn constrained_sheet(constraints: &[Constraint]) -> Vec<u8> {
    let mut numbers = JOURNEY.to_vec();
    numbers[30] = constraints.len() as u32;
    numbers.extend(constraints.iter().flatten());
    sheet(&numbers)
}

/// Returns the packet of the journey with one timing point and these constraints: speeds divided by 5, and 1,023 for no limit of current.
fn constrained_packet(constraints: &[Constraint]) -> Vec<u8> {
    let mut bits = bits_of(&PACKET);
    bits.truncate(COUNT.0);
    push(&mut bits, COUNT.1, constraints.len() as u32);
    for constraint in constraints {
        let values = with(with(*constraint, SPEED, constraint[SPEED] / 5), CURRENT, 1_023);
        WIDTHS.into_iter().zip(values).for_each(|(width, value)| push(&mut bits, width, value));
    }
    let body = bits.len() as u32 - 120;
    packet_with(&bytes_of(&bits), (8, 16), body)
}

/// Checks that the sheet makes the packet, and the packet the sheet with its speeds lowered.
fn accepted(constraints: &[Constraint]) {
    let (packet, back) = (constrained_packet(constraints), constraints.iter().copied().map(lowered).collect::<Vec<_>>());
    assert_eq!(packet_of(&constrained_sheet(constraints)).as_ref(), Ok(&packet), "{constraints:?}");
    assert_eq!(sheet_of(&packet), Ok(constrained_sheet(&back)), "{constraints:?}");
}

/// Checks that the sheet with one number replaced is refused at that number.
fn sheet_refused(constraint: Constraint, field: usize, number: u32, refusal: Refusal) {
    let wrong = with(constraint, field, number);
    let place = COUNT_BYTE + 1 + sheet(&wrong[..field]).len();
    assert_eq!(packet_of(&constrained_sheet(&[wrong])), Err(refusal.at(place)), "{wrong:?}");
}

/// Checks that the packet with one field replaced is refused at that field.
fn packet_refused(constraint: Constraint, field: usize, value: u32, refusal: Refusal) {
    let place = FIRST + BITS[field];
    let wrong = packet_with(&constrained_packet(&[constraint]), (place, WIDTHS[field]), value);
    assert_eq!(sheet_of(&wrong), Err(refusal.at(place)), "{constraint:?}, field {field}: {value}");
}

#[test]
fn a_journey_with_a_restriction_goes_both_ways() {
    // 0011 of the timing point, 00001, 00, 10, 1,000 and 2,500 in 24 bits each, 1, 0001000, 000, ten bits 1, and six of padding
    let constraint = [0x30, 0x90, 0x00, 0x1F, 0x40, 0x00, 0x4E, 0x24, 0x40, 0xFF, 0xC0];
    let packet = [&[0x04, 0x01, 0x1A], &PACKET[3..40], &constraint].concat();
    let given = [&sheet(&JOURNEY[..30])[..], &[1, 0, 2, 0xE8, 0x07, 0xC4, 0x13, 1, 43, 0, 0]].concat();
    let back = [&given[..COUNT_BYTE + 8], &[40, 0, 0]].concat();
    assert_eq!(packet_of(&given), Ok(packet.clone()));
    assert_eq!(sheet_of(&packet), Ok(back.clone()));
    assert_eq!(packet_of(&back), Ok(packet));
    accepted(&[RESTRICTION]);
}

#[test]
fn every_type_goes_with_every_range() {
    for constraint in greatest() {
        accepted(&[constraint]);
        accepted(&[with(constraint, SPEED, 0), RESTRICTION, constraint]);
    }
}

#[test]
fn a_field_that_is_not_used_is_0() {
    for constraint in greatest() {
        for field in (START..=ADHESION).filter(|field| constraint[*field] == 0) {
            [1, 3, 4, 5, 604, LAST, u32::MAX].into_iter().for_each(|number| sheet_refused(constraint, field, number, Field));
            [1, (1 << WIDTHS[field]) - 1].into_iter().for_each(|value| packet_refused(constraint, field, value, Field));
        }
    }
}

#[test]
fn the_current_is_used_by_no_type() {
    for constraint in greatest() {
        [1, 2, 1_023, 10_010, u32::MAX].into_iter().for_each(|number| sheet_refused(constraint, CURRENT, number, Field));
        [0, 1, 1_000, 1_001, 1_022].into_iter().for_each(|value| packet_refused(constraint, CURRENT, value, Field));
    }
}

#[test]
fn types_and_ranges_have_two_bits() {
    for constraint in greatest() {
        for number in [4, 5, 256, u32::MAX] {
            sheet_refused(constraint, TYPE, number, Field);
            sheet_refused(constraint, RANGE, number, Field);
        }
    }
}

#[test]
fn locations_have_24_bits() {
    let (starts, ends) = ([0, 0, 0, 0, 0, 80, 0, 0], [1, 1, 0, 0, 0, 0, 3, 0]);
    for location in [0, 1, LAST - 1, LAST] {
        accepted(&[with(starts, START, location), with(ends, END, location)]);
    }
    for location in [LAST + 1, u32::MAX] {
        sheet_refused(starts, START, location, Field);
        sheet_refused(ends, END, location, Field);
        sheet_refused(RESTRICTION, START, location, Field);
        sheet_refused(RESTRICTION, END, location, Field);
        sheet_refused(with(RESTRICTION, START, LAST), END, location, Field);
    }
}

#[test]
fn a_start_is_below_its_end() {
    for (start, end) in [(0, 1), (0, LAST), (4, 5), (LAST - 1, LAST)] {
        accepted(&[with(with(RESTRICTION, START, start), END, end)]);
    }
    for (start, end) in [(0, 0), (1, 0), (5, 5), (5, 4), (LAST, LAST), (LAST, LAST - 1), (LAST, 0)] {
        let started = with(RESTRICTION, START, start);
        sheet_refused(started, END, end, Location);
        packet_refused(started, END, end, Location);
    }
}

#[test]
fn speeds_are_lowered_to_the_whole_part() {
    let value = |speed| {
        let packet = packet_of(&constrained_sheet(&[with(RESTRICTION, SPEED, speed)])).unwrap();
        bits_of(&packet)[382..389].iter().fold(0, |value, bit| value * 2 + u32::from(*bit))
    };
    for (speed, lowered) in [(0, 0), (4, 0), (5, 1), (43, 8), (44, 8), (45, 9), (599, 119), (600, 120), (604, 120)] {
        assert_eq!(value(speed), lowered, "{speed} km/h");
        accepted(&[with(RESTRICTION, SPEED, speed), with(RESTRICTION, FRONT, 0)]);
    }
    [605, 635, 640, u32::MAX].into_iter().for_each(|speed| sheet_refused(RESTRICTION, SPEED, speed, Field));
    [121, 127].into_iter().for_each(|value| packet_refused(RESTRICTION, SPEED, value, Field));
    sheet_refused(RESTRICTION, FRONT, 2, Field);
}

#[test]
fn adhesion_is_0_to_5() {
    let slippery = [1, 3, 0, 0, 0, 0, 5, 0];
    (0..=5).for_each(|rate| accepted(&[with(slippery, ADHESION, rate)]));
    [6, 7, 8].into_iter().for_each(|rate| sheet_refused(slippery, ADHESION, rate, Field));
    [6, 7].into_iter().for_each(|rate| packet_refused(slippery, ADHESION, rate, Field));
}

#[test]
fn the_first_field_at_fault_is_told() {
    // all numbers are wrong from a field on: the first of them is refused
    let wrong = [4, 4, LAST + 1, LAST + 1, 2, 605, 6, 1];
    for (field, place) in [52, 53, 54, 56, 58, 59, 60, 61].into_iter().enumerate() {
        let mut constraint = RESTRICTION;
        constraint[field..].copy_from_slice(&wrong[field..]);
        assert_eq!(packet_of(&constrained_sheet(&[constraint])), Err(Field.at(place)));
    }
    // an end before its start, and a speed that is not allowed: 5 comes first
    let late = with(with(RESTRICTION, END, 999), SPEED, 605);
    assert_eq!(packet_of(&constrained_sheet(&[late])), Err(Location.at(56)));
    assert_eq!(sheet_of(&constrained_packet(&[late])), Err(Location.at(357)));
    // the second of three constraints is wrong
    assert_eq!(packet_of(&constrained_sheet(&[RESTRICTION, late, late])), Err(Location.at(66)));
    assert_eq!(sheet_of(&constrained_packet(&[RESTRICTION, late, late])), Err(Location.at(357 + CONSTRAINT_BITS)));
}

#[test]
fn a_segment_has_at_most_31() {
    for count in [0, 1, 2, 30, 31] {
        accepted(&vec![RESTRICTION; count]);
    }
    assert_eq!(packet_of(&constrained_sheet(&[RESTRICTION; 32])), Err(Field.at(COUNT_BYTE)));
}

#[test]
fn a_count_brings_as_many_as_it_says() {
    let (packet, numbers) = (constrained_packet(&[RESTRICTION; 2]), constrained_sheet(&[RESTRICTION; 2]));
    let end = FIRST + 2 * CONSTRAINT_BITS;
    for (count, refused) in [(3, Bits.at(end)), (31, Bits.at(end)), (1, Left.at(end - CONSTRAINT_BITS)), (0, Left.at(FIRST))] {
        assert_eq!(sheet_of(&packet_with(&packet, COUNT, count)), Err(refused));
    }
    // a constraint of the sheet has ten bytes
    for (count, place) in [(3, 72), (31, 72), (1, 62), (0, 52)] {
        let counted = [&numbers[..COUNT_BYTE], &[count], &numbers[COUNT_BYTE + 1..]].concat();
        assert_eq!(packet_of(&counted), Err(Sheet.at(place)));
    }
}

#[test]
fn a_constraint_that_ends_too_soon_is_refused_at_its_field() {
    let (packet, numbers) = (constrained_packet(&[RESTRICTION]), constrained_sheet(&[RESTRICTION]));
    for (field, first) in BITS.into_iter().enumerate() {
        // the packet ends before the field's first bit, and before its last
        for bits in [first, first + WIDTHS[field] as usize - 1] {
            let mut cut = packet_with(&packet, (8, 16), (FIRST + bits - 120) as u32);
            cut.truncate((FIRST + bits + 7) / 8);
            assert_eq!(sheet_of(&cut), Err(Bits.at(FIRST + first)), "{bits} bits of the constraint");
        }
    }
    for (length, place) in [(52, 52), (53, 53), (54, 54), (55, 54), (56, 56), (57, 56), (58, 58), (59, 59), (60, 60), (61, 61)] {
        assert_eq!(packet_of(&numbers[..length]), Err(Sheet.at(place)));
    }
}

#[test]
fn each_segment_has_its_own() {
    // three segments with no timing points, with 1, 0 and 2 constraints
    let segment = |number: u32, constraints: &[Constraint]| {
        let mut numbers = vec![1, number, 0, 0, 1, 0, constraints.len() as u32];
        numbers.extend(constraints.iter().flatten());
        numbers
    };
    let slippery = [1, 1, 0, 7, 0, 0, 5, 0];
    let legs = [segment(11, &[RESTRICTION]), segment(12, &[]), segment(13, &[slippery, [3, 3, 0, 0, 0, 0, 0, 0]])].concat();
    let journey = |legs: &[u32]| sheet(&[&[4, 0x12345, 1, 0, 0, 7, 1, 3][..], legs].concat());
    let packet = packet_of(&journey(&legs)).unwrap();
    assert_eq!(packet.len(), 15 + (11 + 3 * 69 + 3 * CONSTRAINT_BITS + 7) / 8);
    let mut back = legs;
    back[7 + SPEED] = 40;
    assert_eq!(sheet_of(&packet), Ok(journey(&back)));
    // the third segment's first constraint begins after three segments and one constraint
    let adhesion = 131 + 3 * 69 + CONSTRAINT_BITS + BITS[ADHESION];
    assert_eq!(sheet_of(&packet_with(&packet, (adhesion, 3), 6)), Err(Field.at(adhesion)));
}

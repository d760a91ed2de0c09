//! Journeys like the desk cases, each with the answer that the request gives; a refusal's place is counted by hand.

use crate::desk::{accepted, packet, refused, rooms, sheet, Desk};
use crate::draft::{Constraint, Draft, Kind};
use crate::journeys::{Size, LONGEST, LONGEST_UNCONSTRAINED};
use crate::program::{Answer, Operation, Train, KIND_PACKET, KIND_SHEET};

/// The last eight fields of a timing point: their widths in bits, and their largest values if the train does not pass.
const HALT: [(u32, u32); 8] = [(2, 3), (1, 1), (1, 1), (1, 1), (15, 32_767), (17, 86_399), (10, 1_023), (1, 1)];
/// Places of the fields of a journey's first segment and of its first timing point.
const NUMBER: usize = 0;
const STATUS: usize = 6;
const SEGMENTS: usize = 7;
const POINT: usize = 14;
const ARRIVAL_SECONDS: usize = POINT + 2;
const ALIGNMENT: usize = POINT + 4;
const STOP: usize = POINT + 5;
const INFORMATION: usize = POINT + 6;
const DOOR_SIDE: usize = POINT + 8;
const DEPARTURE_SECONDS: usize = POINT + 13;
const CONSTRAINTS: usize = POINT + 16;

/// A restriction to 600 km/h; every number has as many groups as its range allows.
const RESTRICTION: Constraint = [0, 2, 16_777_214, 16_777_215, 1, 600, 0, 0];
/// Sizes of the largest sheets: one has two timing points more, the other four constraints more.
const LARGEST_SHEETS: [Size; 2] = [(17, 498, 1), (17, 496, 5)];

/// Makes a journey of this size: 31 timing points and 31 constraints a segment as long as any are left; every number is at its largest.
pub fn journey((segments, points, constraints): Size) -> Draft {
    let mut draft = Draft::default();
    for (width, value) in
        [(8, 4), (32, 0x9999_9999), (24, 16_777_215), (15, 32_767), (17, 86_399), (8, 255), (3, 4), (8, segments)]
    {
        draft.same(Kind::Plain, width, value);
    }
    let mut left = (points, constraints);
    for _ in 0..segments {
        for (width, value) in [(10, 1_023), (32, u32::MAX), (8, 255), (8, 255), (1, 1)] {
            draft.same(Kind::Plain, width, value);
        }
        at_most_31(&mut draft, &mut left.0, timing_point);
        at_most_31(&mut draft, &mut left.1, |draft| draft.constraint(RESTRICTION));
    }
    assert_eq!(left, (0, 0), "31 timing points and 31 constraints a segment at most");
    draft
}

/// Adds a count, at most 31, and as many of the items that are left.
fn at_most_31(draft: &mut Draft, left: &mut u32, item: fn(&mut Draft)) {
    let here = (*left).min(31);
    *left -= here;
    draft.same(Kind::Count, 5, here);
    (0..here).for_each(|_| item(draft));
}

fn timing_point(draft: &mut Draft) {
    for (width, value) in [(32, u32::MAX), (15, 32_767), (17, 86_400), (10, 1_023), (2, 2), (2, 1), (2, 1), (1, 1)] {
        draft.same(Kind::Plain, width, value);
    }
    HALT.iter().for_each(|(width, value)| draft.same(Kind::Plain, *width, *value));
}

/// Returns a journey with one field changed in both media.
pub fn with(mut draft: Draft, index: usize, value: u32) -> Draft {
    draft.fields[index].value = value;
    draft.fields[index].number = value.into();
    draft
}

/// Makes a journey that passes its one timing point.
fn passing() -> Draft {
    let eight = DOOR_SIDE..DOOR_SIDE + HALT.len();
    eight.fold(with(journey((1, 1, 0)), STOP, 2), |draft, index| with(draft, index, 0))
}

/// Returns all desk cases on journeys.
pub fn cases() -> Vec<Desk> {
    let mut cases = Vec::new();
    ends(&mut cases);
    limits(&mut cases);
    numbers(&mut cases);
    damaged(&mut cases);
    too_long(&mut cases);
    questions(&mut cases);
    cases
}

fn ends(cases: &mut Vec<Desk>) {
    let none = journey((0, 0, 0));
    let smallest = (0..STATUS + 2).filter(|index| *index > NUMBER).fold(none, |draft, index| with(draft, index, 0));
    cases.push(packet("the smallest journey's packet", smallest.packet(), Answer::success(8)));
    cases.push(sheet("the smallest journey's sheet", smallest.sheet(), Answer::success(17)));
    for longest in [LONGEST_UNCONSTRAINED, LONGEST] {
        cases.push(sheet("the largest journey's sheet", journey(longest).sheet(), Answer::success(8_207)));
    }
    for largest in LARGEST_SHEETS {
        cases.push(packet("the longest sheet of a journey", journey(largest).packet(), Answer::success(15_213)));
    }
    let [one, five] = LARGEST_SHEETS.map(journey);
    for draft in [smallest, passing(), journey(LONGEST_UNCONSTRAINED), journey(LONGEST), one, five] {
        accepted(cases, "a journey", &draft);
        rooms(cases, &draft);
    }
}

/// Adds fields at and past their limits. In the packet and the sheet the status begins at 120 and 18, the timing point at 195 and 33, the
/// count of constraints at 324 and 63.
fn limits(cases: &mut Vec<Desk>) {
    let one = || journey((1, 1, 0));
    accepted(cases, "every field at its largest", &one());
    for (index, past, place) in [
        (STATUS, 5, (120, 18)),
        (ARRIVAL_SECONDS, 86_401, (242, 41)),
        (ALIGNMENT, 3, (269, 46)),
        (STOP, 3, (271, 47)),
        (INFORMATION, 2, (273, 48)),
        (DEPARTURE_SECONDS, 86_400, (296, 57)),
    ] {
        refused(cases, "a field past its largest", &with(one(), index, past), 4, place);
    }
    refused(cases, "a passing point with a door side", &with(one(), STOP, 2), 4, (276, 50));
    // if the train passes, each of the eight numbers has one byte
    for (nth, bit) in [276, 278, 279, 280, 281, 296, 313, 323].into_iter().enumerate() {
        let draft = with(passing(), DOOR_SIDE + nth, 1);
        refused(cases, "a field that is not 0 at a passing point", &draft, 4, (bit, 50 + nth as u32));
    }
}

fn numbers(cases: &mut Vec<Desk>) {
    for number in [5, 7] {
        refused(cases, "another packet number", &with(journey((1, 1, 0)), NUMBER, number), 2, (0, 0));
    }
    // the journey's status and count are read as NID_C and part of NID_SP in the packet, as NID_C and NID_SP in the sheet
    let as_segment = with(journey((0, 0, 0)), NUMBER, 6);
    cases.push(packet("a journey that calls itself a segment", as_segment.packet(), Answer::refused(6, 130)));
    cases.push(sheet("a journey that calls itself a segment", as_segment.sheet(), Answer::refused(9, 20)));
}

/// Adds damaged journeys. The fields of the journey with one timing point end with the bit 328, its numbers with the byte 63.
fn damaged(cases: &mut Vec<Desk>) {
    let one = journey((1, 1, 0));
    let (bytes, numbers) = (one.packet(), one.sheet());
    let with_byte = |place: usize, byte: u8| {
        let mut packet = bytes.clone();
        packet[place] = byte;
        packet
    };
    let changed = |index, count| with(journey((1, 1, 0)), index, count);
    let segments = |count| changed(SEGMENTS, count);
    for (name, bytes, refusal, place) in [
        ("a journey whose last field does not fit", with_byte(2, 0xD0)[..41].to_vec(), 6, 324),
        ("a journey without its second segment", segments(2).packet(), 6, 329),
        ("a journey with a bit left", with_byte(2, 0xD2), 13, 329),
        ("a journey with a segment left", segments(0).packet(), 13, 131),
        ("a journey without its constraint", changed(CONSTRAINTS, 1).packet(), 6, 329),
        ("a journey with two padding bits", with_byte(41, 0x24), 7, 330),
    ] {
        cases.push(packet(name, bytes, Answer::refused(refusal, place)));
    }
    for (name, bytes, place) in [
        ("a journey that ends within NID_TP", numbers[..35].to_vec(), 33),
        ("a journey without its second segment", segments(2).sheet(), 64),
        ("a journey with a segment left", segments(0).sheet(), 20),
        ("a journey without its constraint", changed(CONSTRAINTS, 1).sheet(), 64),
        ("a journey with a byte left", [&numbers[..], &[0]].concat(), 64),
    ] {
        cases.push(sheet(name, bytes, Answer::refused(9, place)));
    }
}

/// Adds bodies that are too long: 65,536 bits; a segment, a timing point or a constraint more than the longest; the most that the counts allow.
fn too_long(cases: &mut Vec<Desk>) {
    for size in [(62, 0, 839), (42, 486, 0), (41, 487, 0), (41, 486, 1), (20, 186, 551), (255, 31 * 255, 31 * 255)] {
        let long = journey(size).sheet();
        let refused = || sheet("a body too long", long.clone(), Answer::refused(12, 0));
        cases.push(refused());
        cases.push(Desk { room: 0, ..refused() });
        let (length, last) = (long.len() as u32, long.len() as u32 - 1);
        let (left, before) = ([&long[..], &[0]].concat(), &long[..long.len() - 1]);
        cases.push(sheet("a body too long, and a byte left", left, Answer::refused(9, length)));
        cases.push(sheet("a body too long, and a byte less", before.to_vec(), Answer::refused(9, last)));
        cases.push(sheet("a body too long, and a last number that is wrong", [before, &[32]].concat(), Answer::refused(4, last)));
    }
}

/// Adds questions about journeys: they need a segment, and refuse before they judge the train and the fields after the packet number.
fn questions(cases: &mut Vec<Desk>) {
    let train = Train { length: 0, cant: 0, maximum: 0, freight_p: false, freight_g: false, passenger: false };
    let (bytes, numbers) = (passing().packet(), passing().sheet());
    for (operation, input) in [
        (Operation::PermittedSpeed(KIND_PACKET), bytes.clone()),
        (Operation::AltitudeOfPacket, bytes.clone()),
        (Operation::PermittedSpeed(KIND_PACKET), bytes[..16].to_vec()),
        (Operation::AltitudeOfPacket, bytes[..16].to_vec()),
        (Operation::PermittedSpeed(KIND_SHEET), numbers),
        (Operation::PermittedSpeed(KIND_SHEET), vec![4]),
    ] {
        let answer = Answer::refused(2, 0);
        cases.push(Desk { name: "a question about a journey", operation, input, room: 0, train: train.clone(), x: 0, answer });
    }
}

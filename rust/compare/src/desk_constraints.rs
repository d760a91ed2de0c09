//! Desk cases on temporary constraints: every field at the ends of its range, past them and not used; every place is counted by hand.

use crate::desk::{accepted, packet, refused, sheet, Desk};
use crate::desk_journeys::{journey, with};
use crate::draft::{Constraint, Draft};
use crate::program::Answer;

const LAST: u32 = 16_777_215;
/// Places of the fields of a constraint that cases change.
const TYPE: usize = 0;
const RANGE: usize = 1;
const START: usize = 2;
const END: usize = 3;
const FRONT: usize = 4;
const SPEED: usize = 5;
const ADHESION: usize = 6;
const CURRENT: usize = 7;

/// One constraint of each range; in the sheet 1,000 and 2,500 have two bytes each, every other number has one.
const RESTRICTION: Constraint = [0, 2, 1_000, 2_500, 1, 40, 0, 0];
const STARTS: Constraint = [0, 0, 1_000, 0, 0, 40, 0, 0];
const SLIPPERY: Constraint = [1, 1, 0, 2_500, 0, 0, 5, 0];
const MODES: Constraint = [2, 3, 0, 0, 0, 0, 0, 0];

/// Constraints with one number replaced; the refusal, and where it is given: a bit of the packet and a byte of the sheet.
type Wrong = (&'static str, Constraint, usize, u32, u32, (u32, u32));

/// Wrong fields. The first constraint begins at the bit 329 and the byte 64; its other fields at the bits 331, 333, 357, 381, 382, 389 and 392.
const WRONG: [Wrong; 29] = [
    ("a speed from a start, with an end", STARTS, END, 1, 4, (357, 68)),
    ("a speed from a start, with the last end", STARTS, END, LAST, 4, (357, 68)),
    ("a speed from a start, with an adhesion", STARTS, ADHESION, 1, 4, (389, 71)),
    ("a speed from a start, with 0 A", STARTS, CURRENT, 1, 4, (392, 72)),
    ("605 km/h", RESTRICTION, SPEED, 605, 4, (382, 71)),
    ("635 km/h", RESTRICTION, SPEED, 635, 4, (382, 71)),
    ("a speed with an adhesion", RESTRICTION, ADHESION, 5, 4, (389, 72)),
    ("a speed with 0 A", RESTRICTION, CURRENT, 1, 4, (392, 73)),
    ("a speed with 10,000 A", RESTRICTION, CURRENT, 10_001, 4, (392, 73)),
    ("a speed with the current 1,022", RESTRICTION, CURRENT, 10_221, 4, (392, 73)),
    ("an end at the start", RESTRICTION, END, 1_000, 5, (357, 68)),
    ("an end before the start", RESTRICTION, END, 999, 5, (357, 68)),
    ("an end at 0", RESTRICTION, END, 0, 5, (357, 68)),
    ("a start at the end", RESTRICTION, START, 2_500, 5, (357, 68)),
    ("a start past the end", RESTRICTION, START, LAST, 5, (357, 70)),
    ("a start and an end at 0", [0, 2, 0, 0, 0, 40, 0, 0], START, 0, 5, (357, 67)),
    ("a start and an end at the last location", [0, 2, 0, LAST, 0, 40, 0, 0], START, LAST, 5, (357, 70)),
    ("low adhesion with a start", SLIPPERY, START, 1, 4, (333, 66)),
    ("low adhesion with Q_FRONT", SLIPPERY, FRONT, 1, 4, (381, 69)),
    ("low adhesion with a speed", SLIPPERY, SPEED, 5, 4, (382, 70)),
    ("low adhesion 6", SLIPPERY, ADHESION, 6, 4, (389, 71)),
    ("low adhesion with 0 A", SLIPPERY, CURRENT, 1, 4, (392, 72)),
    ("the whole segment with a start", MODES, START, 1, 4, (333, 66)),
    ("the whole segment with an end", MODES, END, 1, 4, (357, 67)),
    ("driving modes with Q_FRONT", MODES, FRONT, 1, 4, (381, 68)),
    ("driving modes with a speed", MODES, SPEED, 600, 4, (382, 69)),
    ("driving modes with an adhesion", MODES, ADHESION, 1, 4, (389, 70)),
    ("driving modes with 0 A", MODES, CURRENT, 1, 4, (392, 71)),
    ("the driving mode GoA1 with a speed", [3, 3, 0, 0, 0, 0, 0, 0], SPEED, 5, 4, (382, 69)),
];

/// Numbers that no field of a packet holds, or that the lowering of a speed loses: refused with 4 at a byte of the sheet.
const WRONG_NUMBERS: [(&str, Constraint, usize, u32, u32); 17] = [
    ("the fifth type", STARTS, TYPE, 4, 64),
    ("a type past all", RESTRICTION, TYPE, u32::MAX, 64),
    ("a range past the whole segment", MODES, RANGE, 4, 65),
    ("a start past 24 bits", STARTS, START, LAST + 1, 66),
    ("a start past 24 bits, before an end", RESTRICTION, START, LAST + 1, 66),
    ("an end past 24 bits", SLIPPERY, END, LAST + 1, 67),
    ("an end past 24 bits, after a start", RESTRICTION, END, LAST + 1, 68),
    ("an end past all, after a start", RESTRICTION, END, u32::MAX, 68),
    ("an end past 24 bits, after the last start", [0, 2, LAST, 0, 0, 40, 0, 0], END, LAST + 1, 70),
    ("Q_FRONT 2", RESTRICTION, FRONT, 2, 70),
    ("640 km/h", RESTRICTION, SPEED, 640, 71),
    ("an adhesion past three bits", SLIPPERY, ADHESION, 8, 71),
    ("low adhesion with 1 km/h", SLIPPERY, SPEED, 1, 70),
    ("low adhesion with 3 km/h", SLIPPERY, SPEED, 3, 70),
    ("low adhesion with 4 km/h", SLIPPERY, SPEED, 4, 70),
    ("driving modes with 3 km/h", MODES, SPEED, 3, 69),
    ("the current of a packet", MODES, CURRENT, 1_023, 71),
];

/// Makes the journey with one timing point and these constraints.
fn constrained(constraints: &[Constraint]) -> Draft {
    let mut draft = journey((1, 1, 0));
    let count = draft.fields.len() - 1;
    draft = with(draft, count, constraints.len() as u32);
    constraints.iter().for_each(|constraint| draft.constraint(*constraint));
    draft
}

fn edited(mut constraint: Constraint, field: usize, number: u32) -> Constraint {
    constraint[field] = number;
    constraint
}

/// Returns all desk cases on constraints.
pub fn cases() -> Vec<Desk> {
    let mut cases = Vec::new();
    ends(&mut cases);
    lowered(&mut cases);
    for (name, constraint, field, number, refusal, place) in WRONG {
        refused(&mut cases, name, &constrained(&[edited(constraint, field, number)]), refusal, place);
    }
    for (name, constraint, field, number, byte) in WRONG_NUMBERS {
        let wrong = constrained(&[edited(constraint, field, number)]);
        cases.push(sheet(name, wrong.sheet(), Answer::refused(4, byte)));
    }
    several(&mut cases);
    cases
}

/// Adds every type with every range; the fields that they use are at their smallest, and at their largest.
fn ends(cases: &mut Vec<Desk>) {
    let locations = [[(0, 0), (LAST, 0)], [(0, 0), (0, LAST)], [(0, 1), (LAST - 1, LAST)], [(0, 0); 2]];
    let contents = [[(0, 0, 0), (1, 600, 0)], [(0, 0, 0), (0, 0, 5)], [(0, 0, 0); 2], [(0, 0, 0); 2]];
    for (tc_type, contents) in (0..).zip(contents) {
        for (range, locations) in (0..).zip(locations) {
            for ((front, speed, adhesion), (start, end)) in contents.into_iter().zip(locations) {
                let constraint = [tc_type, range, start, end, front, speed, adhesion, 0];
                accepted(cases, "a constraint at an end", &constrained(&[constraint]));
            }
        }
    }
    accepted(cases, "31 constraints", &constrained(&[RESTRICTION; 31]));
    let more = constrained(&[RESTRICTION; 32]).sheet();
    cases.push(sheet("32 constraints", more, Answer::refused(4, 63)));
}

/// Adds lowered speeds. The packet has 51 bytes whatever the speed; the sheet that comes back has a byte less if the speed falls below 128.
fn lowered(cases: &mut Vec<Desk>) {
    for (speed, bytes) in [(4, 74), (43, 74), (44, 74), (129, 74), (130, 75), (604, 75)] {
        let draft = constrained(&[edited(RESTRICTION, SPEED, speed)]);
        cases.push(sheet("a speed that is lowered", draft.sheet(), Answer::success(51)));
        cases.push(packet("a speed that was lowered", draft.packet(), Answer::success(bytes)));
    }
}

/// Adds journeys with several constraints: a constraint has 73 bits, and the restriction ten bytes.
fn several(cases: &mut Vec<Desk>) {
    let late = edited(RESTRICTION, END, 1_000);
    refused(cases, "the second of three constraints", &constrained(&[RESTRICTION, late, late]), 5, (430, 78));
    let counted = |count| with(constrained(&[RESTRICTION; 2]), 30, count);
    for (count, (refusal, bit), byte) in [(3, (6, 475), 84), (31, (6, 475), 84), (1, (13, 402), 74), (0, (13, 329), 64)] {
        cases.push(packet("another count of constraints", counted(count).packet(), Answer::refused(refusal, bit)));
        cases.push(sheet("another count of constraints", counted(count).sheet(), Answer::refused(9, byte)));
    }
    // 31 on the first of two segments: 120 + 11 + 2 * 69 + 2 * 129 + 32 * 73 bits and 20 + 2 * 14 + 2 * 30 + 32 * 15 bytes
    let two = journey((2, 2, 32));
    accepted(cases, "constraints on two segments", &two);
    let current = two.fields.len() - 1;
    refused(cases, "the last current of two segments", &with(two, current, 1), 4, (2_853, 587));
}

//! The sheet of an accepted journey as it comes back from its packet: the speeds of its temporary constraints lowered.

use crate::draft::write_number;

/// Place of the count of segments among the numbers.
const SEGMENTS: usize = 7;
/// How many numbers a segment has before its timing points, how many a timing point and a constraint have; the place of a constraint's speed.
const IDENTITY: usize = 5;
const POINT: usize = 16;
const CONSTRAINT: usize = 8;
const SPEED: usize = 5;

/// Returns the sheet with each constraint's speed lowered to a multiple of 5 km/h.
pub fn lowered(sheet: &[u8]) -> Vec<u8> {
    let mut numbers = numbers_of(sheet);
    let mut at = SEGMENTS + 1;
    for _ in 0..numbers[SEGMENTS] {
        at += IDENTITY;
        at += 1 + POINT * numbers[at] as usize;
        let constraints = numbers[at];
        at += 1;
        for _ in 0..constraints {
            numbers[at + SPEED] -= numbers[at + SPEED] % 5;
            at += CONSTRAINT;
        }
    }
    let mut lowered = Vec::new();
    numbers.into_iter().for_each(|number| write_number(&mut lowered, number, 0));
    lowered
}

fn numbers_of(sheet: &[u8]) -> Vec<u64> {
    let number = |groups: &[u8]| groups.iter().rev().fold(0, |number, group| number << 7 | u64::from(group & 0x7F));
    sheet.split_inclusive(|byte| *byte < 0x80).map(number).collect()
}

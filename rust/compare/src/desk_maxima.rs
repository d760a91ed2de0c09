//! Desk cases on a train's maximum: the speed is the lower of it and the profile's, and a maximum outside 1 to 600 is refused with 10.

use crate::desk::{draft, speed, Desk, Plan, CHANGED, DOCUMENT, TRAIN};
use crate::program::{Answer, Train, KIND_PACKET, KIND_SHEET};

/// Speeds in km/h: of a sheet's profile, a train's maximum, and what the packet and the sheet permit.
const SPEEDS: [(u32, u32, i64, i64); 19] = [
    (100, 83, 83, 83),
    (85, 83, 83, 83),
    (84, 83, 80, 83),
    (83, 83, 80, 83),
    (82, 83, 80, 82),
    (80, 83, 80, 80),
    (80, 80, 80, 80),
    (100, 99, 99, 99),
    (104, 101, 100, 101),
    (100, 1, 1, 1),
    (4, 1, 0, 1),
    (1, 1, 0, 1),
    (0, 1, 0, 0),
    (604, 600, 600, 600),
    (600, 600, 600, 600),
    (599, 600, 595, 599),
    (604, 599, 599, 599),
    (600, 599, 599, 599),
    (604, 2, 2, 2),
];

/// Maxima that are not allowed; the low bits of some are those of one that is.
const REFUSED: [u32; 8] = [0, 601, 604, 605, 65_536, 65_619, 0x8000_0053, u32::MAX];

pub fn speeds(cases: &mut Vec<Desk>) {
    for (profile, maximum, of_packet, of_sheet) in SPEEDS {
        let answers = [of_packet, of_sheet].map(Answer::success);
        both(cases, "a train's maximum", Plan { speed: profile, ..DOCUMENT }, (maximum, 0), answers);
    }
    // 100 km/h up to 699 cm, then 140: the maximum lies below both, between them, and above
    for (maximum, before, after) in [(83, 83, 83), (123, 100, 123), (143, 100, 140)] {
        both(cases, "a maximum beside a change", CHANGED, (maximum, 699), [Answer::success(before); 2]);
        both(cases, "a maximum beside a change", CHANGED, (maximum, 700), [Answer::success(after); 2]);
    }
    for maximum in REFUSED {
        both(cases, "a maximum that is not allowed", CHANGED, (maximum, 0), [Answer::refused(10, 0); 2]);
        both(cases, "a maximum that is not allowed, before 11", CHANGED, (maximum, 1_000), [Answer::refused(10, 0); 2]);
        both(cases, "a maximum that is not allowed, after 4", Plan { length: 0, ..DOCUMENT }, (maximum, 0), no_length());
    }
    both(cases, "11 after a maximum that is allowed", CHANGED, (600, 1_000), [Answer::refused(11, 0); 2]);
}

/// Returns the refusals of a segment without length: L_SP begins at the packet's bit 178 and at the sheet's byte 12.
fn no_length() -> [Answer; 2] {
    [Answer::refused(4, 178), Answer::refused(4, 12)]
}

/// Adds a question about a packet and one about its sheet, for a train with a maximum at a location.
fn both(cases: &mut Vec<Desk>, name: &'static str, plan: Plan, (maximum, x): (u32, u32), [of_packet, of_sheet]: [Answer; 2]) {
    let (draft, train) = (draft(plan), Train { maximum, ..TRAIN });
    cases.push(speed(name, KIND_PACKET, draft.packet(), (&train, x), of_packet));
    cases.push(speed(name, KIND_SHEET, draft.sheet(), (&train, x), of_sheet));
}

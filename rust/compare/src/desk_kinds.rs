//! Desk cases on the kind of a speed question: how the bytes are read, and refusal 15, which comes first of all.

use crate::desk::{draft, speed, Desk, DOCUMENT, TRAIN};
use crate::program::{Answer, Operation, Train, KIND_PACKET, KIND_SHEET};

/// Bytes that are a packet of 81,924 cm and 105 km/h, and also a sheet of 100 cm and 84 km/h with entries of 80 km/h for freight P.
const BOTH: [u8; 39] = [
    0x06, 0x00, 0xB9, 0x01, 0x00, 0x00, 0x07, 0x00, 0x00, 0x00, 0x00, 0x64, 0x00, 0x00,
    0x00, // the sheet up to its altitude
    0x54, 0x00, 0x05, 0x01, 0x00, 0x50, 0x01, 0x00, 0x50, 0x01, 0x00, 0x50, 0x01, 0x00, 0x50, 0x01, // its element
    0x01, 0x50, 0x00, 0x00, 0x00, 0x00, 0x00, 0x00,
];

/// Kinds that are neither 0 nor 1; the low bits of some of them are 0 or 1.
const UNKNOWN: [u32; 9] = [2, 3, 255, 256, 257, 65_536, 65_537, 0x8000_0000, u32::MAX];

/// Adds speeds from bytes that are read as a packet and as a sheet.
pub fn speeds(cases: &mut Vec<Desk>) {
    let (shuttle, past_end) = (Train { freight_p: false, ..TRAIN }, Answer::refused(11, 0));
    for (train, x, of_packet, of_sheet) in [
        (&shuttle, 0, Answer::success(105), Answer::success(84)),
        (&TRAIN, 0, Answer::success(105), Answer::success(80)),
        (&shuttle, 99, Answer::success(105), Answer::success(84)),
        (&shuttle, 100, Answer::success(105), past_end),
        (&shuttle, 81_924, past_end, past_end),
    ] {
        let name = "a packet that is a sheet too";
        cases.push(speed(name, KIND_PACKET, BOTH.to_vec(), (train, x), of_packet));
        cases.push(speed(name, KIND_SHEET, BOTH.to_vec(), (train, x), of_sheet));
    }
    let document = draft(DOCUMENT);
    cases.push(speed("a sheet as a packet", KIND_PACKET, document.sheet(), (&TRAIN, 0), Answer::refused(3, 0)));
    cases.push(speed("a packet as a sheet", KIND_SHEET, document.packet(), (&TRAIN, 0), Answer::refused(9, 2)));
}

/// Adds every speed question of the desk with unknown kinds: it is refused with 15, whatever its answer was.
pub fn unknown(cases: &mut Vec<Desk>) {
    let is_speed = |case: &&Desk| matches!(case.operation, Operation::PermittedSpeed(_));
    let speeds: Vec<Desk> = cases.iter().filter(is_speed).cloned().collect();
    for kind in UNKNOWN {
        let refused =
            |case: &Desk| Desk { operation: Operation::PermittedSpeed(kind), answer: Answer::refused(15, 0), ..case.clone() };
        cases.extend(speeds.iter().map(refused));
    }
}

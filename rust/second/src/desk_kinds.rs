//! Tests of the kind of a segment: how its bytes are read, and that an unknown kind is refused first of all.

use crate::desk::{sample, sheet, SHEET, TRAIN};
use crate::desk_journeys::{JOURNEY, PACKET};
use crate::*;

/// Bytes that are a packet of 81,924 cm and 105 km/h, and also a sheet of 100 cm and 84 km/h with five entries for freight P.
const BOTH: [u8; 39] = [
    0x06, 0x00, 0xB9, 0x01, 0x00, 0x00, 0x07, 0x00, 0x00, 0x00, 0x00, 0x64, 0x00, 0x00,
    0x00, // the sheet up to its altitude
    0x54, 0x00, 0x05, 0x01, 0x00, 0x50, 0x01, 0x00, 0x50, 0x01, 0x00, 0x50, 0x01, 0x00, 0x50, 0x01, // its element
    0x01, 0x50, 0x00, 0x00, 0x00, 0x00, 0x00, 0x00,
];

#[test]
fn the_kind_says_how_the_bytes_are_read() {
    for (x, of_packet, of_sheet) in [(0, Ok(105), Ok(84)), (99, Ok(105), Ok(84)), (100, Ok(105), Err(Refusal::PastEnd.nowhere()))]
    {
        assert_eq!(permitted_speed_one(0, &BOTH, &TRAIN, x), of_packet, "{x}");
        assert_eq!(permitted_speed_one(1, &BOTH, &TRAIN, x), of_sheet, "{x}");
    }
    assert_eq!(permitted_speed_one(0, &sheet(&SHEET), &TRAIN, 0), Err(Refusal::Size.nowhere()));
    assert_eq!(permitted_speed_one(1, &sample(), &TRAIN, 0), Err(Refusal::Sheet.at(2)));
}

#[test]
fn another_kind_is_refused_before_segment_train_and_location() {
    let journey = sheet(&JOURNEY);
    let segments = [&BOTH[..], &sample(), &sample()[..38], &sheet(&SHEET), &PACKET, &journey, &[], &[0x80, 0x00]];
    let none = Train { length: 0, cant: 0, ..TRAIN };
    for kind in [2, 3, 4, 6, 255, 256, 257, 65_536, 65_537, 0x8000_0000, 0x8000_0001, u32::MAX] {
        for segment in segments {
            for (train, x) in [(&TRAIN, 0), (&TRAIN, u32::MAX), (&none, 0), (&none, u32::MAX)] {
                assert_eq!(
                    permitted_speed_one(kind, segment, train, x),
                    Err(Refusal::Kind.at(0)),
                    "{kind}, {segment:02X?}, {train:?}"
                );
            }
        }
    }
}

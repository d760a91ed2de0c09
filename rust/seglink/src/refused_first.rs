//! Tests of what is refused before a segment or a journey is read: kinds that no [`Kind`](crate::Kind) has, handed over at the boundary, and runs
//! of no segment or of more than four.
use crate::boundary::{permitted_speed, restricted_speed, Speed};
use crate::{answer, packet_of, Refusal, Train, Unit};
use alloc::{string::ToString, vec};

/// The build definition's sample sheet.
const SHEET: [u8; 25] = [6, 0xC5, 0xC6, 4, 1, 0, 0, 7, 0, 0, 0, 0, 1, 0, 0, 0, 80, 0, 0, 0, 0, 0, 0, 0, 0];
const TRAIN: Train = Train::new(200, 150, 600).passenger();
const NO_TRAIN: Train = Train::new(0, 0, 600).passenger();

/// Checks that both questions are refused with a number at 0, whatever the segment, the journey, the leg, the train and x are.
fn always_refused(kind: u32, count: usize, refusal: u32) {
    let packet = packet_of(&SHEET).unwrap();
    for segment in [&packet[..], &SHEET, &packet[..38], &[4], &[]] {
        for (train, x) in [(TRAIN, 0), (TRAIN, 1), (NO_TRAIN, 0), (NO_TRAIN, u32::MAX)] {
            let permitted = permitted_speed(kind, &vec![segment; count], train, x);
            let restricted = restricted_speed(kind, &vec![segment; count], segment, x, train, x);
            for answer in [permitted, restricted] {
                let told = (answer.refusal, answer.place, answer.speed);
                assert_eq!(told, (refusal, 0, 0), "kind {kind}, {count} of {segment:02X?}, {train:?}, {x}");
            }
        }
    }
}

#[test]
fn an_unknown_kind_is_refused_before_count_segments_train_and_x() {
    for kind in [2, 3, 255, 256, 257, 65_536, 65_537, 0x8000_0000, u32::MAX] {
        (0..=6).for_each(|count| always_refused(kind, count, 15));
    }
}

#[test]
fn a_run_of_none_or_more_than_four_is_refused_before_segments_train_and_x() {
    for kind in [0, 1] {
        for count in [0, 5, 6, 256, 257] {
            always_refused(kind, count, 16);
        }
    }
}

#[test]
fn both_are_errors_that_say_so() {
    for (kind, segments, refusal, words) in [
        (2, &[&SHEET[..]][..], Refusal::UnknownKind, "15: the kind is neither 0 nor 1"),
        (1, &[], Refusal::RunCount, "16: the run has no segment or more than 4"),
    ] {
        let Speed { refusal: number, place, speed } = permitted_speed(kind, segments, TRAIN, 0);
        let refused = answer(number, place, Unit::Byte, speed).unwrap_err();
        assert_eq!(refused.refusal, refusal);
        assert_eq!(refused.to_string(), words);
    }
}

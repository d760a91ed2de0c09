//! Tests of the check of steps: every answer is worked out by hand, on a segment of 10 cm and on one of 1,000 cm with the same profile.

use crate::desk::sheet;
use crate::*;

/// A train of 2 cm that goes at most 120 km/h.
const TRAIN: Train = Train { length: 2, cant: 80, maximum: 120, freight_p: false, freight_g: false, passenger: false };

/// Returns the sheet of a segment with 100 km/h and the delay, and from 5 cm on 140 km/h.
fn segment(length: u32) -> Vec<u8> {
    sheet(&[6, 0, 0, 0, 0, 0, 0, 0, 0, 0, length, 0, 0, 0, 100, 0, 0, 1, 5, 140, 0, 0, 0, 0, 0, 0, 0])
}

/// Returns the refusal and the place of a check, or 0 and 0.
fn checked(length: u32, starts: &[u32], speeds: &[u32]) -> (u32, usize) {
    match check_steps(KIND_SHEET, 1, [&segment(length), &[], &[], &[]], &TRAIN, starts, speeds) {
        Ok(()) => (0, 0),
        Err(Refused { refusal, place }) => (refusal as u32, place),
    }
}

#[test]
fn steps_are_accepted_or_refused_at_the_first_wrong_centimetre() {
    for length in [10, 1_000] {
        for (starts, speeds, answer) in [
            (&[0, 7][..], &[100, 120][..], (0, 0)),
            (&[0, 3, 7], &[100, 100, 120], (0, 0)),
            (&[0, 5], &[100, 120], (19, 5)),
            (&[0, 8], &[100, 120], (19, 7)),
            (&[0], &[100], (19, 7)),
            (&[0, 7], &[100, 140], (19, 7)),
            (&[0, 7], &[99, 120], (19, 0)),
            (&[], &[], (18, 0)),
            (&[1, 7], &[100, 120], (18, 0)),
            (&[0, 7, 7], &[100, 120, 120], (18, 0)),
            (&[0, 7, length], &[100, 120, 120], (18, 0)),
            (&[0, 7], &[99], (18, 0)),
        ] {
            assert_eq!(checked(length, starts, speeds), answer, "{length} cm, {starts:?} {speeds:?}");
        }
    }
}

#[test]
fn there_are_at_most_128_steps() {
    for (count, answer) in [(128, (19, 7)), (129, (18, 0))] {
        let (starts, speeds): (Vec<u32>, Vec<u32>) = (0..count).map(|start| (start, 100)).unzip();
        assert_eq!(checked(1_000, &starts, &speeds), answer);
    }
}

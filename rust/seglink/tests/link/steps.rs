//! Tests of the check of steps, and of the steps that are made: held to the question at every centimetre.
use seglink::{check_steps, packet_of, permitted_speed, steps_of, Kind, Refusal, Steps, Train, Unit};

/// A segment of 10 cm: 100 km/h with the delay, from 5 cm on 140 km/h.
const SHEET: [u8; 30] = [6, 0xC5, 0xC6, 4, 1, 0, 0, 7, 0, 0, 0, 0, 10, 0, 0, 0, 100, 0, 0, 1, 5, 0x8C, 1, 0, 0, 0, 0, 0, 0, 0];
const TRAIN: Train = Train { length: 2, cant: 80, maximum: 120, freight_p: false, freight_g: false, passenger: false };
const LENGTH: u32 = 10;

/// Returns the refusal and the place of a check on the sheet, or 0 and 0.
fn checked(starts: &[u32], speeds: &[u32]) -> (u32, u32) {
    match check_steps(Kind::Sheet, &[&SHEET], TRAIN, starts, speeds) {
        Ok(()) => (0, 0),
        Err(refused) => (refused.refusal.number(), refused.place),
    }
}

#[test]
fn steps_are_accepted_or_refused_at_the_first_wrong_centimetre() {
    assert_eq!(checked(&[0, 7], &[100, 120]), (0, 0));
    assert_eq!(checked(&[0, 3, 7], &[100, 100, 120]), (0, 0));
    assert_eq!(checked(&[0, 5], &[100, 120]), (19, 5));
    assert_eq!(checked(&[0, 8], &[100, 120]), (19, 7));
    assert_eq!(checked(&[0], &[100]), (19, 7));
    assert_eq!(checked(&[0, 7], &[100, 140]), (19, 7));
    assert_eq!(checked(&[0, 7], &[99, 120]), (19, 0));
}

#[test]
fn counts_starts_and_unequal_numbers_are_refused_before_a_wrong_speed() {
    for (starts, speeds) in [
        (&[][..], &[][..]),
        (&[1, 7], &[100, 120]),
        (&[0, 7, 7], &[100, 120, 120]),
        (&[0, 7, 6], &[100, 120, 120]),
        (&[0, 7, 10], &[100, 120, 120]),
        (&[0, 7], &[99]),
        (&[0], &[99, 120]),
    ] {
        assert_eq!(checked(starts, speeds), (18, 0), "{starts:?} {speeds:?}");
    }
    let (starts, speeds): (Vec<u32>, Vec<u32>) = (0..129).map(|start| (start, 100)).unzip();
    assert_eq!(checked(&starts, &speeds), (18, 0));
    assert_eq!(Steps::MOST, 128);
}

#[test]
fn the_segment_and_the_train_are_refused_first() {
    let refused = |segment: &[u8], train| check_steps(Kind::Sheet, &[segment], train, &[], &[1]).unwrap_err().refusal;
    assert_eq!(refused(&SHEET[..29], Train { maximum: 0, ..TRAIN }), Refusal::SheetForm);
    assert_eq!(refused(&SHEET, Train { maximum: 0, ..TRAIN }), Refusal::TrainValue);
    assert_eq!(check_steps(Kind::Sheet, &[], TRAIN, &[], &[]).unwrap_err().refusal, Refusal::RunCount);
    let wrong = check_steps(Kind::Sheet, &[&SHEET], TRAIN, &[0], &[100]).unwrap_err();
    assert_eq!((wrong.place, wrong.unit), (7, Unit::Centimetre));
    let words = "19 at centimetre 7: the last step at or before a centimetre does not give the permitted speed";
    assert_eq!(wrong.to_string(), words);
}

#[test]
fn steps_that_are_made_are_right_at_every_centimetre_and_wrong_with_another_speed_or_a_centimetre_late() {
    let packet = packet_of(&SHEET).unwrap();
    let mut slow = SHEET;
    slow[16] = 60;
    for (kind, segments) in [
        (Kind::Sheet, &[&SHEET[..]][..]),
        (Kind::Packet, &[&packet]),
        (Kind::Sheet, &[&slow, &SHEET]),
        (Kind::Sheet, &[&SHEET[..]; 4]),
    ] {
        for length in [1, 2, 4, 9, 30, 150_000] {
            let train = Train { length, ..TRAIN };
            let Steps { starts, speeds } = steps_of(kind, segments, train).unwrap();
            check_steps(kind, segments, train, &starts, &speeds).unwrap();
            for x in 0..LENGTH {
                let step = starts.iter().rposition(|start| *start <= x).unwrap();
                assert_eq!(permitted_speed(kind, segments, train, x).unwrap(), speeds[step], "{train:?} at {x}");
            }
            for step in 0..starts.len() {
                let mut other = speeds.clone();
                other[step] += 1;
                let wrong = check_steps(kind, segments, train, &starts, &other).unwrap_err();
                assert_eq!((wrong.refusal, wrong.place), (Refusal::WrongSpeed, starts[step]), "{train:?}, step {step}");
            }
            for step in 1..starts.len() {
                let mut late = starts.clone();
                late[step] += 1;
                let wrong = check_steps(kind, segments, train, &late, &speeds).unwrap_err();
                let past = late[step] == *starts.get(step + 1).unwrap_or(&LENGTH);
                let expected = if past { (Refusal::Steps, 0) } else { (Refusal::WrongSpeed, starts[step]) };
                assert_eq!((wrong.refusal, wrong.place), expected, "{train:?}, step {step} late");
            }
        }
    }
}

//! Tests of a train's maximum: every speed is worked out by hand.

use crate::desk::{packet_of, sheet, sheet_with, SHEET, SPEED, TRAIN};
use crate::*;

/// Checks what a profile of a speed gives a train with a maximum, by the packet and by the sheet.
fn gives(profile: u32, maximum: u32, of_packet: u32, of_sheet: u32) {
    let (sheet, train) = (sheet_with(SPEED, profile), Train { maximum, ..TRAIN });
    let packet = packet_of(&sheet).unwrap();
    assert_eq!(permitted_speed_one(KIND_PACKET, &packet, &train, 0), Ok(of_packet), "{profile}, {maximum}");
    assert_eq!(permitted_speed_one(KIND_SHEET, &sheet, &train, 0), Ok(of_sheet), "{profile}, {maximum}");
}

#[test]
fn the_lower_of_the_maximum_and_the_profile_s_speed_counts() {
    gives(80, 83, 80, 80);
    gives(85, 83, 83, 83);
    gives(100, 83, 83, 83);
    gives(100, 99, 99, 99);
    gives(100, 1, 1, 1);
    gives(0, 1, 0, 0);
}

#[test]
fn the_profile_s_speed_is_lowered_and_the_maximum_is_not() {
    gives(84, 83, 80, 83);
    gives(83, 83, 80, 83);
    gives(82, 83, 80, 82);
    gives(4, 1, 0, 1);
    gives(104, 101, 100, 101);
}

#[test]
fn no_speed_is_above_600() {
    gives(604, 600, 600, 600);
    gives(600, 600, 600, 600);
    gives(599, 600, 595, 599);
    gives(604, 599, 599, 599);
}

#[test]
fn the_maximum_holds_on_a_run() {
    let (slow, fast) = (sheet_with(SPEED, 43), sheet_with(SPEED, 104));
    for (maximum, speed) in [(1, 1), (42, 42), (83, 43), (600, 43)] {
        let train = Train { maximum, ..TRAIN };
        assert_eq!(permitted_speed(KIND_SHEET, 2, [&slow, &fast, &[], &[]], &train, 0), Ok(speed), "{maximum}");
    }
    let train = Train { maximum: 83, ..TRAIN };
    assert_eq!(permitted_speed(KIND_SHEET, 2, [&fast, &fast, &[], &[]], &train, 0), Ok(83));
}

#[test]
fn a_maximum_outside_1_to_600_is_judged_as_a_train_is() {
    let sheet = sheet(&SHEET);
    for maximum in [0, 601, 604, 65_619, 0x8000_0053, u32::MAX] {
        let train = Train { maximum, ..TRAIN };
        assert_eq!(permitted_speed_one(KIND_SHEET, &sheet, &train, 0), Err(Refusal::Train.nowhere()), "{maximum}");
        assert_eq!(permitted_speed_one(KIND_SHEET, &sheet, &train, 1), Err(Refusal::Train.nowhere()), "{maximum}");
        assert_eq!(permitted_speed_one(KIND_SHEET, &sheet[..24], &train, 1), Err(Refusal::Sheet.at(24)), "{maximum}");
        let run = [&sheet[..], &sheet[..3], &[], &[]];
        assert_eq!(permitted_speed(KIND_SHEET, 2, run, &train, 1), Err(Refusal::Sheet.at(1)), "{maximum}");
    }
    for maximum in [1, 600] {
        let train = Train { maximum, ..TRAIN };
        assert_eq!(permitted_speed_one(KIND_SHEET, &sheet, &train, 1), Err(Refusal::PastEnd.nowhere()), "{maximum}");
    }
}

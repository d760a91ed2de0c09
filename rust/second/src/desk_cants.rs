//! Tests which cant deficiency's entries count for a train: every speed is worked out by hand, and asked of the sheet and of its packet.

use crate::bits::bits_of;
use crate::desk::{packet_of, packet_with, sheet, FRONT, LENGTH, SHEET, SPEED, SPEED_CHANGES, TRAIN};
use crate::*;

/// An entry: Q_DIFF, the millimetres or the category, km/h.
type Entry = (u32, u32, u32);

/// V_STATIC in km/h, higher than some entries and lower than others.
const STATIC: u32 = 90;

/// Returns the numbers of entries, with their count before them.
fn counted(entries: &[Entry]) -> Vec<u32> {
    let mut numbers = vec![entries.len() as u32];
    numbers.extend(entries.iter().flat_map(|(q_diff, class, speed)| [*q_diff, *class, *speed]));
    numbers
}

/// Returns the document's sheet with another V_STATIC and entries of its only element.
fn sheet_of_entries(entries: &[Entry]) -> Vec<u8> {
    let mut numbers = SHEET.to_vec();
    numbers[SPEED] = STATIC;
    numbers.splice(SPEED_CHANGES - 1..SPEED_CHANGES, counted(entries));
    sheet(&numbers)
}

/// Checks that the sheet gives a train the speed, and its packet the speed lowered to a multiple of 5.
fn gives(entries: &[Entry], train: &Train, speed: u32) {
    let sheet = sheet_of_entries(entries);
    let packet = packet_of(&sheet).unwrap();
    assert_eq!(permitted_speed_one(KIND_SHEET, &sheet, train, 0), Ok(speed), "{entries:?}, {train:?}");
    assert_eq!(permitted_speed_one(KIND_PACKET, &packet, train, 0), Ok(speed - speed % 5), "{entries:?}, {train:?}");
}

/// Checks that trains of no category get these speeds, by cant deficiency, whatever the order of the entries.
fn give(entries: &[Entry], speeds: &[(u32, u32)]) {
    let backwards: Vec<Entry> = entries.iter().rev().copied().collect();
    for (cant, speed) in speeds {
        let train = Train { cant: *cant, ..TRAIN };
        gives(entries, &train, *speed);
        gives(&backwards, &train, *speed);
    }
}

#[test]
fn a_150_mm_train_with_entries_for_100_and_165_uses_the_100_entry() {
    give(&[(0, 100, 110), (0, 165, 130)], &[(150, 110)]);
    give(&[(0, 100, 130), (0, 165, 110)], &[(150, 130)]);
    give(&[(0, 100, 70), (0, 165, 60)], &[(150, 70)]);
}

#[test]
fn each_train_takes_the_greatest_figure_that_is_not_above_its_own() {
    let entries = [(0, 100, 111), (0, 165, 131), (0, 245, 153)];
    let speeds = [
        (80, 90),
        (100, 111),
        (130, 111),
        (150, 111),
        (165, 131),
        (180, 131),
        (210, 131),
        (225, 131),
        (245, 153),
        (275, 153),
        (300, 153),
    ];
    give(&entries, &speeds);
}

#[test]
fn the_own_figure_comes_before_lower_ones() {
    give(&[(0, 130, 60), (0, 150, 120), (0, 80, 40)], &[(150, 120)]);
    give(&[(0, 130, 140), (0, 150, 70), (0, 80, 160)], &[(150, 70)]);
    give(&[(0, 300, 200), (0, 275, 100)], &[(300, 200), (275, 100), (245, 90)]);
}

#[test]
fn of_the_figure_s_entries_the_lowest_speed_counts() {
    give(&[(0, 100, 124), (0, 100, 118), (0, 100, 131), (0, 165, 50)], &[(150, 118), (100, 118), (80, 90)]);
    give(&[(0, 80, 20), (0, 100, 60), (0, 100, 75), (0, 130, 95), (0, 130, 85)], &[(300, 85), (100, 60)]);
}

#[test]
fn v_static_stays_where_all_figures_are_above() {
    give(&[(0, 165, 130), (0, 300, 40)], &[(150, 90), (80, 90)]);
    give(&[(0, 100, 40)], &[(80, 90)]);
    give(&[], &[(80, 90), (300, 90)]);
}

#[test]
fn the_greater_of_two_lower_figures_counts_be_it_faster_or_slower() {
    give(&[(0, 80, 60), (0, 130, 120)], &[(150, 120)]);
    give(&[(0, 80, 120), (0, 130, 60)], &[(150, 60)]);
    give(&[(0, 80, 120), (0, 100, 60), (0, 130, 100)], &[(150, 100)]);
}

#[test]
fn v_static_is_no_bound_on_a_lower_figure_s_speed() {
    give(&[(0, 100, 600)], &[(150, 600)]);
    give(&[(0, 100, 0)], &[(150, 0)]);
}

#[test]
fn categories_replace_and_lower_as_they_did() {
    // an entry for a lower figure, entries that replace the speed for freight G and lower it for passenger; a category is not a cant deficiency
    let entries = [(0, 100, 112), (1, 1, 140), (1, 1, 135), (2, 2, 104), (0, 165, 20)];
    let train = Train { cant: 150, ..TRAIN };
    gives(&entries, &train, 112);
    gives(&entries, &Train { freight_p: true, ..train }, 112);
    gives(&entries, &Train { freight_g: true, ..train }, 135);
    gives(&entries, &Train { passenger: true, ..train }, 104);
    gives(&entries, &Train { freight_g: true, passenger: true, ..train }, 104);
    gives(&entries, &Train { cant: 80, passenger: true, ..train }, 90);
    gives(&entries, &Train { cant: 165, passenger: true, ..train }, 20);
    // entries for one category do not count for another
    let above = [(1, 1, 30), (2, 1, 20), (0, 100, 112)];
    gives(&above, &Train { passenger: true, ..train }, 112);
    gives(&above, &Train { freight_p: true, ..train }, 112);
}

#[test]
fn the_packet_has_the_figure_s_place() {
    // the first entry's class begins at the bit 268; 100 has the place 1 in the table, 165 the place 4
    let packet = packet_of(&sheet_of_entries(&[(0, 100, 110), (0, 165, 130)])).unwrap();
    let bits: String = bits_of(&packet)[266..292].iter().map(|bit| if *bit { '1' } else { '0' }).collect();
    assert_eq!(bits, "00_0001_0010110_00_0100_0011010".replace('_', ""));
    for (place, speed) in [(0, 110), (2, 110), (3, 110), (4, 90), (10, 90)] {
        let train = Train { cant: 150, ..TRAIN };
        assert_eq!(
            permitted_speed_one(KIND_PACKET, &packet_with(&packet, (268, 4), place), &train, 0),
            Ok(speed),
            "place {place}"
        );
    }
}

#[test]
fn each_element_falls_for_itself() {
    // from 0 the entry for 130 counts, from 500 the entry for 80, from 800 V_STATIC
    let mut numbers = SHEET.to_vec();
    numbers[LENGTH] = 1_000;
    numbers[SPEED] = STATIC;
    let first = counted(&[(0, 130, 102), (0, 80, 55)]);
    let second = [vec![2, 500, STATIC, 0], counted(&[(0, 80, 124), (0, 165, 30)])].concat();
    let third = [vec![800, 143, 0], counted(&[(0, 165, 30)])].concat();
    numbers.splice(SPEED_CHANGES - 1..=SPEED_CHANGES, [first, second, third].concat());
    for (front, length, x, speed) in [
        (0, 200, 499, 102),
        (0, 200, 699, 102),
        (0, 200, 700, 124),
        (1, 200, 499, 102),
        (1, 200, 500, 124),
        (1, 200, 999, 124),
        (1, 100, 899, 124),
        (1, 100, 900, 143),
    ] {
        numbers[FRONT] = front;
        let train = Train { length, cant: 150, ..TRAIN };
        let sheet = sheet(&numbers);
        let packet = packet_of(&sheet).unwrap();
        assert_eq!(permitted_speed_one(KIND_SHEET, &sheet, &train, x), Ok(speed), "{x}");
        assert_eq!(permitted_speed_one(KIND_PACKET, &packet, &train, x), Ok(speed - speed % 5), "{x}");
    }
}

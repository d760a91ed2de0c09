//! Tests of runs of segments: every speed is worked out by hand, and asked of the sheets and of their packets.

use crate::desk::{packet_of, sample, sheet, FRONT, LENGTH, SHEET, SPEED, SPEED_CHANGES, TRAIN};
use crate::desk_journeys::JOURNEY;
use crate::*;

/// An element: its start in cm, km/h, Q_FRONT.
type Element = (u32, u32, u32);

/// Returns the sheet of a segment by its length and its elements, of which the first starts at 0.
fn segment(length: u32, elements: &[Element]) -> Vec<u8> {
    let mut numbers = SHEET.to_vec();
    let ((_, speed, front), changes) = elements.split_first().expect("a segment has an element");
    for (place, number) in [(LENGTH, length), (SPEED, *speed), (FRONT, *front)] {
        numbers[place] = number;
    }
    let changed = changes.iter().flat_map(|(start, speed, front)| [*start, *speed, *front, 0]);
    numbers.splice(SPEED_CHANGES..=SPEED_CHANGES, [changes.len() as u32].into_iter().chain(changed));
    sheet(&numbers)
}

/// Asks about a run of segments of a kind; those that are not lent are empty.
fn asked(kind: u32, run: &[Vec<u8>], train: &Train, x: u32) -> Result<u32, Refused> {
    let lent = [0, 1, 2, 3].map(|nth| run.get(nth).map_or(&[][..], |segment| segment));
    permitted_speed(kind, run.len() as u32, lent, train, x)
}

/// Checks that the sheets of a run give a train of 200 cm these speeds, and their packets the speeds lowered to multiples of 5.
fn gives(run: &[Vec<u8>], speeds: &[(u32, u32)]) {
    let packets: Vec<Vec<u8>> = run.iter().map(|sheet| packet_of(sheet).unwrap()).collect();
    for (x, speed) in speeds {
        assert_eq!(asked(KIND_SHEET, run, &TRAIN, *x), Ok(*speed), "{x}");
        assert_eq!(asked(KIND_PACKET, &packets, &TRAIN, *x), Ok(speed - speed % 5), "{x}");
    }
}

#[test]
fn the_tail_is_still_on_the_segment_before() {
    let fast = segment(1_000, &[(0, 104, 0)]);
    gives(&[segment(1_000, &[(0, 43, 0)]), fast.clone()], &[(0, 43), (199, 43), (200, 104), (999, 104)]);
    gives(&[segment(1_000, &[(0, 43, 1)]), fast.clone()], &[(0, 104), (999, 104)]);
    gives(&[fast.clone()], &[(0, 104)]);
    // a faster segment before changes nothing
    gives(&[segment(1_000, &[(0, 140, 0)]), fast], &[(0, 104), (199, 104), (200, 104)]);
}

#[test]
fn an_element_before_the_last_reaches_over_the_boundary() {
    // 30 km/h up to 900, then 120 without a delay; in the next segment 140, from 50 on 160
    let before = segment(1_000, &[(0, 30, 0), (900, 120, 1)]);
    let last = segment(500, &[(0, 140, 0), (50, 160, 0)]);
    gives(&[before, last.clone()], &[(0, 30), (99, 30), (100, 140), (249, 140), (250, 160)]);
    // 20 km/h up to 100, which the train has left
    let left = segment(1_000, &[(0, 20, 0), (100, 120, 0)]);
    gives(&[left, last], &[(0, 120), (199, 120), (200, 140), (250, 160)]);
}

#[test]
fn a_delay_reaches_over_short_segments() {
    let run = [(1_000, 40), (50, 60), (30, 80), (1_000, 100)].map(|(length, speed)| segment(length, &[(0, speed, 0)]));
    gives(&run, &[(0, 40), (119, 40), (120, 60), (169, 60), (170, 80), (199, 80), (200, 100)]);
    gives(&run[1..], &[(0, 60), (169, 60), (170, 80), (200, 100)]);
    // the train is longer than all that is lent
    let short = [1, 1, 1, 1].map(|length| segment(length, &[(0, 70 + length, 0)]));
    gives(&[&[segment(196, &[(0, 9, 0)])], &short[..3]].concat(), &[(0, 9)]);
    gives(&short, &[(0, 71)]);
}

#[test]
fn each_segment_ends_where_it_says() {
    // lengths that a test on the run's length or on another segment's would take for one another
    let run = [(100, 40), (1_000, 60), (10, 80)].map(|(length, speed)| segment(length, &[(0, speed, 0)]));
    gives(&run, &[(0, 60), (9, 60)]);
    assert_eq!(asked(KIND_SHEET, &run, &TRAIN, 10), Err(Refusal::PastEnd.nowhere()));
    assert_eq!(asked(KIND_SHEET, &run[..2], &TRAIN, 99), Ok(40));
    assert_eq!(asked(KIND_SHEET, &run[..2], &TRAIN, 999), Ok(60));
    assert_eq!(asked(KIND_SHEET, &run[..2], &TRAIN, 1_000), Err(Refusal::PastEnd.nowhere()));
    assert_eq!(asked(KIND_SHEET, &run[..1], &TRAIN, 100), Err(Refusal::PastEnd.nowhere()));
}

#[test]
fn the_order_is_that_of_travel() {
    let (slow, fast) = (segment(100, &[(0, 40, 0)]), segment(1_000, &[(0, 100, 0)]));
    gives(&[slow.clone(), fast.clone()], &[(199, 40), (200, 100), (999, 100)]);
    gives(&[fast.clone(), slow.clone()], &[(0, 40), (99, 40)]);
    // the same segment twice: its own end is delayed as any other's
    let ends_slow = segment(1_000, &[(0, 100, 0), (800, 40, 0)]);
    gives(&[ends_slow.clone(), ends_slow.clone()], &[(0, 40), (199, 40), (200, 100), (799, 100), (800, 40)]);
    gives(&[ends_slow], &[(0, 100), (199, 100)]);
}

#[test]
fn the_longest_run_is_counted_whole() {
    let longest = segment(16_777_215, &[(0, 40, 0)]);
    let last = segment(16_777_215, &[(0, 100, 0)]);
    let run = [longest.clone(), longest.clone(), longest, last];
    gives(&run, &[(199, 40), (200, 100), (16_777_214, 100)]);
    let train = Train { length: 150_000, ..TRAIN };
    assert_eq!(asked(KIND_SHEET, &run, &train, 149_999), Ok(40));
    assert_eq!(asked(KIND_SHEET, &run, &train, 150_000), Ok(100));
    assert_eq!(asked(KIND_SHEET, &run, &train, u32::MAX), Err(Refusal::PastEnd.nowhere()));
}

#[test]
fn segments_past_the_count_play_no_part() {
    let (slow, fast) = (segment(100, &[(0, 40, 0)]), segment(1_000, &[(0, 100, 0)]));
    for behind in [&slow[..], &slow[..3], &sample(), &[], &[0x80, 0x00]] {
        assert_eq!(permitted_speed(KIND_SHEET, 1, [&fast, behind, behind, behind], &TRAIN, 0), Ok(100));
        assert_eq!(permitted_speed(KIND_SHEET, 2, [&slow, &fast, behind, behind], &TRAIN, 0), Ok(40));
        assert_eq!(permitted_speed(KIND_SHEET, 3, [&fast, &fast, &fast, behind], &TRAIN, 0), Ok(100));
    }
}

#[test]
fn refusals_come_in_the_document_s_order() {
    let good = segment(1_000, &[(0, 100, 0)]);
    let journey = sheet(&JOURNEY);
    // refused with 9 at 24, 9 at 1, 2, 4 at 12
    let cut = sheet(&SHEET)[..24].to_vec();
    let (shorter, no_length) = (good[..3].to_vec(), segment(0, &[(0, 100, 0)]));
    let none = Train { length: 0, ..TRAIN };
    for (run, refused) in [
        ([&good, &good, &cut, &shorter], Refusal::Sheet.at(24)),
        ([&good, &shorter, &cut, &good], Refusal::Sheet.at(1)),
        ([&cut, &good, &journey, &shorter], Refusal::Sheet.at(24)),
        ([&good, &journey, &cut, &shorter], Refusal::Number.nowhere()),
        ([&good, &good, &good, &no_length], Refusal::Field.at(12)),
        ([&good, &good, &good, &good], Refusal::Train.nowhere()),
    ] {
        let run = run.map(|segment| &segment[..]);
        assert_eq!(permitted_speed(KIND_SHEET, 4, run, &none, 1_000), Err(refused));
        for count in [0, 5, 6, 256, 257, 65_537, 0x8000_0001, u32::MAX] {
            assert_eq!(permitted_speed(KIND_SHEET, count, run, &none, 1_000), Err(Refusal::Run.at(0)), "{count}");
            assert_eq!(permitted_speed(KIND_PACKET, count, run, &none, 1_000), Err(Refusal::Run.at(0)), "{count}");
            assert_eq!(permitted_speed(2, count, run, &none, 1_000), Err(Refusal::Kind.at(0)), "{count}");
        }
        assert_eq!(permitted_speed(2, 4, run, &none, 1_000), Err(Refusal::Kind.at(0)));
    }
    assert_eq!(permitted_speed(KIND_SHEET, 4, [&good[..]; 4], &TRAIN, 1_000), Err(Refusal::PastEnd.nowhere()));
    assert_eq!(permitted_speed(KIND_SHEET, 4, [&good[..]; 4], &TRAIN, 999), Ok(100));
}

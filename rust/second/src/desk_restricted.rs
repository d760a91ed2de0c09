//! Tests of the restricted speed: every speed is worked out by hand, and asked of the sheets and of their packets.

use crate::desk::{packet_of, sample, sheet, sheet_of, LENGTH, SHEET, SPEED};
use crate::desk_journeys::long;
use crate::*;

/// A temporary constraint: Q_TC_Type, Q_TC_Range, its start and its end in cm, Q_FRONT, km/h.
type Constraint = [u32; 6];
/// A segment of a journey: NID_SP, the minor version, Q_SP_DIR, its constraints.
type Leg<'a> = (u32, u32, u32, &'a [Constraint]);

/// A train of 200 cm.
const TRAIN: Train = crate::desk::TRAIN;
/// Places of NID_SP and of the minor version in a segment's sheet.
const NUMBER: usize = 7;
const MINOR: usize = 9;
/// A restriction of a whole segment to 43 km/h, with the delay.
const WHOLE: Constraint = [0, 3, 0, 0, 0, 43];

/// Returns the sheet of a segment by its NID_SP, its length in cm and its km/h, with the delay.
fn segment(number: u32, length: u32, speed: u32) -> Vec<u8> {
    let mut numbers = SHEET;
    for (place, value) in [(NUMBER, number), (MINOR, 5), (LENGTH, length), (SPEED, speed)] {
        numbers[place] = value;
    }
    sheet(&numbers)
}

/// Returns the sheet of a journey over some segments, without timing points.
fn journey(legs: &[Leg]) -> Vec<u8> {
    let mut numbers = vec![4, 0x12345, 1, 0, 0, 7, 1, legs.len() as u32];
    for (number, minor, direction, constraints) in legs {
        numbers.extend([0, *number, 0, *minor, *direction, 0, constraints.len() as u32]);
        numbers.extend(constraints.iter().flat_map(|[tc_type, range, start, end, front, speed]| {
            [*tc_type, *range, *start, *end, *front, *speed, if *tc_type == 1 { 5 } else { 0 }, 0]
        }));
    }
    sheet(&numbers)
}

/// Asks about a run of segments of a kind, and a journey of that kind; those that are not lent are empty.
fn asked(kind: u32, run: &[Vec<u8>], journey: &[u8], leg: u32, train: &Train, x: u32) -> Result<u32, Refused> {
    let lent = [0, 1, 2, 3].map(|nth| run.get(nth).map_or(&[][..], |segment| segment));
    restricted_speed(kind, run.len() as u32, lent, journey, leg, train, x)
}

/// Asks about sheets and about their packets, and returns the speed from the sheets; that from the packets must be the greatest multiple of 5 not
/// above it, and a refusal the same.
fn both(run: &[Vec<u8>], journey: &[u8], leg: u32, train: &Train, x: u32) -> Result<u32, Refused> {
    let packets: Vec<Vec<u8>> = run.iter().map(|sheet| packet_of(sheet).unwrap()).collect();
    let answer = asked(KIND_SHEET, run, journey, leg, train, x);
    let by_packets = asked(KIND_PACKET, &packets, &packet_of(journey).unwrap(), leg, train, x);
    assert_eq!(by_packets, answer.map(|speed| speed / 5 * 5), "{x}");
    answer
}

/// Checks the speeds of a train of 200 cm, by x.
fn gives(run: &[Vec<u8>], journey: &[u8], leg: u32, speeds: &[(u32, u32)]) {
    for (x, speed) in speeds {
        assert_eq!(both(run, journey, leg, &TRAIN, *x), Ok(*speed), "at {x}");
    }
}

/// Checks the speeds on a segment of 1,000 cm and 104 km/h with these constraints, by x.
fn restricts(constraints: &[Constraint], speeds: &[(u32, u32)]) {
    gives(&[segment(1, 1_000, 104)], &journey(&[(1, 5, 1, constraints)]), 0, speeds);
}

#[test]
fn the_two_samples_give_60_and_30_at_25_m() {
    let (segment, journey) =
        (include_bytes!("../../../examples/sample.packet"), include_bytes!("../../../examples/journey.packet"));
    // 30 km/h from 2,000 to 4,500 cm with the delay; 60 km/h up to 3,000 cm with the delay, then 100
    for (x, permitted, restricted) in [
        (1_999, 60, 60),
        (2_000, 60, 30),
        (2_500, 60, 30),
        (3_199, 60, 30),
        (3_200, 100, 30),
        (4_699, 100, 30),
        (4_700, 100, 100),
    ] {
        assert_eq!(permitted_speed_one(KIND_PACKET, segment, &TRAIN, x), Ok(permitted), "{x}");
        assert_eq!(asked(KIND_PACKET, &[segment.to_vec()], journey, 0, &TRAIN, x), Ok(restricted), "{x}");
    }
    // the second segment of the journey is of another version, and in reverse
    let next = include_bytes!("../../../examples/next.packet").to_vec();
    assert_eq!(asked(KIND_PACKET, &[next], journey, 1, &TRAIN, 2_500), Err(Refusal::OtherSegment.nowhere()));
    // the office's own sheet says 33, at byte 69
    let (mut sheet, segment) = (sheet_of(journey).unwrap(), sheet_of(segment).unwrap());
    assert_eq!(std::mem::replace(&mut sheet[69], 33), 30);
    assert_eq!(asked(KIND_SHEET, &[segment], &sheet, 0, &TRAIN, 2_500), Ok(33));
}

#[test]
fn the_range_says_where_a_constraint_restricts() {
    restricts(&[[0, 0, 300, 0, 0, 43]], &[(0, 104), (299, 104), (300, 43), (999, 43)]);
    restricts(&[[0, 0, 0, 0, 0, 43]], &[(0, 43), (999, 43)]);
    restricts(&[[0, 0, 999, 0, 0, 43]], &[(998, 104), (999, 43)]);
    restricts(&[[0, 1, 0, 300, 1, 43]], &[(0, 43), (299, 43), (300, 104), (999, 104)]);
    restricts(&[[0, 1, 0, 1_000, 1, 43]], &[(0, 43), (999, 43)]);
    restricts(&[[0, 2, 300, 500, 1, 43]], &[(299, 104), (300, 43), (499, 43), (500, 104)]);
    restricts(&[[0, 2, 999, 1_000, 1, 43]], &[(998, 104), (999, 43)]);
    restricts(&[[0, 3, 0, 0, 1, 43]], &[(0, 43), (999, 43)]);
}

#[test]
fn with_q_front_0_the_end_is_delayed_by_the_train_s_length() {
    restricts(&[[0, 1, 0, 300, 0, 43]], &[(0, 43), (499, 43), (500, 104)]);
    restricts(&[[0, 2, 300, 500, 0, 43]], &[(299, 104), (300, 43), (699, 43), (700, 104)]);
    // each has its own Q_FRONT
    restricts(&[[0, 2, 300, 500, 0, 63], [0, 2, 300, 550, 1, 43]], &[(549, 43), (550, 63), (699, 63), (700, 104)]);
}

#[test]
fn the_lowest_of_all_counts() {
    let three = [[0, 3, 0, 0, 1, 90], [0, 2, 200, 400, 1, 43], [0, 0, 300, 0, 1, 64]];
    restricts(&three, &[(0, 90), (199, 90), (200, 43), (399, 43), (400, 64), (999, 64)]);
    restricts(&[], &[(0, 104), (999, 104)]);
    restricts(&[[0, 3, 0, 0, 1, 104], [0, 3, 0, 0, 0, 604]], &[(0, 104)]);
    restricts(&[[0, 3, 0, 0, 1, 0]], &[(0, 0), (999, 0)]);
    restricts(&[[0, 3, 0, 0, 1, 103]; 31], &[(0, 103)]);
}

#[test]
fn other_types_restrict_nothing_and_may_lie_anywhere() {
    for tc_type in 1..4 {
        for [start, end, range] in [[0, 0, 3], [1_000, 0, 0], [0, 0, 1], [0, 1_001, 1], [999, 1_001, 2]] {
            restricts(&[[tc_type, range, start, end, 0, 0]], &[(0, 104), (999, 104)]);
        }
    }
}

#[test]
fn a_restriction_reaches_over_boundaries() {
    let run = [segment(1, 1_000, 104), segment(2, 50, 104), segment(3, 1_000, 104)];
    let legs = |first: &'static [Constraint]| journey(&[(1, 5, 1, first), (2, 5, 1, &[]), (3, 5, 1, &[])]);
    // 950 to 1,000 and 200 more: 150 cm of the last segment
    gives(&run, &legs(&[[0, 0, 950, 0, 0, 43]]), 2, &[(0, 43), (149, 43), (150, 104)]);
    gives(&run, &legs(&[[0, 0, 950, 0, 1, 43]]), 2, &[(0, 104), (149, 104)]);
    gives(&run, &legs(&[[0, 2, 100, 851, 0, 43]]), 2, &[(0, 43), (1, 104)]);
    gives(&run, &legs(&[[0, 2, 100, 850, 0, 43]]), 2, &[(0, 104)]);
    // locations count from the constraint's own segment
    let second = journey(&[(1, 5, 1, &[]), (2, 5, 1, &[[0, 2, 10, 20, 0, 43]]), (3, 5, 1, &[[0, 2, 10, 20, 1, 30]])]);
    gives(&run, &second, 2, &[(0, 43), (9, 43), (10, 30), (19, 30), (20, 43), (169, 43), (170, 104)]);
    gives(&run[..2], &second, 1, &[(0, 104), (9, 104), (10, 43), (49, 43)]);
}

#[test]
fn constraints_of_the_other_legs_play_no_part() {
    let legs = [(1, 5, 1, &[WHOLE][..]), (2, 5, 1, &[]), (3, 5, 1, &[WHOLE])];
    gives(&[segment(2, 1_000, 104)], &journey(&legs), 1, &[(200, 104), (999, 104)]);
    gives(&[segment(1, 1_000, 104)], &journey(&legs), 0, &[(0, 43)]);
    gives(&[segment(3, 1_000, 104)], &journey(&legs), 2, &[(200, 43)]);
    // a leg before the run may be in reverse, or have a typing error
    let past = [0, 1, 0, u32::MAX >> 8, 0, 43];
    let legs = [(1, 5, 0, &[past][..]), (2, 5, 1, &[]), (3, 5, 0, &[past])];
    gives(&[segment(2, 1_000, 104)], &journey(&legs), 1, &[(200, 104)]);
}

#[test]
fn the_leg_says_which_of_two_visits_is_meant() {
    let run = [segment(1, 1_000, 104)];
    let twice = journey(&[(1, 5, 1, &[]), (2, 5, 1, &[]), (1, 5, 1, &[WHOLE])]);
    gives(&run, &twice, 0, &[(300, 104)]);
    gives(&run, &twice, 2, &[(300, 43)]);
    assert_eq!(both(&run, &twice, 1, &TRAIN, 300), Err(Refusal::OtherSegment.nowhere()));
}

#[test]
fn the_train_s_maximum_is_in_the_permitted_speed() {
    let (run, journey) = ([segment(1, 1_000, 104)], journey(&[(1, 5, 1, &[WHOLE])]));
    let packets = (vec![packet_of(&run[0]).unwrap()], packet_of(&journey).unwrap());
    for (maximum, of_packets, of_sheets) in [(600, 40, 43), (44, 40, 43), (42, 40, 42), (39, 39, 39), (1, 1, 1)] {
        let train = Train { maximum, ..TRAIN };
        assert_eq!(asked(KIND_SHEET, &run, &journey, 0, &train, 0), Ok(of_sheets), "{maximum}");
        assert_eq!(asked(KIND_PACKET, &packets.0, &packets.1, 0, &train, 0), Ok(of_packets), "{maximum}");
    }
}

#[test]
fn a_run_that_begins_behind_the_tail_is_refused_with_26() {
    let run = [segment(1, 50, 104), segment(2, 60, 104), segment(3, 1_000, 104)];
    let journey = journey(&[(9, 0, 0, &[]), (1, 5, 1, &[]), (2, 5, 1, &[]), (3, 5, 1, &[])]);
    let tail = Err(Refusal::TailBefore.nowhere());
    for (lent, first) in [(&run[2..], 200), (&run[1..], 140), (&run, 90)] {
        assert_eq!(both(lent, &journey, 3, &TRAIN, first - 1), tail);
        assert_eq!(both(lent, &journey, 3, &TRAIN, first), Ok(104));
        assert_eq!(both(lent, &journey, 3, &TRAIN, 999), Ok(104));
    }
    // longer than all that is lent
    assert_eq!(both(&run[..1], &journey, 1, &TRAIN, 49), tail);
    assert_eq!(both(&run, &journey, 3, &Train { length: 1_110, ..TRAIN }, 999), tail);
    assert_eq!(both(&run, &journey, 3, &Train { length: 1_109, ..TRAIN }, 999), Ok(104));
}

#[test]
fn at_leg_0_the_tail_is_before_the_journey() {
    let run = [segment(1, 50, 104), segment(2, 60, 104), segment(3, 1_000, 104)];
    let journey = journey(&[(1, 5, 1, &[WHOLE]), (2, 5, 1, &[]), (3, 5, 1, &[])]);
    gives(&run[..1], &journey, 0, &[(0, 43), (49, 43)]);
    gives(&run[..2], &journey, 1, &[(0, 43), (59, 43)]);
    gives(&run, &journey, 2, &[(0, 43), (139, 43), (140, 104)]);
    assert_eq!(both(&run, &journey, 2, &Train { length: 150_000, ..TRAIN }, 999), Ok(43));
}

#[test]
fn the_run_lies_in_the_journey() {
    let run = [segment(1, 1_000, 104), segment(1, 1_000, 104)];
    let two = journey(&[(1, 5, 1, &[]), (1, 5, 1, &[])]);
    for (count, leg, inside) in [(1, 0, true), (1, 1, true), (1, 2, false), (2, 0, false), (2, 1, true), (2, 2, false)] {
        let answer = both(&run[..count], &two, leg, &TRAIN, 999);
        assert_eq!(answer, if inside { Ok(104) } else { Err(Refusal::NoLeg.nowhere()) }, "{count} at leg {leg}");
    }
    for leg in [3, 255, 256, 257, 65_536, 65_537, 0x8000_0001, u32::MAX - 1, u32::MAX] {
        assert_eq!(both(&run, &two, leg, &TRAIN, 999), Err(Refusal::NoLeg.nowhere()), "{leg}");
    }
    assert_eq!(both(&run[..1], &journey(&[]), 0, &TRAIN, 0), Err(Refusal::NoLeg.nowhere()));
}

#[test]
fn each_segment_is_the_journey_s_at_its_place() {
    let run = [segment(7, 1_000, 104)];
    let other = Err(Refusal::OtherSegment.nowhere());
    let mut numbers = [4, 0, 0, 0, 0, 0, 0, 1, 0, 7, 0, 5, 1, 0, 0];
    assert_eq!(both(&run, &sheet(&numbers), 0, &TRAIN, 0), Ok(104));
    for (place, value) in [(8, 1), (9, 6), (9, 0x8000_0007), (10, 1), (11, 4), (11, 0)] {
        let own = std::mem::replace(&mut numbers[place], value);
        assert_eq!(both(&run, &sheet(&numbers), 0, &TRAIN, 0), other, "{place}: {value}");
        numbers[place] = own;
    }
    // the version's two numbers are not exchanged
    (numbers[10], numbers[11]) = (5, 0);
    assert_eq!(both(&run, &sheet(&numbers), 0, &TRAIN, 0), other);
    // two segments in the journey's order, and in the other
    let two = journey(&[(1, 5, 1, &[]), (2, 5, 1, &[])]);
    assert_eq!(both(&[segment(1, 10, 80), segment(2, 10, 80)], &two, 1, &TRAIN, 0), Ok(80));
    assert_eq!(both(&[segment(2, 10, 80), segment(1, 10, 80)], &two, 1, &TRAIN, 0), other);
}

#[test]
fn a_constraint_of_a_speed_lies_in_its_segment() {
    let run = [segment(1, 1_000, 104)];
    let outside = Err(Refusal::ConstraintPlace.nowhere());
    for constraint in [
        [0, 0, 1_000, 0, 0, 43],
        [0, 0, 16_777_215, 0, 0, 604],
        [0, 1, 0, 0, 0, 43],
        [0, 1, 0, 1_001, 1, 43],
        [0, 2, 999, 1_001, 0, 43],
        [0, 2, 1_000, 1_001, 0, 43],
        [0, 2, 0, 16_777_215, 0, 43],
    ] {
        let ones = [WHOLE, constraint, WHOLE];
        for constraints in [&ones[1..2], &ones[..2], &ones] {
            assert_eq!(both(&run, &journey(&[(1, 5, 1, constraints)]), 0, &TRAIN, 0), outside, "{constraint:?}");
        }
    }
    // the segment's own length counts, and not the last one's
    let run = [segment(1, 10, 104), segment(2, 1_000, 104)];
    let second = |end| journey(&[(1, 5, 1, &[[0, 1, 0, end, 1, 43]]), (2, 5, 1, &[])]);
    assert_eq!(both(&run, &second(10), 1, &TRAIN, 0), Ok(104));
    assert_eq!(both(&run, &second(11), 1, &TRAIN, 0), outside);
}

/// Refusals of the journey and the run come in the page's order: each is asked with all that come after it.
#[test]
fn refusals_come_in_the_page_s_order() {
    let (near, far) = (segment(1, 1_000, 104), segment(2, 10, 104));
    let past = [[0, 0, 1_000, 0, 0, 43]];
    let none = Train { maximum: 0, ..TRAIN };
    let before = (9, 0, 0, &past[..]);
    for (second, third, train, x, refusal) in [
        ((8, 5, 0, &past[..]), (8, 5, 0, &past[..]), &none, 10, Refusal::OtherSegment),
        ((1, 5, 0, &past), (8, 5, 0, &past), &none, 10, Refusal::ReverseLeg),
        ((1, 5, 1, &past), (8, 5, 0, &past), &none, 10, Refusal::ConstraintPlace),
        ((1, 5, 1, &[]), (8, 5, 0, &past), &none, 10, Refusal::OtherSegment),
        ((1, 5, 1, &[]), (2, 5, 0, &past), &none, 10, Refusal::ReverseLeg),
        ((1, 5, 1, &[]), (2, 5, 1, &past), &none, 10, Refusal::ConstraintPlace),
        ((1, 5, 1, &[]), (2, 5, 1, &[]), &none, 10, Refusal::Train),
        ((1, 5, 1, &[]), (2, 5, 1, &[]), &Train { length: 1_100, ..TRAIN }, 10, Refusal::PastEnd),
        ((1, 5, 1, &[]), (2, 5, 1, &[]), &Train { length: 1_100, ..TRAIN }, 9, Refusal::TailBefore),
    ] {
        let run = [near.clone(), far.clone()];
        assert_eq!(both(&run, &journey(&[before, second, third]), 2, train, x), Err(refusal.nowhere()));
        assert_eq!(both(&run, &journey(&[before, second, third]), 3, train, x), Err(Refusal::NoLeg.nowhere()));
        assert_eq!(both(&run, &journey(&[before, second, third]), 0, train, x), Err(Refusal::NoLeg.nowhere()));
    }
}

#[test]
fn the_journey_is_judged_after_the_segments_and_before_the_leg() {
    let (good, none) = (segment(1, 1_000, 104), Train { length: 0, ..TRAIN });
    let whole = journey(&[(1, 5, 1, &[])]);
    let ask = |kind, count, first: &[u8], journey: &[u8]| {
        restricted_speed(kind, count, [first, &good, &[], &[]], journey, u32::MAX, &none, u32::MAX)
    };
    for (journey, refused) in [
        (&[][..], Refusal::Sheet.at(0)),
        (&whole[..9], Refusal::Sheet.at(9)),
        (&good, Refusal::Number.nowhere()),
        (&[6], Refusal::Number.nowhere()),
        (&[5], Refusal::Number.nowhere()),
        (&long(42, 486, 0), Refusal::Body.nowhere()),
        (&[&whole[..], &[0]].concat(), Refusal::Sheet.at(whole.len())),
        (&whole, Refusal::NoLeg.nowhere()),
    ] {
        assert_eq!(ask(KIND_SHEET, 1, &good, journey), Err(refused));
        assert_eq!(ask(KIND_SHEET, 2, &good, journey), Err(refused));
        assert_eq!(ask(KIND_SHEET, 2, &good[..3], journey), Err(Refusal::Sheet.at(1)));
        assert_eq!(ask(KIND_SHEET, 3, &good, journey), Err(Refusal::Sheet.at(0)));
        assert_eq!(ask(KIND_SHEET, 0, &good[..3], journey), Err(Refusal::Run.nowhere()));
        assert_eq!(ask(KIND_SHEET, 5, &good[..3], journey), Err(Refusal::Run.nowhere()));
        assert_eq!(ask(2, 0, &good[..3], journey), Err(Refusal::Kind.nowhere()));
    }
    let packet = packet_of(&whole).unwrap();
    for (journey, refused) in [
        (&packet[..14], Refusal::Short.nowhere()),
        (&sample(), Refusal::Number.nowhere()),
        (&sample()[..38], Refusal::Number.nowhere()),
        (&packet[..packet.len() - 1], Refusal::Size.nowhere()),
        (&whole, Refusal::Size.nowhere()),
        (&packet, Refusal::NoLeg.nowhere()),
    ] {
        let asked = restricted_speed(KIND_PACKET, 1, [&sample(), &[], &[], &[]], journey, u32::MAX, &none, u32::MAX);
        assert_eq!(asked, Err(refused));
    }
    // a journey where a segment is needed
    assert_eq!(ask(KIND_SHEET, 1, &whole, &[]), Err(Refusal::Number.nowhere()));
}

#[test]
fn the_status_plays_no_part() {
    let run = [segment(1, 1_000, 104)];
    for status in 0..5 {
        let numbers = [4, 0, 0, 0, 0, 0, status, 1, 0, 1, 0, 5, 1, 0, 1, 0, 3, 0, 0, 1, 43, 0, 0];
        assert_eq!(both(&run, &sheet(&numbers), 0, &TRAIN, 0), Ok(43), "{status}");
    }
}

#[test]
fn the_longest_run_is_counted_whole() {
    let last = 16_777_215;
    let run = [1, 2, 3, 4].map(|number| segment(number, last, 104));
    let journey = journey(&[(1, 5, 1, &[WHOLE]), (2, 5, 1, &[]), (3, 5, 1, &[[0, 0, last - 1, 0, 0, 43]]), (4, 5, 1, &[])]);
    let train = Train { length: 150_000, ..TRAIN };
    for (x, speed) in [(0, 43), (149_999, 43), (150_000, 104), (last - 1, 104)] {
        assert_eq!(both(&run, &journey, 3, &train, x), Ok(speed), "{x}");
    }
    assert_eq!(both(&run, &journey, 3, &train, last), Err(Refusal::PastEnd.nowhere()));
    assert_eq!(both(&run, &journey, 3, &train, u32::MAX), Err(Refusal::PastEnd.nowhere()));
}

//! Tests of the restricted speed on a run of a journey's segments; every speed is worked out by hand.
use crate::constraints::constraint;
use crate::segments::{element, packet, same, segment, sheet, Field, DESK_PACKET, DESK_SHEET};
use crate::told;
use seglink::{permitted_speed, restricted_speed, Kind, Refusal, Train};

/// A constraint by its numbers from Q_TC_Type to Q_Low_Adhesion_Rate.
type Numbers = [u32; 7];
/// A segment of a journey: NID_SP, the minor version, Q_SP_DIR, its constraints.
type Leg<'a> = (u32, u32, u32, &'a [Numbers]);

/// A train of 200 cm.
const SHUTTLE: Train = Train { length: 200, cant: 150, maximum: 600, freight_p: false, freight_g: false, passenger: false };
const NO_TRAIN: Train = Train { maximum: 0, ..SHUTTLE };
/// A restriction of a whole segment to 40 km/h, with the delay.
const WHOLE: Numbers = [0, 3, 0, 0, 0, 40, 0];
/// A restriction that starts at the end of a segment of 1,000 cm.
const PAST: Numbers = [0, 0, 1000, 0, 0, 40, 0];

/// Returns a segment of version 0.5 by its NID_SP, its length in cm and its km/h.
fn plain(number: u32, length: u32, kmh: u32) -> Vec<Field> {
    let mut fields = segment(length, 0, &element(kmh, 0, &[]), &[]);
    fields[7] = same(32, number);
    fields[9] = same(8, 5);
    fields
}

/// Returns a journey without timing points.
fn journey(legs: &[Leg]) -> Vec<Field> {
    let mut fields = vec![same(8, 4), same(32, 0), same(24, 1), same(15, 0), same(17, 0), same(8, 7), same(3, 1)];
    fields.push(same(8, legs.len() as u32));
    for (number, minor, direction, constraints) in legs {
        fields.extend([same(10, 0), same(32, *number), same(8, 0), same(8, *minor), same(1, *direction), same(5, 0)]);
        fields.push(same(5, constraints.len() as u32));
        fields.extend(constraints.iter().flat_map(|numbers| constraint(*numbers)));
    }
    fields
}

/// Asks about packets, and checks that the sheets give the same answer; all speeds are multiples of 5.
fn restricted(run: &[Vec<Field>], journey: &[Field], leg: u32, train: Train, x: u32) -> Result<u32, Refusal> {
    let [packets, sheets] = [packet, sheet].map(|write| run.iter().map(|fields| write(fields)).collect::<Vec<_>>());
    let lent = |run: &'_ [Vec<u8>], kind, journey: &[u8]| {
        let run: Vec<&[u8]> = run.iter().map(|segment| &segment[..]).collect();
        restricted_speed(kind, &run, journey, leg, train, x).map_err(|refused| refused.refusal)
    };
    let answer = lent(&packets, Kind::Packet, &packet(journey));
    assert_eq!(lent(&sheets, Kind::Sheet, &sheet(journey)), answer, "leg {leg}, {x} cm");
    answer
}

#[test]
fn the_two_samples_give_60_and_30_at_25_m() {
    let (segment, journey) =
        (include_bytes!("../../../../examples/sample.packet"), include_bytes!("../../../../examples/journey.packet"));
    for (x, permitted, restricted) in [(1999, 60, 60), (2000, 60, 30), (2500, 60, 30), (4699, 110, 30), (4700, 110, 110)] {
        assert_eq!(permitted_speed(Kind::Packet, &[segment], SHUTTLE, x), Ok(permitted), "{x}");
        assert_eq!(restricted_speed(Kind::Packet, &[segment], journey, 0, SHUTTLE, x), Ok(restricted), "{x}");
    }
}

#[test]
fn a_restriction_holds_by_its_range_and_its_q_front() {
    let run = [plain(1, 1000, 100)];
    for (numbers, speeds) in [
        ([0, 0, 300, 0, 0, 40, 0], [(299, 100), (300, 40), (999, 40)]),
        ([0, 1, 0, 300, 1, 40, 0], [(0, 40), (299, 40), (300, 100)]),
        ([0, 1, 0, 300, 0, 40, 0], [(0, 40), (499, 40), (500, 100)]),
        ([0, 2, 300, 500, 1, 40, 0], [(299, 100), (300, 40), (500, 100)]),
        ([0, 2, 300, 500, 0, 40, 0], [(300, 40), (699, 40), (700, 100)]),
        ([0, 3, 0, 0, 1, 40, 0], [(0, 40), (500, 40), (999, 40)]),
        ([0, 3, 0, 0, 1, 105, 0], [(0, 100), (500, 100), (999, 100)]),
        ([1, 3, 0, 0, 0, 0, 5], [(0, 100), (500, 100), (999, 100)]),
        ([2, 0, 1000, 0, 0, 0, 0], [(0, 100), (500, 100), (999, 100)]),
        ([3, 1, 0, 0, 0, 0, 0], [(0, 100), (500, 100), (999, 100)]),
    ] {
        for (x, speed) in speeds {
            assert_eq!(restricted(&run, &journey(&[(1, 5, 1, &[numbers])]), 0, SHUTTLE, x), Ok(speed), "{numbers:?} at {x}");
        }
    }
    let slower = Train { maximum: 33, ..SHUTTLE };
    assert_eq!(restricted(&run, &journey(&[(1, 5, 1, &[WHOLE])]), 0, slower, 0), Ok(33));
    assert_eq!(restricted(&run, &journey(&[(1, 5, 1, &[WHOLE, [0, 3, 0, 0, 0, 15, 0], WHOLE])]), 0, SHUTTLE, 0), Ok(15));
}

#[test]
fn a_sheet_s_own_speed_counts_in_km_h() {
    let (segment, odd) = (plain(1, 1000, 104), journey(&[(1, 5, 1, &[[0, 3, 0, 0, 0, 43, 0]])]));
    assert_eq!(restricted_speed(Kind::Sheet, &[&sheet(&segment)], &sheet(&odd), 0, SHUTTLE, 0), Ok(43));
    assert_eq!(restricted_speed(Kind::Packet, &[&packet(&segment)], &packet(&odd), 0, SHUTTLE, 0), Ok(40));
}

#[test]
fn a_restriction_reaches_over_boundaries_and_other_legs_play_no_part() {
    let run = [plain(1, 1000, 100), plain(2, 50, 100), plain(3, 1000, 100)];
    let legs = journey(&[
        (9, 5, 0, &[PAST]),
        (1, 5, 1, &[[0, 0, 950, 0, 0, 40, 0]]),
        (2, 5, 1, &[]),
        (3, 5, 1, &[]),
        (3, 5, 1, &[WHOLE]),
    ]);
    for (x, speed) in [(0, 40), (149, 40), (150, 100)] {
        assert_eq!(restricted(&run, &legs, 3, SHUTTLE, x), Ok(speed), "{x}");
    }
    assert_eq!(restricted(&run[2..], &legs, 3, SHUTTLE, 200), Ok(100));
    assert_eq!(restricted(&run[2..], &legs, 4, SHUTTLE, 200), Ok(40));
}

#[test]
fn the_tail_stands_on_what_is_lent_or_before_the_journey() {
    let run = [plain(1, 50, 100), plain(2, 1000, 100)];
    let (first, later) = (journey(&[(1, 5, 1, &[]), (2, 5, 1, &[])]), journey(&[(9, 0, 0, &[]), (1, 5, 1, &[]), (2, 5, 1, &[])]));
    assert_eq!(restricted(&run, &first, 1, SHUTTLE, 0), Ok(100));
    assert_eq!(restricted(&run[1..], &first, 1, SHUTTLE, 199), Err(Refusal::TailBefore));
    assert_eq!(restricted(&run[1..], &first, 1, SHUTTLE, 200), Ok(100));
    assert_eq!(restricted(&run, &later, 2, SHUTTLE, 149), Err(Refusal::TailBefore));
    assert_eq!(restricted(&run, &later, 2, SHUTTLE, 150), Ok(100));
}

#[test]
fn refusals_come_in_the_header_s_order() {
    let run = [plain(1, 1000, 100), plain(2, 10, 100)];
    let long = Train { length: 2000, ..SHUTTLE };
    let before = (9, 0, 0, &[PAST][..]);
    for (first, second, train, x, refusal) in [
        ((8, 5, 0, &[PAST][..]), (8, 5, 0, &[PAST][..]), NO_TRAIN, 10, Refusal::OtherSegment),
        ((1, 4, 0, &[PAST]), (8, 5, 0, &[PAST]), NO_TRAIN, 10, Refusal::OtherSegment),
        ((1, 5, 0, &[PAST]), (8, 5, 0, &[PAST]), NO_TRAIN, 10, Refusal::ReverseLeg),
        ((1, 5, 1, &[PAST]), (8, 5, 0, &[PAST]), NO_TRAIN, 10, Refusal::ConstraintPlace),
        ((1, 5, 1, &[]), (8, 5, 0, &[PAST]), NO_TRAIN, 10, Refusal::OtherSegment),
        ((1, 5, 1, &[]), (2, 5, 0, &[PAST]), NO_TRAIN, 10, Refusal::ReverseLeg),
        ((1, 5, 1, &[]), (2, 5, 1, &[PAST]), NO_TRAIN, 10, Refusal::ConstraintPlace),
        ((1, 5, 1, &[]), (2, 5, 1, &[]), NO_TRAIN, 10, Refusal::TrainValue),
        ((1, 5, 1, &[]), (2, 5, 1, &[]), long, 10, Refusal::PastEnd),
        ((1, 5, 1, &[]), (2, 5, 1, &[]), long, 9, Refusal::TailBefore),
    ] {
        let legs = journey(&[before, first, second]);
        assert_eq!(restricted(&run, &legs, 2, train, x), Err(refusal));
        for leg in [0, 3, u32::MAX] {
            assert_eq!(restricted(&run, &legs, leg, train, x), Err(Refusal::NoLeg), "leg {leg}");
        }
    }
}

#[test]
fn the_segments_and_then_the_journey_are_refused_at_their_places() {
    let whole = sheet(&journey(&[(0, 0, 1, &[])]));
    let refused = |segments: &[&[u8]], journey: &[u8]| told(restricted_speed(Kind::Sheet, segments, journey, 7, NO_TRAIN, 9));
    assert_eq!(refused(&[&DESK_SHEET, &DESK_SHEET[..24]], &whole[..3]), Err((Refusal::SheetForm, 24)));
    assert_eq!(refused(&[&DESK_SHEET, &DESK_SHEET], &whole[..3]), Err((Refusal::SheetForm, 3)));
    assert_eq!(refused(&[&DESK_SHEET, &DESK_SHEET], &DESK_SHEET), Err((Refusal::PacketNumber, 0)));
    assert_eq!(refused(&[&DESK_SHEET, &whole], &whole), Err((Refusal::PacketNumber, 0)));
    assert_eq!(refused(&[&DESK_SHEET, &DESK_SHEET], &sheet(&crate::journeys::journey(42, 486, 0))), Err((Refusal::LongBody, 0)));
    assert_eq!(refused(&[&DESK_SHEET, &DESK_SHEET], &whole), Err((Refusal::NoLeg, 0)));
    assert_eq!(refused(&[], &whole), Err((Refusal::RunCount, 0)));
    assert_eq!(refused(&[&DESK_SHEET[..2]; 5], &whole), Err((Refusal::RunCount, 0)));
    let error = restricted_speed(Kind::Packet, &[&DESK_PACKET], &DESK_PACKET, 0, SHUTTLE, 0).unwrap_err();
    let words = "the packet number is neither 4 nor 6, is 4 where a segment is needed, or is 6 where a journey is needed";
    assert!(error.to_string().ends_with(words), "{error}");
}

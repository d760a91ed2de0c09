//! Tests of the permitted speed on a run of segments; every speed is worked out by hand.
use crate::segments::{element, packet, segment, sheet, Field, DESK_PACKET, DESK_SHEET};
use crate::told;
use seglink::{permitted_speed, Kind, Refusal, Train};

/// A train of 200 cm.
const SHUTTLE: Train = Train { length: 200, cant: 150, maximum: 600, freight_p: false, freight_g: false, passenger: false };

/// Returns a segment of one element by its length in cm, its km/h and its Q_FRONT.
fn plain(length: u32, kmh: u32, front: u32) -> Vec<Field> {
    segment(length, 0, &element(kmh, front, &[]), &[])
}

/// Returns the speed from the packets of a run, and checks that the sheets give it too; all speeds are multiples of 5.
fn permitted(run: &[Vec<Field>], x: u32) -> u32 {
    let packets: Vec<Vec<u8>> = run.iter().map(|fields| packet(fields)).collect();
    let sheets: Vec<Vec<u8>> = run.iter().map(|fields| sheet(fields)).collect();
    let answer = permitted_speed(Kind::Packet, &lent(&packets), SHUTTLE, x).unwrap();
    assert_eq!(permitted_speed(Kind::Sheet, &lent(&sheets), SHUTTLE, x), Ok(answer));
    answer
}

fn lent(run: &[Vec<u8>]) -> Vec<&[u8]> {
    run.iter().map(|segment| &segment[..]).collect()
}

#[test]
fn the_tail_is_still_on_the_last_segment() {
    let (slow, fast) = (plain(1000, 40, 0), plain(1000, 100, 0));
    for (x, speed) in [(0, 40), (199, 40), (200, 100), (999, 100)] {
        assert_eq!(permitted(&[slow.clone(), fast.clone()], x), speed);
        assert_eq!(permitted(&[fast.clone(), fast.clone(), slow.clone(), fast.clone()], x), speed);
    }
    assert_eq!(permitted(&[fast.clone()], 0), 100);
    assert_eq!(permitted(&[plain(1000, 40, 1), fast.clone()], 0), 100);
    assert_eq!(permitted(&[fast, slow], 0), 40);
}

#[test]
fn a_delay_reaches_over_short_segments() {
    let run = [plain(1000, 40, 0), plain(50, 60, 0), plain(30, 80, 0), plain(1000, 100, 0)];
    for (x, speed) in [(0, 40), (119, 40), (120, 60), (169, 60), (170, 80), (199, 80), (200, 100)] {
        assert_eq!(permitted(&run, x), speed, "{x}");
    }
    assert_eq!(permitted(&run[1..], 0), 60);
    assert_eq!(permitted(&run[2..], 0), 80);
}

#[test]
fn an_element_that_the_train_has_left_plays_no_part() {
    let left = segment(1000, 0, &element(20, 0, &[]), &[(700, element(90, 0, &[]))]);
    let last = segment(1000, 0, &element(100, 0, &[]), &[(300, element(50, 0, &[]))]);
    for (x, speed) in [(0, 90), (199, 90), (200, 100), (299, 100), (300, 50)] {
        assert_eq!(permitted(&[left.clone(), last.clone()], x), speed, "{x}");
    }
}

#[test]
fn the_same_segment_may_stand_twice() {
    let ends_slow = segment(1000, 0, &element(100, 0, &[]), &[(800, element(40, 0, &[]))]);
    assert_eq!(permitted(&[ends_slow.clone()], 0), 100);
    assert_eq!(permitted(&[ends_slow.clone(), ends_slow], 0), 40);
}

#[test]
fn the_train_s_maximum_holds_on_a_run() {
    let run = [sheet(&plain(1000, 43, 0)), sheet(&plain(1000, 104, 0))];
    for (maximum, tail_before, tail_past) in [(1, 1, 1), (42, 42, 42), (83, 43, 83), (600, 43, 104)] {
        let train = Train { maximum, ..SHUTTLE };
        assert_eq!(permitted_speed(Kind::Sheet, &lent(&run), train, 199), Ok(tail_before), "{maximum}");
        assert_eq!(permitted_speed(Kind::Sheet, &lent(&run), train, 200), Ok(tail_past), "{maximum}");
    }
}

#[test]
fn x_lies_in_the_last_segment() {
    for (run, last) in [([1000, 10], 10), ([10, 1000], 1000)] {
        let sheets = run.map(|length| sheet(&plain(length, 100, 0)));
        assert_eq!(permitted_speed(Kind::Sheet, &lent(&sheets), SHUTTLE, last - 1), Ok(100));
        for x in [last, 1009, 1010, u32::MAX] {
            assert_eq!(told(permitted_speed(Kind::Sheet, &lent(&sheets), SHUTTLE, x)), Err((Refusal::PastEnd, 0)));
        }
    }
}

#[test]
fn the_first_segment_that_is_refused_says_why_and_where() {
    let (cut, number, no_train) = (&DESK_SHEET[..24], &[7][..], Train { length: 0, ..SHUTTLE });
    let good = &DESK_SHEET[..];
    for (run, refused) in [
        (&[cut, number][..], (Refusal::SheetForm, 24)),
        (&[number, cut], (Refusal::PacketNumber, 0)),
        (&[good, cut, number], (Refusal::SheetForm, 24)),
        (&[good, good, number, cut], (Refusal::PacketNumber, 0)),
        (&[good, good, good, cut], (Refusal::SheetForm, 24)),
        (&[good, good, good, good], (Refusal::TrainValue, 0)),
        (&[], (Refusal::RunCount, 0)),
        (&[good, cut, number, good, good], (Refusal::RunCount, 0)),
    ] {
        assert_eq!(told(permitted_speed(Kind::Sheet, run, no_train, 1)), Err(refused));
    }
    let error = permitted_speed(Kind::Packet, &[&DESK_PACKET, &DESK_PACKET[..38]], SHUTTLE, 0).unwrap_err();
    assert_eq!(error.to_string(), "3: the packet's bytes are not 15 + L_PACKET_ATO / 8, rounded up");
    let error = permitted_speed(Kind::Sheet, &[good, cut], SHUTTLE, 0).unwrap_err();
    assert!(error.to_string().starts_with("9 at byte 24: "));
}

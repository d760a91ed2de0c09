//! Tests of the permitted speed, from a packet and from a sheet.
use crate::segments::{element, packet, segment, sheet, Field, DESK_PACKET, DESK_SHEET};
use crate::told;
use seglink::{permitted_speed, Kind, Refusal, Train};

const SHUTTLE: Train = Train { length: 200, cant: 150, maximum: 600, freight_p: false, freight_g: false, passenger: false };

/// Returns the speed from the packet, and checks that the sheet gives it too; all speeds are multiples of 5.
fn permitted(fields: &[Field], train: Train, x: u32) -> u32 {
    let answer = permitted_speed(Kind::Packet, &[&packet(fields)], train, x).unwrap();
    assert_eq!(permitted_speed(Kind::Sheet, &[&sheet(fields)], train, x), Ok(answer));
    answer
}

/// Returns a segment that is faster from 500 cm on. The change has the other Q_FRONT, so that a delay tied to the following element is seen.
fn faster_from_500(front: u32) -> Vec<Field> {
    segment(1000, 0, &element(100, front, &[]), &[(500, element(140, 1 - front, &[]))])
}

#[test]
fn the_tail_delays_a_rise() {
    assert_eq!(permitted(&faster_from_500(0), SHUTTLE, 699), 100);
    assert_eq!(permitted(&faster_from_500(0), SHUTTLE, 700), 140);
    assert_eq!(permitted(&faster_from_500(0), Train { length: 1, ..SHUTTLE }, 501), 140);
}

#[test]
fn the_front_alone_counts_where_q_front_is_1() {
    assert_eq!(permitted(&faster_from_500(1), SHUTTLE, 499), 100);
    assert_eq!(permitted(&faster_from_500(1), SHUTTLE, 500), 140);
}

#[test]
fn each_membership_and_the_cant_reach_their_own_entry() {
    let entries = [(1, 0, 50), (1, 1, 60), (1, 2, 70), (0, 1, 110)];
    let fields = segment(1000, 0, &element(100, 0, &entries), &[]);
    assert_eq!(permitted(&fields, Train { cant: 80, ..SHUTTLE }, 0), 100);
    assert_eq!(permitted(&fields, Train { cant: 100, ..SHUTTLE }, 0), 110);
    assert_eq!(permitted(&fields, Train { freight_p: true, ..SHUTTLE }, 0), 50);
    assert_eq!(permitted(&fields, Train { freight_g: true, ..SHUTTLE }, 0), 60);
    assert_eq!(permitted(&fields, Train { passenger: true, ..SHUTTLE }, 0), 70);
    assert_eq!(permitted(&fields, Train { freight_g: true, passenger: true, ..SHUTTLE }, 0), 60);
}

/// Checks the speeds that a V_STATIC of 100 km/h and entries give trains of no category, by cant deficiency.
fn by_cant(entries: &[(u32, u32, u32)], speeds: &[(u32, u32)]) {
    let fields = segment(1000, 0, &element(100, 0, entries), &[]);
    for &(cant, speed) in speeds {
        assert_eq!(permitted(&fields, Train { cant, ..SHUTTLE }, 0), speed, "{cant} mm, {entries:?}");
    }
}

#[test]
fn cant_deficiency_falls_to_the_next_lower_figure() {
    // entries for 100 and 165
    by_cant(&[(0, 1, 110), (0, 4, 130)], &[(80, 100), (100, 110), (130, 110), (150, 110), (165, 130), (300, 130)]);
    by_cant(&[(0, 4, 60), (0, 1, 130)], &[(80, 100), (100, 130), (130, 130), (150, 130), (165, 60), (300, 60)]);
}

#[test]
fn the_own_figure_comes_before_lower_ones() {
    by_cant(&[(0, 2, 60), (0, 3, 120), (0, 0, 40)], &[(150, 120)]);
    by_cant(&[(0, 2, 140), (0, 3, 70), (0, 0, 160)], &[(150, 70)]);
}

#[test]
fn of_lower_figures_the_greatest_counts_and_of_its_entries_the_lowest() {
    by_cant(&[(0, 0, 60), (0, 2, 120), (0, 2, 110), (0, 2, 130)], &[(150, 110), (100, 60)]);
    by_cant(&[(0, 0, 120), (0, 2, 60), (0, 2, 75)], &[(150, 60), (100, 120)]);
}

#[test]
fn v_static_stays_where_all_figures_are_above() {
    by_cant(&[(0, 4, 130), (0, 10, 40)], &[(80, 100), (150, 100), (275, 130)]);
}

#[test]
fn categories_replace_and_lower_a_lower_figure_s_speed() {
    let fields = segment(1000, 0, &element(100, 0, &[(0, 1, 110), (1, 1, 140), (2, 2, 105)]), &[]);
    assert_eq!(permitted(&fields, Train { freight_p: true, ..SHUTTLE }, 0), 110);
    assert_eq!(permitted(&fields, Train { freight_g: true, ..SHUTTLE }, 0), 140);
    assert_eq!(permitted(&fields, Train { passenger: true, ..SHUTTLE }, 0), 105);
    assert_eq!(permitted(&fields, Train { freight_g: true, passenger: true, ..SHUTTLE }, 0), 105);
}

#[test]
fn the_train_s_maximum_is_no_multiple_of_5() {
    for (kmh, maximum, of_packet, of_sheet) in [
        (100, 83, 83, 83),
        (84, 83, 80, 83),
        (82, 83, 80, 82),
        (100, 1, 1, 1),
        (4, 1, 0, 1),
        (604, 600, 600, 600),
        (604, 599, 599, 599),
    ] {
        let (fields, train) = (segment(1000, 0, &element(kmh, 0, &[]), &[]), Train { maximum, ..SHUTTLE });
        assert_eq!(permitted_speed(Kind::Packet, &[&packet(&fields)], train, 0), Ok(of_packet), "{kmh}, {maximum}");
        assert_eq!(permitted_speed(Kind::Sheet, &[&sheet(&fields)], train, 0), Ok(of_sheet), "{kmh}, {maximum}");
    }
}

#[test]
fn a_sheet_answers_with_its_own_speeds() {
    let fields = segment(1000, 0, &element(84, 0, &[]), &[]);
    assert_eq!(permitted_speed(Kind::Sheet, &[&sheet(&fields)], SHUTTLE, 0), Ok(84));
    assert_eq!(permitted_speed(Kind::Packet, &[&packet(&fields)], SHUTTLE, 0), Ok(80));
}

#[test]
fn the_same_bytes_are_asked_as_a_packet_or_as_a_sheet() {
    // bytes that are a packet of 81,924 cm and 105 km/h, and also a sheet of 100 cm and 84 km/h with five entries for freight P
    let start = [0x06, 0x00, 0xB9, 0x01, 0x00, 0x00, 0x07, 0x00, 0x00, 0x00, 0x00, 0x64, 0x00, 0x00, 0x00, 0x54, 0x00, 0x05];
    let both = [&start[..], &[0x01, 0x00, 0x50].repeat(4), &[0x01, 0x01, 0x50], &[0; 6]].concat();
    for (x, of_sheet) in [(0, Ok(84)), (99, Ok(84)), (100, Err((Refusal::PastEnd, 0)))] {
        assert_eq!(told(permitted_speed(Kind::Packet, &[&both], SHUTTLE, x)), Ok(105));
        assert_eq!(told(permitted_speed(Kind::Sheet, &[&both], SHUTTLE, x)), of_sheet);
    }
}

#[test]
fn a_segment_of_the_other_kind_is_refused() {
    assert_eq!(told(permitted_speed(Kind::Packet, &[&DESK_SHEET], SHUTTLE, 0)), Err((Refusal::PacketLength, 0)));
    assert_eq!(told(permitted_speed(Kind::Sheet, &[&DESK_PACKET], SHUTTLE, 0)), Err((Refusal::SheetForm, 2)));
}

#[test]
fn trains_at_the_ends_of_their_range_are_allowed() {
    for length in [1, 150_000] {
        assert_eq!(permitted(&faster_from_500(0), Train { length, ..SHUTTLE }, 0), 100);
    }
    for cant in [80, 100, 130, 150, 165, 180, 210, 225, 245, 275, 300] {
        assert_eq!(permitted(&faster_from_500(0), Train { cant, ..SHUTTLE }, 999), 140);
    }
    for (maximum, speed) in [(1, 1), (600, 140)] {
        assert_eq!(permitted(&faster_from_500(0), Train { maximum, ..SHUTTLE }, 999), speed);
    }
}

#[test]
fn empty_slices_are_refused_before_train_and_x() {
    let train = Train { length: 0, ..SHUTTLE };
    assert_eq!(told(permitted_speed(Kind::Packet, &[&[]], train, u32::MAX)), Err((Refusal::ShortPacket, 0)));
    assert_eq!(told(permitted_speed(Kind::Sheet, &[&[]], train, u32::MAX)), Err((Refusal::SheetForm, 0)));
}

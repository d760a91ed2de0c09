//! Tests of both conversions and the altitude.
use crate::segments::{element, largest, packet, segment, sheet, DESK_PACKET, DESK_SHEET};
use crate::told;
use seglink::{
    altitude_of_packet, packet_of, packet_to_sheet, sheet_of, sheet_to_packet, Refusal, LARGEST_PACKET, LARGEST_SHEET,
};

#[test]
fn the_desk_packet_becomes_the_desk_sheet() {
    let mut room = [0xA5; 30];
    assert_eq!(packet_to_sheet(&DESK_PACKET, &mut room), Ok(25));
    assert_eq!(room[..25], DESK_SHEET);
    assert_eq!(room[25..], [0xA5; 5]);
}

#[test]
fn the_desk_sheet_becomes_the_desk_packet() {
    let mut room = [0xA5; 44];
    assert_eq!(sheet_to_packet(&DESK_SHEET, &mut room), Ok(39));
    assert_eq!(room[..39], DESK_PACKET);
    assert_eq!(room[39..], [0xA5; 5]);
}

#[test]
fn a_room_of_the_exact_size_is_enough() {
    assert_eq!(packet_to_sheet(&DESK_PACKET, &mut [0; 25]), Ok(25));
    assert_eq!(sheet_to_packet(&DESK_SHEET, &mut [0; 39]), Ok(39));
}

#[test]
fn a_room_one_byte_too_small_stays_as_it_was() {
    let mut room = [0xA5; 24];
    assert_eq!(told(packet_to_sheet(&DESK_PACKET, &mut room)), Err((Refusal::ShortRoom, 0)));
    assert_eq!(room, [0xA5; 24]);
    let mut room = [0xA5; 38];
    assert_eq!(told(sheet_to_packet(&DESK_SHEET, &mut room)), Err((Refusal::ShortRoom, 0)));
    assert_eq!(room, [0xA5; 38]);
}

#[test]
fn a_speed_is_lowered_to_a_multiple_of_5() {
    let mut given = DESK_SHEET;
    given[16] = 84;
    assert_eq!(packet_of(&given).unwrap(), DESK_PACKET);
    given[16] = 85;
    assert_ne!(packet_of(&given).unwrap(), DESK_PACKET);
}

#[test]
fn the_largest_segment_fills_the_largest_rooms() {
    let (packet, sheet) = (packet(&largest()), sheet(&largest()));
    assert_eq!((packet.len(), sheet.len()), (LARGEST_PACKET, LARGEST_SHEET));
    assert_eq!(sheet_of(&packet).unwrap(), sheet);
    assert_eq!(packet_of(&sheet).unwrap(), packet);
}

#[test]
fn the_altitude_is_exact_at_zero_and_both_ends() {
    for (sent, centimetres) in [(0, -100_000), (99_999, -1), (100_000, 0), (1_048_575, 948_575)] {
        let fields = segment(1, sent, &element(80, 0, &[]), &[]);
        assert_eq!(altitude_of_packet(&packet(&fields)), Ok(centimetres));
    }
}

#[test]
fn empty_slices_are_refused_by_their_own_rule() {
    assert_eq!(told(packet_to_sheet(&[], &mut [])), Err((Refusal::ShortPacket, 0)));
    assert_eq!(told(sheet_to_packet(&[], &mut [])), Err((Refusal::SheetForm, 0)));
    assert_eq!(told(packet_to_sheet(&DESK_PACKET, &mut [])), Err((Refusal::ShortRoom, 0)));
    assert_eq!(told(sheet_to_packet(&DESK_SHEET, &mut [])), Err((Refusal::ShortRoom, 0)));
    assert_eq!(told(sheet_of(&[])), Err((Refusal::ShortPacket, 0)));
    assert_eq!(told(packet_of(&[])), Err((Refusal::SheetForm, 0)));
    assert_eq!(told(altitude_of_packet(&[])), Err((Refusal::ShortPacket, 0)));
}

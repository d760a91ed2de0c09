//! Tests of every refusal with its place, from every operation that can give it. The places are counted by hand.
use crate::segments::{element, packet, segment, sheet, DESK_PACKET, DESK_SHEET};
use crate::told;
use seglink::{altitude_of_packet, packet_to_sheet, permitted_speed, sheet_to_packet, Kind, Refusal, Train};
use std::error::Error;

const TRAIN: Train = Train { length: 200, cant: 150, maximum: 600, freight_p: false, freight_g: false, passenger: true };

/// Checks that all three operations on a packet refuse it alike, and that the room stays as it was.
pub fn refuses_packet(given: &[u8], refusal: Refusal, place: u32) {
    let mut room = [0xA5; 64];
    assert_eq!(told(packet_to_sheet(given, &mut room)), Err((refusal, place)));
    assert_eq!(room, [0xA5; 64]);
    assert_eq!(told(permitted_speed(Kind::Packet, &[given], TRAIN, 0)), Err((refusal, place)));
    assert_eq!(told(altitude_of_packet(given)), Err((refusal, place)));
}

/// Checks that both operations on a sheet refuse it alike, and that the room stays as it was.
pub fn refuses_sheet(given: &[u8], refusal: Refusal, place: u32) {
    let mut room = [0xA5; 64];
    assert_eq!(told(sheet_to_packet(given, &mut room)), Err((refusal, place)));
    assert_eq!(room, [0xA5; 64]);
    assert_eq!(told(permitted_speed(Kind::Sheet, &[given], TRAIN, 0)), Err((refusal, place)));
}

/// Returns the desk packet with one byte changed.
fn desk_packet_with(place: usize, byte: u8) -> Vec<u8> {
    let mut changed = DESK_PACKET.to_vec();
    changed[place] = byte;
    changed
}

#[test]
fn short_packet() {
    refuses_packet(&[], Refusal::ShortPacket, 0);
    refuses_packet(&DESK_PACKET[..14], Refusal::ShortPacket, 0);
}

#[test]
fn packet_number() {
    for number in [0, 5, 7] {
        refuses_packet(&desk_packet_with(0, number), Refusal::PacketNumber, 0);
        refuses_sheet(&[number], Refusal::PacketNumber, 0);
    }
}

#[test]
fn packet_length() {
    refuses_packet(&DESK_PACKET[..38], Refusal::PacketLength, 0);
}

#[test]
fn field_value() {
    refuses_packet(&desk_packet_with(4, 0x0A), Refusal::FieldValue, 24);
    let too_fast = segment(1, 0, &element(605, 0, &[]), &[]);
    refuses_packet(&packet(&too_fast), Refusal::FieldValue, 253);
    refuses_sheet(&sheet(&too_fast), Refusal::FieldValue, 16);
}

#[test]
fn change_location() {
    for (locations, bit, byte) in [([0, 500], 271, 21), ([500, 500], 308, 27), ([500, 499], 308, 27), ([500, 1000], 308, 27)] {
        let changes = locations.map(|location| (location, element(140, 0, &[])));
        let fields = segment(1000, 0, &element(100, 0, &[]), &changes);
        refuses_packet(&packet(&fields), Refusal::ChangeLocation, bit);
        refuses_sheet(&sheet(&fields), Refusal::ChangeLocation, byte);
    }
}

#[test]
fn body_bits() {
    refuses_packet(&desk_packet_with(2, 0xB8)[..38], Refusal::BodyBits, 300);
    refuses_packet(&[&DESK_PACKET[..2], &[0], &DESK_PACKET[3..15]].concat(), Refusal::BodyBits, 120);
}

#[test]
fn bits_left() {
    refuses_packet(&desk_packet_with(2, 0xBA), Refusal::BitsLeft, 305);
    refuses_packet(&[&desk_packet_with(2, 0xC1)[..], &[0xFF]].concat(), Refusal::BitsLeft, 305);
}

#[test]
fn padding_bit() {
    for (last, place) in [(0x01, 311), (0x24, 306), (0x40, 305)] {
        refuses_packet(&desk_packet_with(38, last), Refusal::PaddingBit, place);
    }
}

#[test]
fn short_room() {
    assert_eq!(told(packet_to_sheet(&DESK_PACKET, &mut [0; 24])), Err((Refusal::ShortRoom, 0)));
    assert_eq!(told(sheet_to_packet(&DESK_SHEET, &mut [0; 38])), Err((Refusal::ShortRoom, 0)));
}

#[test]
fn sheet_form() {
    refuses_sheet(&[], Refusal::SheetForm, 0);
    refuses_sheet(&DESK_SHEET[..3], Refusal::SheetForm, 1);
    refuses_sheet(&DESK_SHEET[..24], Refusal::SheetForm, 24);
    refuses_sheet(&[&DESK_SHEET[..], &[0]].concat(), Refusal::SheetForm, 25);
    refuses_sheet(&[0x80, 0x00], Refusal::SheetForm, 0);
    refuses_sheet(&[0x06, 0x80, 0x80, 0x80, 0x80, 0x10], Refusal::SheetForm, 1);
    refuses_sheet(&[&DESK_SHEET[..12], &[0x81, 0x00], &DESK_SHEET[13..]].concat(), Refusal::SheetForm, 12);
}

#[test]
fn train_value() {
    let refused = [
        Train { length: 0, ..TRAIN },
        Train { length: 150_001, ..TRAIN },
        Train { cant: 0, ..TRAIN },
        Train { cant: 151, ..TRAIN },
        Train { maximum: 0, ..TRAIN },
        Train { maximum: 601, ..TRAIN },
        Train { maximum: u32::MAX, ..TRAIN },
    ];
    for train in refused {
        assert_eq!(told(permitted_speed(Kind::Packet, &[&DESK_PACKET], train, 1)), Err((Refusal::TrainValue, 0)));
        assert_eq!(told(permitted_speed(Kind::Sheet, &[&DESK_SHEET], train, 1)), Err((Refusal::TrainValue, 0)));
    }
}

#[test]
fn past_end() {
    for x in [1, u32::MAX] {
        assert_eq!(told(permitted_speed(Kind::Packet, &[&DESK_PACKET], TRAIN, x)), Err((Refusal::PastEnd, 0)));
        assert_eq!(told(permitted_speed(Kind::Sheet, &[&DESK_SHEET], TRAIN, x)), Err((Refusal::PastEnd, 0)));
    }
}

#[test]
fn a_refusal_is_an_error_that_says_its_number_its_place_and_its_ground() {
    let error: Box<dyn Error> = altitude_of_packet(&DESK_PACKET[..38]).unwrap_err().into();
    assert_eq!(error.to_string(), "3: the packet's bytes are not 15 + L_PACKET_ATO / 8, rounded up");
    let error = altitude_of_packet(&desk_packet_with(2, 0xB8)[..38]).unwrap_err();
    assert_eq!(error.to_string(), "6 at bit 300: a field does not fit in the body's remaining bits");
    let error = permitted_speed(Kind::Packet, &[&desk_packet_with(2, 0xBA)], TRAIN, 0).unwrap_err();
    assert_eq!(error.to_string(), "13 at bit 305: bits of the body are left after the last field");
    let error = sheet_to_packet(&DESK_SHEET[..24], &mut []).unwrap_err();
    assert!(error.to_string().starts_with("9 at byte 24: a sheet ends too soon, "));
    let error = permitted_speed(Kind::Sheet, &[&[]], TRAIN, 0).unwrap_err();
    assert!(error.to_string().starts_with("9 at byte 0: "));
}

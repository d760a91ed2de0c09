//! Tests of changes of voltage and of current: up to 31 of each.
use crate::refusals::{refuses_packet, refuses_sheet};
use crate::segments::{packet, sheet, wired, DESK_PACKET, DESK_SHEET};
use seglink::{altitude_of_packet, packet_of, permitted_speed, sheet_of, Kind, Refusal, Train};

const TRAIN: Train = Train { length: 200, cant: 150, maximum: 600, freight_p: false, freight_g: false, passenger: true };

#[test]
fn up_to_31_of_each_go_both_ways() {
    for (voltages, currents) in (23..=31).flat_map(|count| [(count, 0), (0, count), (count, 31), (31, count)]) {
        let (packet, sheet) = (packet(&wired(voltages, currents)), sheet(&wired(voltages, currents)));
        assert_eq!(sheet_of(&packet).unwrap(), sheet);
        assert_eq!(packet_of(&sheet).unwrap(), packet);
        assert_eq!(permitted_speed(Kind::Packet, &[&packet], TRAIN, 999), Ok(80));
        assert_eq!(permitted_speed(Kind::Sheet, &[&sheet], TRAIN, 999), Ok(80));
        assert_eq!(altitude_of_packet(&packet), Ok(-100_000));
    }
}

#[test]
fn a_sheet_of_32_is_refused_at_their_count() {
    // the length has two bytes in the sheet, a change of voltage four
    for (voltages, currents, place) in [(32, 0, 23), (0, 32, 25), (31, 32, 149)] {
        refuses_sheet(&sheet(&wired(voltages, currents)), Refusal::FieldValue, place);
    }
}

#[test]
fn changes_that_are_not_there_are_missing_bits_of_a_packet() {
    // the counts begin at the bits 285 and 300: 31, and 24
    for voltages in [[0x07, 0xFF], [0x06, 0x3F]] {
        refuses_packet(&[&DESK_PACKET[..35], &voltages, &DESK_PACKET[37..]].concat(), Refusal::BodyBits, 290);
    }
    for currents in [[0xFF, 0x80], [0xFC, 0x00]] {
        refuses_packet(&[&DESK_PACKET[..37], &currents[..]].concat(), Refusal::BodyBits, 305);
    }
}

#[test]
fn changes_that_are_not_there_are_missing_numbers_of_a_sheet() {
    for count in [24, 31] {
        // the number after the count of voltages is 0, which is not allowed as a location
        refuses_sheet(&[&DESK_SHEET[..22], &[count], &DESK_SHEET[23..]].concat(), Refusal::ChangeLocation, 23);
        refuses_sheet(&[&DESK_SHEET[..24], &[count]].concat(), Refusal::SheetForm, 25);
    }
}

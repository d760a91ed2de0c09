//! Tests of changes of voltage and of current: up to 31 of each; at first 23 were allowed.

use crate::desk::*;
use crate::Refusal::{Bits, Field, Location, Sheet};
use crate::*;

/// Returns the document's numbers with a length of 1,000 cm and changes of voltage and of current, each with other figures.
fn wired(voltages: u32, currents: u32) -> Vec<u32> {
    let mut numbers = SHEET.to_vec();
    numbers[LENGTH] = 1_000;
    let changes = (1..=currents).flat_map(|nth| [nth + 100, nth * 300 + 1]);
    numbers.splice(CURRENT_CHANGES.., [currents].into_iter().chain(changes));
    let changes = (1..=voltages).flat_map(|nth| [nth, 750, nth + 20]);
    numbers.splice(VOLTAGE_CHANGES..=VOLTAGE_CHANGES, [voltages].into_iter().chain(changes));
    numbers
}

#[test]
fn a_segment_has_up_to_31_changes_of_voltage_and_31_of_current() {
    let counts = [0, 1, 22, 23, 24, 25, 26, 27, 28, 29, 30, 31];
    for (voltages, currents) in counts.into_iter().flat_map(|count| [(count, 0), (0, count), (count, 31), (31, count)]) {
        let whole = sheet(&wired(voltages, currents));
        let packet = packet_of(&whole).unwrap();
        assert_eq!(packet.len() as u32, 15 + (185 + voltages * 38 + currents * 34 + 7) / 8);
        assert_eq!(sheet_of(&packet), Ok(whole));
        assert_eq!(permitted_speed_one(KIND_PACKET, &packet, &TRAIN, 999), Ok(80));
    }
}

#[test]
fn more_than_31_are_refused_in_a_sheet_at_their_count() {
    for count in [32, 33, 63, 64] {
        // the length has two bytes
        assert_eq!(packet_of(&sheet(&wired(count, 0))), Err(Field.at(23)));
        assert_eq!(packet_of(&sheet(&wired(0, count))), Err(Field.at(25)));
        // a change of voltage has four bytes
        assert_eq!(packet_of(&sheet(&wired(31, count))), Err(Field.at(25 + 31 * 4)));
    }
}

#[test]
fn a_count_without_its_changes_is_not_at_fault_itself() {
    for count in [23, 24, 31] {
        // 15 bits follow the count of voltages in the packet, no bits follow the count of currents
        assert_eq!(sheet_of(&packet_with(&sample(), VOLTAGE_COUNT_BITS, count)), Err(Bits.at(290)));
        assert_eq!(sheet_of(&packet_with(&sample(), CURRENT_COUNT_BITS, count)), Err(Bits.at(305)));
        // in the sheet a 0 follows the count of voltages, which is not allowed as a location
        assert_eq!(packet_of(&sheet_with(VOLTAGE_CHANGES, count)), Err(Location.at(23)));
        assert_eq!(packet_of(&sheet_with(CURRENT_CHANGES, count)), Err(Sheet.at(25)));
    }
}

/// Returns a list: `numbers` at the start, and 31 changes from 2,097,152 cm on that repeat them.
fn full(numbers: &[u32]) -> Vec<u32> {
    let changes = (2_097_152..2_097_152 + 31).flat_map(|location| [&[location], numbers].concat());
    numbers.iter().copied().chain([31]).chain(changes).collect()
}

#[test]
fn the_largest_segment_has_16_460_bits() {
    let before = [6, 0x9999_9999, 0xFF_FFFF, 0x7FFF, 86_399, 255, 1_023, u32::MAX, 255, 255, 0xFF_FFFF, 0xFF_FFFF, 112, 0xF_FFFF];
    let element = [&[600, 1, 31][..], &[0, 300, 600].repeat(31)].concat();
    let whole = sheet(&[&before[..], &full(&element), &full(&[25_000, 1_023]), &full(&[10_001])].concat());
    let packet = packet_of(&whole).unwrap();
    assert_eq!((packet.len(), whole.len()), (2_073, 5_728));
    assert_eq!(u16::from_be_bytes([packet[1], packet[2]]), 16_460);
    assert_eq!(sheet_of(&packet), Ok(whole));
}

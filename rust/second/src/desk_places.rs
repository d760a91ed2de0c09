//! Tests of the places of refusals: every place is counted by hand, from the widths of the fields and the groups of the numbers.

use crate::desk::{packet_of, packet_with, sample, sheet, sheet_of, LENGTH, SHEET, SPEED_CHANGES, TRAIN};
use crate::desk_journeys::{long, JOURNEY, PACKET};
use crate::Refusal::{Bits, Body, Field, Left, Location, Number, Padding, Room, Sheet, Short, Size};
use crate::*;

/// First bit and width of L_PACKET_ATO.
const COUNTED: (usize, u32) = (8, 16);

/// Checks that a packet is refused at a bit; the questions refuse a segment's packet too, before they judge the train.
fn packet_refused(packet: &[u8], refused: Refused) {
    let train = Train { length: 0, ..TRAIN };
    assert_eq!(sheet_of(packet), Err(refused), "{packet:02X?}");
    if packet.first() != Some(&4) {
        assert_eq!(permitted_speed_one(KIND_PACKET, packet, &train, 9), Err(refused));
        assert_eq!(altitude_of_packet(packet), Err(refused));
    }
}

/// Checks that a sheet is refused at a byte; the speed question refuses a segment's sheet too.
fn sheet_refused(sheet: &[u8], refused: Refused) {
    let train = Train { length: 0, ..TRAIN };
    assert_eq!(packet_of(sheet), Err(refused), "{sheet:02X?}");
    if sheet.first() != Some(&4) {
        assert_eq!(permitted_speed_one(KIND_SHEET, sheet, &train, 9), Err(refused));
    }
}

/// Returns a packet with L_PACKET_ATO `bits`, as long as `bits` asks for; bytes past the end of the given packet are 0.
fn counted(packet: &[u8], bits: u32) -> Vec<u8> {
    let mut counted = packet_with(packet, COUNTED, bits);
    counted.resize(15 + (bits as usize + 7) / 8, 0);
    counted
}

fn with_last(packet: &[u8], byte: u8) -> Vec<u8> {
    [&packet[..packet.len() - 1], &[byte]].concat()
}

/// Checks that packets are refused, each at its bit.
fn packets_refused(refusal: Refusal, packets: impl IntoIterator<Item = (Vec<u8>, usize)>) {
    packets.into_iter().for_each(|(packet, place)| packet_refused(&packet, refusal.at(place)));
}

/// Checks that a packet with one field replaced is refused at that field.
fn fields_refused(packet: &[u8], refusal: Refusal, fields: &[((usize, u32), u32)]) {
    packets_refused(refusal, fields.iter().map(|(field, value)| (packet_with(packet, *field, *value), field.0)));
}

/// Checks that a sheet with one number replaced is refused at a byte.
fn numbers_refused(whole: &[u32], refusal: Refusal, numbers: &[(usize, u32, usize)]) {
    for (index, number, place) in numbers {
        let mut replaced = whole.to_vec();
        replaced[*index] = *number;
        sheet_refused(&sheet(&replaced), refusal.at(*place));
    }
}

/// Returns the document's numbers with a length of 1,000 cm and two changes of speed: in the packet their locations begin at the bits 271
/// and 308.
fn changed() -> Vec<u32> {
    let mut numbers = SHEET.to_vec();
    numbers[LENGTH] = 1_000;
    numbers.splice(SPEED_CHANGES..=SPEED_CHANGES, [2, 500, 80, 0, 0, 600, 80, 0, 0]);
    numbers
}

#[test]
fn a_packet_is_refused_as_a_whole_at_0() {
    for packet in [sample(), PACKET.to_vec()] {
        packet_refused(&[], Short.at(0));
        packet_refused(&packet[..14], Short.at(0));
        packet_refused(&packet_with(&packet, (0, 8), 5), Number.at(0));
        packet_refused(&packet[..packet.len() - 1], Size.at(0));
        packet_refused(&[&packet[..], &[0]].concat(), Size.at(0));
        assert_eq!(packet_to_sheet(&packet, &mut []), Err(Room.at(0)));
    }
}

#[test]
fn a_field_of_a_segment_is_refused_at_its_first_bit() {
    let fields = [
        ((24, 32), 0xA000_0000), // NID_OPERATIONAL, the first field of all
        ((24, 32), 0x0000_000A),
        ((95, 17), 86_400), // seconds
        ((178, 24), 0),     // L_SP
        ((226, 7), 113),    // Q_UTC_Offset
        ((253, 7), 121),    // V_STATIC
        ((271, 4), 6),      // M_VOLTAGE
        ((275, 10), 1),     // NID_CTRACTION at voltage 0
        ((290, 10), 1_001), // M_CURRENT
    ];
    fields_refused(&sample(), Field, &fields);
}

#[test]
fn an_entry_is_refused_at_the_field_at_fault() {
    let mut numbers = SHEET.to_vec();
    numbers.splice(SPEED_CHANGES - 1..SPEED_CHANGES, [2, 0, 100, 120, 1, 1, 90]);
    let packet = packet_of(&sheet(&numbers)).unwrap();
    // the count of entries ends at 266; an entry has 2 + 4 + 7 bits
    let fields = [((266, 2), 3), ((268, 4), 11), ((272, 7), 121), ((279, 2), 3), ((281, 4), 3), ((285, 7), 127)];
    fields_refused(&packet, Field, &fields);
}

#[test]
fn a_location_is_refused_at_its_first_bit() {
    let packet = packet_of(&sheet(&changed())).unwrap();
    let locations = [(271, 0), (271, 1_000), (271, 16_777_215), (308, 0), (308, 500), (308, 499), (308, 1_000)];
    fields_refused(&packet, Location, &locations.map(|(place, location)| ((place, 24), location)));
    // both locations are wrong: the first is refused
    let both = packet_with(&packet_with(&packet, (271, 24), 0), (308, 24), 0);
    packet_refused(&both, Location.at(271));
}

#[test]
fn a_field_that_does_not_fit_is_refused_at_its_first_bit() {
    // NID_C has 10 bits, NID_SP 32; V_STATIC begins 133 bits into the body, Q_FRONT 140, the last count 180
    let bodies = [(0, 120), (9, 120), (10, 130), (41, 130), (139, 253), (140, 260), (180, 300), (184, 300)];
    packets_refused(Bits, bodies.map(|(bits, place)| (counted(&sample(), bits), place)));
    // a field that does not fit is refused before its value is judged: V_STATIC lacks a bit
    packet_refused(&counted(&packet_with(&sample(), (253, 7), 127), 139), Bits.at(253));
}

#[test]
fn bits_left_are_refused_at_the_first() {
    for bits in [186, 192, 193, 65_535] {
        packet_refused(&counted(&sample(), bits), Left.at(305));
    }
    // bits that are left are refused before the padding, whatever they are
    packet_refused(&with_last(&counted(&sample(), 186), 0x01), Left.at(305));
    packet_refused(&with_last(&counted(&sample(), 186), 0x7F), Left.at(305));
}

#[test]
fn padding_is_refused_at_the_first_bit_that_is_1() {
    let segment = [(0x40, 305), (0x01, 311), (0x24, 306), (0x03, 310), (0x7F, 305)];
    packets_refused(Padding, segment.map(|(byte, place)| (with_last(&sample(), byte), place)));
    let journey = [(0x40, 329), (0x01, 335), (0x24, 330), (0x7F, 329)];
    packets_refused(Padding, journey.map(|(byte, place)| (with_last(&PACKET, byte), place)));
}

#[test]
fn a_number_of_a_segment_is_refused_at_its_first_byte() {
    // NID_OPERATIONAL has three bytes, every other number one
    let numbers = [
        (1, 0xA2345, 1),
        (2, 1 << 24, 4),
        (4, 86_400, 6),
        (5, 256, 7),
        (6, 1_024, 8),
        (10, 0, 12),
        (12, 113, 14),
        (13, 1 << 20, 15),
        (14, 605, 16),
        (15, 2, 17),
        (16, 32, 18),
        (18, 600, 20),
        (19, 1, 21),
        (20, 32, 22),
        (21, 10_011, 23),
        (22, 32, 24),
    ];
    numbers_refused(&SHEET, Field, &numbers);
    for number in [0, 2, 5, 7, 260] {
        sheet_refused(&sheet(&[number]), Number.at(0));
    }
}

#[test]
fn a_location_in_a_sheet_is_refused_at_its_first_byte() {
    // the length has two bytes, so the first location begins at 21; this location has two bytes too, and the second begins at 26
    numbers_refused(&changed(), Location, &[(18, 0, 21), (18, 1_000, 21), (22, 500, 26), (22, u32::MAX, 26)]);
}

#[test]
fn a_form_is_refused_at_the_number_s_first_byte() {
    let whole = sheet(&SHEET);
    let replaced = |place: usize, groups: &[u8]| [&whole[..place], groups, &whole[place + 1..]].concat();
    // a sheet that ends before a number, and within one
    for (length, place) in [(0, 0), (1, 1), (2, 1), (3, 1), (4, 4), (12, 12), (24, 24)] {
        sheet_refused(&whole[..length], Sheet.at(place));
    }
    sheet_refused(&[0x80, 0x00], Sheet.at(0));
    sheet_refused(&[0x86], Sheet.at(0));
    // the second byte or a later one is wrong, and 9 comes before 4
    for groups in [&[0x81, 0x00][..], &[0x80, 0x80, 0x00], &[0xFF, 0xFF, 0xFF, 0xFF, 0x10], &[0x80, 0x80, 0x80, 0x80, 0x80, 0x01]]
    {
        sheet_refused(&replaced(7, groups), Sheet.at(7));
        sheet_refused(&replaced(12, groups), Sheet.at(12));
        sheet_refused(&replaced(24, groups), Sheet.at(24));
    }
    for left in [&[0][..], &[0x80], &[0x80, 0x00], &[6, 6, 6]] {
        sheet_refused(&[&whole[..], left].concat(), Sheet.at(25));
    }
    assert_eq!(sheet_to_packet(&whole, &mut [0; 38]), Err(Room.at(0)));
}

#[test]
fn a_field_of_a_journey_is_refused_at_its_first_bit() {
    let fields = [
        ((24, 32), 0x000A_0000), // NID_OPERATIONAL
        ((120, 3), 5),           // Q_JP_Status
        ((242, 17), 86_401),     // latest arrival seconds
        ((269, 2), 3),           // alignment
        ((271, 2), 3),           // stop kind
        ((273, 2), 2),           // information
        ((296, 17), 86_400),     // departure seconds
    ];
    fields_refused(&PACKET, Field, &fields);
    // at a passing point the door side is the first field that is not 0
    packet_refused(&packet_with(&PACKET, (271, 2), 2), Field.at(276));
    // without timing points the constraints follow at 195: 01110 of NID_TP count 14 of them, 11 and 00 are the type and the range of the first,
    // 24 bits its start, and its end at 228 is not 0
    packet_refused(&packet_with(&PACKET, (190, 5), 0), Field.at(228));
}

#[test]
fn the_body_of_a_journey_ends_too_soon_or_too_late() {
    let bodies = [(0, 120), (2, 120), (3, 123), (10, 123), (11, 131), (100, 195), (203, 323), (204, 324), (208, 324)];
    packets_refused(Bits, bodies.map(|(bits, place)| (counted(&PACKET, bits), place)));
    // a count of two segments, of which the second is not there
    packet_refused(&packet_with(&PACKET, (123, 8), 2), Bits.at(329));
    packet_refused(&packet_with(&PACKET, (123, 8), 0), Left.at(131));
    for bits in [210, 216, 217] {
        packet_refused(&counted(&PACKET, bits), Left.at(329));
    }
    packet_refused(&with_last(&counted(&PACKET, 210), 0x21), Left.at(329));
}

#[test]
fn a_number_of_a_journey_is_refused_at_its_first_byte() {
    let numbers = [
        (1, 0xA2345, 1),
        (6, 5, 8),
        (7, 256, 9),
        (8, 1_024, 10),
        (11, 256, 18),
        (12, 2, 20),
        (13, 32, 21),
        (16, 86_401, 29),
        (18, 3, 34),
        (19, 2, 38), // a passing point, with a door side
        (19, 3, 35),
        (27, 86_400, 45),
        (28, 1_024, 48),
        (29, 2, 50),
        (30, 32, 51),
    ];
    numbers_refused(&JOURNEY, Field, &numbers);
}

#[test]
fn the_form_of_a_journey_is_refused_at_the_number_s_first_byte() {
    let whole = sheet(&JOURNEY);
    assert_eq!(whole.len(), 52);
    // NID_TP has the bytes 22 to 26
    for (length, place) in [(8, 8), (11, 10), (22, 22), (24, 22), (26, 22), (27, 27), (51, 51)] {
        sheet_refused(&whole[..length], Sheet.at(place));
    }
    for last in [0x00, 0x10, 0x87] {
        sheet_refused(&[&whole[..26], &[last], &whole[27..]].concat(), Sheet.at(22));
    }
    sheet_refused(&[&whole[..], &[0]].concat(), Sheet.at(52));
    sheet_refused(&long(42, 486, 0), Body.at(0));
    assert_eq!(sheet_to_packet(&whole, &mut [0; 41]), Err(Room.at(0)));
}

//! Tests that the C header and this crate name the same interface, refusals, grounds, kinds and sizes.
use seglink::{
    version, Kind, Refusal, Shelf, Steps, UnknownRefusal, INTERFACE, LARGEST_JOURNEY_PACKET, LARGEST_JOURNEY_SHEET,
    LARGEST_PACKET, LARGEST_SHEET, SMALLEST_PACKET,
};

const HEADER: &str = include_str!("../../../../include/seglink.h");

/// Returns the header's constants: the name without SEGLINK_, the value, and the comment behind it.
fn constants() -> Vec<(&'static str, u32, &'static str)> {
    HEADER
        .lines()
        .filter_map(|line| {
            let (name, rest) = line.trim().strip_prefix("SEGLINK_")?.split_once(" = ")?;
            let (value, comment) = rest.split_once("//").unwrap_or((rest, ""));
            Some((name, value.trim().trim_end_matches(',').parse().ok()?, comment.trim()))
        })
        .collect()
}

#[test]
fn the_interface_has_one_number() {
    assert_eq!(version(), INTERFACE);
    assert!(HEADER.contains(&format!("\n#define SEGLINK_INTERFACE {INTERFACE}\n")));
    assert!(HEADER.contains(&format!(" = seglink_interface_{INTERFACE};\n")));
}

/// Returns the Rust name of a C name: ShortPacket for SHORT_PACKET.
fn in_rust(name: &str) -> String {
    name.split('_').map(|word| word[..1].to_string() + &word[1..].to_lowercase()).collect()
}

#[test]
fn every_refusal_has_its_name_number_and_ground_in_both() {
    let named: Vec<_> = constants().into_iter().filter(|(_, _, comment)| !comment.is_empty()).collect();
    assert_eq!(named.iter().map(|&(_, number, _)| number).collect::<Vec<_>>(), (1..=19).chain(21..=26).collect::<Vec<_>>());
    for (name, number, ground) in named {
        let refusal = Refusal::from_number(number).unwrap();
        assert_eq!(refusal.number(), number);
        assert_eq!(format!("{refusal:?}"), in_rust(name));
        assert_eq!(refusal.ground(), ground);
        assert_eq!(refusal.has_place(), [4, 5, 6, 7, 9, 13, 19].contains(&number));
    }
}

/// Returns the words that seglink_refusal_text of the header has for a refusal.
fn words(name: &str) -> &'static str {
    let case = format!("    case SEGLINK_{name}: return \"");
    let line = HEADER.lines().find_map(|line| line.strip_prefix(&case)).unwrap_or_else(|| panic!("{name} has no words"));
    line.strip_suffix("\";").unwrap()
}

#[test]
fn the_header_s_words_of_every_refusal_are_its_ground() {
    for (name, number, ground) in constants().into_iter().filter(|(_, _, comment)| !comment.is_empty()) {
        assert_eq!(words(name), ground);
        assert_eq!(Refusal::from_number(number).unwrap().to_string(), format!("{number}: {ground}"));
    }
}

#[test]
fn no_other_number_is_a_refusal() {
    for number in [0, 20, 27, u32::MAX] {
        assert_eq!(Refusal::from_number(number), None);
        assert_eq!(Refusal::try_from(number), Err(UnknownRefusal(number)));
    }
}

fn value(name: &str) -> u32 {
    constants().iter().find(|constant| constant.0 == name).unwrap().1
}

#[test]
fn a_packet_s_kind_is_0_and_a_sheet_s_1() {
    assert_eq!((value("KIND_PACKET"), value("KIND_SHEET")), (0, 1));
    assert_eq!((Kind::Packet as u32, Kind::Sheet as u32), (0, 1));
}

#[test]
fn the_sizes_are_the_same_in_both() {
    let size = |name| value(name) as usize;
    assert_eq!(size("SMALLEST_PACKET"), SMALLEST_PACKET);
    assert_eq!(size("LARGEST_PACKET"), LARGEST_PACKET);
    assert_eq!(size("LARGEST_SHEET"), LARGEST_SHEET);
    assert_eq!(size("LARGEST_JOURNEY_PACKET"), LARGEST_JOURNEY_PACKET);
    assert_eq!(size("LARGEST_JOURNEY_SHEET"), LARGEST_JOURNEY_SHEET);
    assert_eq!(size("LARGEST_STORE"), Shelf::LARGEST_STORE);
    assert_eq!(size("MOST_STEPS"), Steps::MOST);
}

//! Tests of the board over its static library: answers, the order of refusals, moves, and the words of the C header.
use fleet::{lowest, move_card, Card, Refused, INTERFACE, MOST_CARDS};
use seglink::{Refusal, Train};

const HEADER: &str = include_str!("../../../include/fleet.h");
/// The segment of the wall screen's sample: 1,000 cm, 100 km/h up to 500 cm and 140 from there on, with other speeds for some trains.
const PACKET: &[u8] = include_bytes!("../../../crates/wall_screen/data/packet");
const TRAIN: Train = Train::new(200, 80, 600);

fn at(location: u32) -> Card {
    Card { train: TRAIN, location }
}

fn question(refusal: Refusal, place: u32) -> Refused {
    Refused::Question { refusal, place }
}

#[test]
fn the_first_card_with_the_lowest_speed_is_named() {
    let freight = |p, g| Card { train: Train { freight_p: p, freight_g: g, ..TRAIN }, location: 0 };
    assert_eq!(lowest(&[at(699)], PACKET), Ok((0, 100)));
    assert_eq!(lowest(&[at(700), at(699), at(0)], PACKET), Ok((1, 100)));
    assert_eq!(lowest(&[at(0), freight(true, false), freight(false, true), freight(false, true)], PACKET), Ok((2, 45)));
    assert_eq!(lowest(&[at(0), Card { train: Train { maximum: 83, ..TRAIN }, location: 999 }], PACKET), Ok((1, 83)));
    assert_eq!(lowest(&[at(0); MOST_CARDS], PACKET), Ok((0, 100)));
}

#[test]
fn the_list_comes_first_then_the_packet_then_the_cards_in_order() {
    let wrong = Card { train: Train { length: 0, ..TRAIN }, location: 1000 };
    let mut padded = PACKET.to_vec();
    *padded.last_mut().unwrap() |= 1;
    assert_eq!(lowest(&[], &[]), Err(Refused::CardList));
    assert_eq!(lowest(&[wrong; MOST_CARDS + 1], &[]), Err(Refused::CardList));
    assert_eq!(lowest(&[wrong], &[]), Err(question(Refusal::ShortPacket, 0)));
    assert_eq!(lowest(&[wrong], &padded), Err(question(Refusal::PaddingBit, 399)));
    assert_eq!(lowest(&[at(0), at(1000), wrong], PACKET), Err(question(Refusal::PastEnd, 0)));
    assert_eq!(lowest(&[at(0), wrong, at(1000)], PACKET), Err(question(Refusal::TrainValue, 0)));
}

#[test]
fn a_move_changes_one_location_or_nothing() {
    let mut cards = [at(1), at(2), at(3)];
    assert_eq!(move_card(&mut cards, 1, u32::MAX), Ok(()));
    assert_eq!(cards, [at(1), at(u32::MAX), at(3)]);
    for card in [3, u32::MAX as usize, 1 << 32] {
        assert_eq!(move_card(&mut cards, card, 5), Err(Refused::CardList));
    }
    assert_eq!(cards, [at(1), at(u32::MAX), at(3)]);
    let mut longer = [at(0); MOST_CARDS + 1];
    assert_eq!(move_card(&mut longer, 0, 5), Err(Refused::CardList));
    assert_eq!(longer, [at(0); MOST_CARDS + 1]);
    assert_eq!(move_card(&mut [], 0, 5), Err(Refused::CardList));
}

#[test]
fn a_refusal_prints_its_number_place_and_ground() {
    let said = |refused: Refused| refused.to_string();
    assert_eq!(said(Refused::CardList), "20: the list has no card or more than 64, or it has no card of the number");
    assert_eq!(said(question(Refusal::PaddingBit, 399)), format!("7 at bit 399: {}", Refusal::PaddingBit.ground()));
    assert_eq!(said(question(Refusal::PastEnd, 0)), format!("11: {}", Refusal::PastEnd.ground()));
}

#[test]
fn the_header_has_the_crate_s_number_refusal_and_limit() {
    assert!(HEADER.contains(&format!("\n#define FLEET_INTERFACE {INTERFACE}\n")));
    assert!(HEADER.contains(&format!(" = fleet_interface_{INTERFACE};\n")));
    assert!(HEADER.contains(&format!("FLEET_MOST_CARDS = {MOST_CARDS}\n")));
    let (number, ground) = HEADER.split_once("FLEET_CARD_LIST = ").unwrap().1.lines().next().unwrap().split_once(" // ").unwrap();
    assert_eq!(Refused::CardList.to_string(), format!("{number}: {ground}"));
}

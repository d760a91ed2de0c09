//! Tests of the fleet board: every answer is worked out by hand.

use crate::desk::{packet_of, sheet, SHEET, TRAIN};
use crate::fleet::{lowest, move_card, screen, Card};
use crate::{Refusal, Train};

/// A list of cards with these maxima and locations, on the document's segment of 1 cm and 80 km/h.
fn list(cards: &[(u32, u32)]) -> Vec<Card> {
    cards.iter().map(|(maximum, location)| Card { train: Train { maximum: *maximum, ..TRAIN }, location: *location }).collect()
}

fn packet() -> Vec<u8> {
    packet_of(&sheet(&SHEET)).unwrap()
}

#[test]
fn the_first_of_the_lowest_is_named() {
    assert_eq!(lowest(&list(&[(600, 0), (63, 0), (63, 0), (70, 0)]), &packet()), Ok((1, 63)));
    assert_eq!(lowest(&list(&[(600, 0); 64]), &packet()), Ok((0, 80)));
}

#[test]
fn the_list_is_judged_first_then_the_packet_then_the_cards() {
    assert_eq!(lowest(&[], &[]), Err(Refusal::Cards.nowhere()));
    assert_eq!(lowest(&list(&[(0, 1); 65]), &[]), Err(Refusal::Cards.nowhere()));
    assert_eq!(lowest(&list(&[(0, 1)]), &[]), Err(Refusal::Short.nowhere()));
    assert_eq!(lowest(&list(&[(600, 1), (0, 0)]), &packet()), Err(Refusal::PastEnd.nowhere()));
    assert_eq!(lowest(&list(&[(600, 0), (0, 1)]), &packet()), Err(Refusal::Train.nowhere()));
}

#[test]
fn a_move_changes_one_location() {
    let mut cards = list(&[(600, 0); 64]);
    assert_eq!(move_card(&mut cards, 63, u32::MAX), Ok(()));
    assert!(cards.iter().enumerate().all(|(number, card)| card.location == if number == 63 { u32::MAX } else { 0 }));
    assert_eq!(move_card(&mut cards, 64, 5), Err(Refusal::Cards.nowhere()));
    assert_eq!(move_card(&mut list(&[(600, 0); 65]), 0, 5), Err(Refusal::Cards.nowhere()));
    assert_eq!(move_card(&mut [], 0, 5), Err(Refusal::Cards.nowhere()));
}

#[test]
fn the_screen_shows_a_line_a_card_or_one_refusal() {
    let card = [1, 80, 0, 0, 1, 63, 0];
    assert_eq!(screen(&[card, card].concat(), &packet()), "CARD 0 AT 0 SPEED 63\nCARD 1 AT 0 SPEED 63\n");
    assert_eq!(screen(&card.repeat(65), &packet()), "REFUSED 20 AT 0\n");
    assert_eq!(screen(&[], &packet()), "REFUSED 20 AT 0\n");
    assert_eq!(screen(&card[..6], &[]), "REFUSED 9 AT 6\n");
    assert_eq!(screen(&[1, 80, 0, 2], &[]), "REFUSED 4 AT 3\n");
    assert_eq!(screen(&[card, [1, 80, 0, 0, 1, 63, 1]].concat(), &packet()), "REFUSED 11 AT 0\n");
}

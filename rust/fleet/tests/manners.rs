//! Tests of what a Rust caller expects beside the answers: cards by a constructor, each refusal as a number, as words and as an error of input and
//! output.
use fleet::{lowest, move_card, Card, Refused, MOST_CARDS};
use seglink::{packet_of, Refusal, Train};
use std::io::{self, ErrorKind};

/// The build definition's sample sheet: a segment of 1 cm, 80 km/h.
const SHEET: [u8; 25] = [6, 0xC5, 0xC6, 4, 1, 0, 0, 7, 0, 0, 0, 0, 1, 0, 0, 0, 80, 0, 0, 0, 0, 0, 0, 0, 0];
const TRAIN: Train = Train::new(200, 150, 600).passenger();
const CARD: Card = Card::new(TRAIN, 0);

#[test]
fn a_card_is_made_of_a_train_and_a_location() {
    assert_eq!(Card::new(TRAIN, 7), Card { train: TRAIN, location: 7 });
}

/// Checks what a refusal says of itself.
fn says(refused: Refused, number: u32, words: &str, kind: ErrorKind) {
    assert_eq!((refused.number(), u32::from(refused)), (number, number));
    assert_eq!(refused.to_string(), words);
    let error = io::Error::from(refused);
    assert_eq!((error.kind(), error.to_string()), (kind, words.to_string()));
}

#[test]
fn a_refusal_says_its_number_its_place_if_it_has_one_and_its_ground() {
    let mut packet = packet_of(&SHEET).unwrap();
    let list = "20: the list has no card or more than 64, or it has no card of the number";
    for refused in [
        lowest(&[], &packet).unwrap_err(),
        lowest(&[CARD; MOST_CARDS + 1], &packet).unwrap_err(),
        move_card(&mut [CARD], 1, 0).unwrap_err(),
        move_card(&mut [CARD], usize::MAX, 0).unwrap_err(),
    ] {
        says(refused, 20, list, ErrorKind::InvalidInput);
    }
    let past = lowest(&[Card::new(TRAIN, 1)], &packet).unwrap_err();
    says(past, 11, "11: x is at or past L_SP of the run's last segment", ErrorKind::InvalidInput);
    assert_eq!(past, Refused::Question { refusal: Refusal::PastEnd, place: 0 });
    packet[38] = 0x24;
    says(lowest(&[CARD], &packet).unwrap_err(), 7, "7 at bit 306: a padding bit is 1", ErrorKind::InvalidData);
}

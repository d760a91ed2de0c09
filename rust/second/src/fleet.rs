//! The fleet board: a list of train cards on the segment of one packet, and the wall screen's text.

use crate::numbers::Numbers;
use crate::packet_reading;
use crate::refusal::{Refusal, Refused};
use crate::speed::{self, Train};

/// Most cards in a list.
const MOST: usize = 64;

/// A train, and its location in cm from the start of the packet's segment.
#[derive(Clone, Debug)]
pub struct Card {
    pub train: Train,
    pub location: u32,
}

/// Returns the number and the speed of the first card with the lowest permitted speed.
pub fn lowest(cards: &[Card], packet: &[u8]) -> Result<(u32, u32), Refused> {
    let speeds = speeds(cards, packet)?;
    let least = *speeds.iter().min().expect("a list has a card");
    let first = speeds.iter().position(|speed| *speed == least).expect("it is one of them");
    Ok((first as u32, least))
}

/// Gives a card another location.
pub fn move_card(cards: &mut [Card], card: u32, location: u32) -> Result<(), Refused> {
    let listed = is_list(cards);
    let moved = cards.get_mut(card as usize).filter(|_| listed).ok_or_else(|| Refusal::Cards.nowhere())?;
    moved.location = location;
    Ok(())
}

/// Returns what the wall screen shows of a cards file and a packet.
pub fn screen(file: &[u8], packet: &[u8]) -> String {
    shown(file, packet).unwrap_or_else(|Refused { refusal, place }| format!("REFUSED {} AT {place}\n", refusal as u32))
}

fn shown(file: &[u8], packet: &[u8]) -> Result<String, Refused> {
    let cards = cards_of(file)?;
    let lines = speeds(&cards, packet)?.into_iter().zip(&cards).enumerate();
    Ok(lines.map(|(number, (speed, card))| format!("CARD {number} AT {} SPEED {speed}\n", card.location)).collect())
}

/// Returns the speed of each card, or the first refusal.
fn speeds(cards: &[Card], packet: &[u8]) -> Result<Vec<u32>, Refused> {
    if !is_list(cards) {
        return Err(Refusal::Cards.nowhere());
    }
    let run = [packet_reading::segment_of(packet)?];
    cards.iter().map(|card| speed::permitted(&run, &card.train, card.location)).collect()
}

fn is_list(cards: &[Card]) -> bool {
    (1..=MOST).contains(&cards.len())
}

/// Reads a cards file, seven numbers a card.
fn cards_of(file: &[u8]) -> Result<Vec<Card>, Refused> {
    let mut numbers = Numbers::new(file);
    let mut cards = Vec::new();
    while !numbers.is_empty() && cards.len() < MOST {
        let (length, cant) = (number(&mut numbers)?, number(&mut numbers)?);
        let (freight_p, freight_g, passenger) = (membership(&mut numbers)?, membership(&mut numbers)?, membership(&mut numbers)?);
        let (maximum, location) = (number(&mut numbers)?, number(&mut numbers)?);
        cards.push(Card { train: Train { length, cant, maximum, freight_p, freight_g, passenger }, location });
    }
    if numbers.is_empty() {
        Ok(cards)
    } else {
        Err(Refusal::Cards.nowhere())
    }
}

fn number(numbers: &mut Numbers) -> Result<u32, Refused> {
    let place = numbers.place();
    numbers.take().ok_or_else(|| Refusal::Sheet.at(place))
}

fn membership(numbers: &mut Numbers) -> Result<bool, Refused> {
    let place = numbers.place();
    match number(numbers)? {
        0 => Ok(false),
        1 => Ok(true),
        _ => Err(Refusal::Field.at(place)),
    }
}

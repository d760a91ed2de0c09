//! The fleet board in safe Rust, over its proved static library: which of up to 64 trains, each at a location on the segment of one packet,
//! has the lowest permitted speed.
//!
//! ```
//! use fleet::{lowest, move_card, Card, Refused};
//! use seglink::Train;
//!
//! // The build definition's sample: a segment of 1 cm, 80 km/h.
//! let sheet = [6, 0xC5, 0xC6, 4, 1, 0, 0, 7, 0, 0, 0, 0, 1, 0, 0, 0, 80, 0, 0, 0, 0, 0, 0, 0, 0];
//! let packet = seglink::packet_of(&sheet).unwrap();
//! let train = Train::new(200, 150, 600).passenger();
//! let slower = Train::new(200, 150, 63).passenger();
//! let mut cards = [Card::new(train, 0), Card::new(slower, 0), Card::new(slower, 0)];
//! assert_eq!(lowest(&cards, &packet), Ok((1, 63)));
//!
//! // A change takes any location; the board judges it.
//! assert_eq!(move_card(&mut cards, 2, 1), Ok(()));
//! assert_eq!(lowest(&cards, &packet).unwrap_err().to_string(), "11: x is at or past L_SP of the run's last segment");
//! assert_eq!(move_card(&mut cards, 3, 0), Err(Refused::CardList));
//! assert_eq!(lowest(&[], &packet), Err(Refused::CardList));
//! ```
//!
//! Without the feature `std`, which is there by default, the crate needs `core` and `alloc` alone.
//! The crate is checked and documented where the static library is missing, or is for another processor; a program that uses it then does not link.
#![no_std]
#![deny(unsafe_code, missing_docs)]

#[cfg(feature = "std")]
extern crate std;

mod boundary;
mod interface;

use core::fmt;
pub use interface::INTERFACE;
use seglink::{Refusal, Train};

/// Most cards in a list.
pub const MOST_CARDS: usize = 64;

/// Refusal 20.
const CARD_LIST: u32 = 20;

/// A train card: a train, and the location of its front in cm from the start of the packet's segment.
#[derive(Clone, Copy, Debug, PartialEq, Eq, Hash)]
#[must_use]
#[repr(C)]
pub struct Card {
    /// The train.
    pub train: Train,
    /// Its location in cm; a board refuses one at or past L_SP.
    pub location: u32,
}

impl Card {
    /// Makes the card of a train whose front is at `location_cm`.
    pub const fn new(train: Train, location_cm: u32) -> Card {
        Card { train, location: location_cm }
    }
}

/// Why the board refused. Prints as [`seglink::Refused`] does.
#[derive(Clone, Copy, Debug, PartialEq, Eq, Hash)]
pub enum Refused {
    /// 20: the list has no card or more than [`MOST_CARDS`], or it has no card of the number.
    CardList,
    /// The packet's own refusal, with its place, a bit of the packet; or 10 or 11 of the first card that has one, at 0.
    Question {
        /// Why.
        refusal: Refusal,
        /// Where; 0 where the refusal has no place.
        place: u32,
    },
}

impl Refused {
    /// Returns the refusal's number.
    #[must_use]
    pub const fn number(self) -> u32 {
        match self {
            Refused::CardList => CARD_LIST,
            Refused::Question { refusal, .. } => refusal.number(),
        }
    }
}

impl From<Refused> for u32 {
    fn from(refused: Refused) -> u32 {
        refused.number()
    }
}

impl fmt::Display for Refused {
    fn fmt(&self, f: &mut fmt::Formatter<'_>) -> fmt::Result {
        match self {
            Refused::CardList => {
                write!(f, "{CARD_LIST}: the list has no card or more than {MOST_CARDS}, or it has no card of the number")
            }
            Refused::Question { refusal, place } if refusal.has_place() => {
                write!(f, "{} at bit {place}: {}", refusal.number(), refusal.ground())
            }
            Refused::Question { refusal, .. } => refusal.fmt(f),
        }
    }
}

#[cfg(feature = "std")]
impl std::error::Error for Refused {}

/// An error of input and output with the refusal inside: `InvalidInput` for the list, a card's train and its location, `InvalidData` for the packet.
#[cfg(feature = "std")]
impl From<Refused> for std::io::Error {
    fn from(refused: Refused) -> std::io::Error {
        use std::io::ErrorKind;
        let kind = match refused {
            Refused::CardList | Refused::Question { refusal: Refusal::TrainValue | Refusal::PastEnd, .. } => {
                ErrorKind::InvalidInput
            }
            Refused::Question { .. } => ErrorKind::InvalidData,
        };
        std::io::Error::new(kind, refused)
    }
}

/// Returns the number and the permitted speed in km/h of the first card with the lowest permitted speed on the packet's segment.
///
/// # Errors
///
/// Refused, in this order: an empty or longer list; the packet, with its place; the cards, one after the other, each for its train and then for
/// its location.
pub fn lowest(cards: &[Card], packet: &[u8]) -> Result<(usize, u32), Refused> {
    let board = boundary::lowest(cards, packet);
    match board.refusal {
        0 => Ok((board.card as usize, board.speed)),
        CARD_LIST => Err(Refused::CardList),
        number => {
            let refusal = Refusal::from_number(number).expect("the static library is of this crate's version");
            Err(Refused::Question { refusal, place: board.place })
        }
    }
}

/// Changes the location of a card, to any location; all else of the list stays as it was.
///
/// # Errors
///
/// Refused with [`Refused::CardList`] for an empty or longer list and a number past it, and then changes nothing.
pub fn move_card(cards: &mut [Card], card: usize, location: u32) -> Result<(), Refused> {
    // a number that does not fit is past every list
    match boundary::move_card(cards, u32::try_from(card).unwrap_or(u32::MAX), location) {
        0 => Ok(()),
        _ => Err(Refused::CardList),
    }
}

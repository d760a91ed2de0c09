//! The archive's operations, by the names and layouts of `fleet.h`.

use second::Card;

/// A card as the archive has it.
#[derive(Clone, Copy, Debug, PartialEq, Eq)]
#[repr(C)]
pub struct Lent {
    pub length: u32,
    cant: u32,
    maximum: u32,
    freight_p: bool,
    freight_g: bool,
    passenger: bool,
    location: u32,
}

/// What the board answers: a refusal, its place, a card's number and its speed.
#[derive(Clone, Copy, Debug, PartialEq, Eq)]
#[repr(C)]
pub struct Board {
    pub refusal: u32,
    pub place: u32,
    pub card: u32,
    pub speed: u32,
}

extern "C" {
    fn fleet_lowest(cards: *const Lent, cards_len: usize, packet: *const u8, packet_len: usize) -> Board;
    fn fleet_move(cards: *mut Lent, cards_len: usize, card: u32, location: u32) -> u32;
}

pub fn lent(card: &Card) -> Lent {
    let second::Train { length, cant, maximum, freight_p, freight_g, passenger } = card.train;
    Lent { length, cant, maximum, freight_p, freight_g, passenger, location: card.location }
}

pub fn lowest(cards: &[Lent], packet: &[u8]) -> Board {
    unsafe { fleet_lowest(cards.as_ptr(), cards.len(), packet.as_ptr(), packet.len()) }
}

pub fn move_card(cards: &mut [Lent], card: u32, location: u32) -> u32 {
    unsafe { fleet_move(cards.as_mut_ptr(), cards.len(), card, location) }
}

//! The functions of the static library as `include/fleet.h` declares them, and a safe function for each: the only unsafe code of the crate.
#![allow(unsafe_code)]

use crate::Card;

#[repr(C)]
pub(crate) struct Board {
    pub(crate) refusal: u32,
    pub(crate) place: u32,
    pub(crate) card: u32,
    pub(crate) speed: u32,
}

extern "C" {
    fn fleet_lowest(cards: *const Card, cards_len: usize, packet: *const u8, packet_len: usize) -> Board;
    fn fleet_move(cards: *mut Card, cards_len: usize, card: u32, location: u32) -> u32;
}

pub(crate) fn lowest(cards: &[Card], packet: &[u8]) -> Board {
    // both slices are lent for the call, and the library reads no byte past them
    unsafe { fleet_lowest(cards.as_ptr(), cards.len(), packet.as_ptr(), packet.len()) }
}

pub(crate) fn move_card(cards: &mut [Card], card: u32, location: u32) -> u32 {
    // the slice is lent for the call, and the library writes no byte past it
    unsafe { fleet_move(cards.as_mut_ptr(), cards.len(), card, location) }
}

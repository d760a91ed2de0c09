//! Tests of the shelf, on the document's sheet of 25 bytes with other keys: it takes 29 bytes of a store.

use crate::desk::{sheet, SHEET};
use crate::desk_journeys::JOURNEY;
use crate::*;

const NID_C: usize = 6;
const NID_SP: usize = 7;
const MAJOR: usize = 8;
const MINOR: usize = 9;

/// Returns the document's sheet with a key whose numbers are below 128.
fn keyed([nid_c, nid_sp, major, minor]: [u32; 4]) -> Vec<u8> {
    let mut numbers = SHEET.to_vec();
    (numbers[NID_C], numbers[NID_SP], numbers[MAJOR], numbers[MINOR]) = (nid_c, nid_sp, major, minor);
    sheet(&numbers)
}

fn key([nid_c, nid_sp, major, minor]: [u32; 4]) -> Key {
    Key { nid_c, nid_sp, major, minor }
}

/// Returns the bytes that keep these sheets.
fn run(sheets: &[Vec<u8>]) -> Vec<u8> {
    sheets.iter().flat_map(|sheet| [&(sheet.len() as u32).to_be_bytes(), &sheet[..]].concat()).collect()
}

#[test]
fn sheets_are_kept_by_rising_keys_and_the_bytes_past_them_stay() {
    let keys = [[2, 0, 0, 0], [1, 9, 9, 9], [2, 0, 0, 1], [2, 0, 1, 0], [2, 1, 0, 0]];
    let mut store = [0xAA; 150];
    let mut used = 0;
    for nth in keys {
        used = add(&mut store, used, &keyed(nth)).unwrap();
    }
    let order = [[1, 9, 9, 9], [2, 0, 0, 0], [2, 0, 0, 1], [2, 0, 1, 0], [2, 1, 0, 0]];
    assert_eq!(used, 145);
    assert_eq!(store[..145], run(&order.map(keyed)));
    assert_eq!(store[145..], [0xAA; 5]);
    for nth in keys {
        let start = 4 + 29 * order.iter().position(|kept| *kept == nth).unwrap();
        assert_eq!(lookup((&store, used), (&[], 0), key(nth)), Ok(Part::OfYard(start, 25)), "{nth:?}");
    }
}

#[test]
fn room_is_short_by_a_byte_or_fits_exactly() {
    let mut store = [0xAA; 57];
    let used = add(&mut store, 0, &keyed([1, 0, 0, 0])).unwrap();
    let before = store;
    assert_eq!(add(&mut store, used, &keyed([2, 0, 0, 0])), Err(Refusal::Room.nowhere()));
    assert_eq!(store, before);
    assert_eq!(add(&mut store, used, &keyed([1, 0, 0, 0])), Ok(29));
    assert_eq!(add(&mut [0; 58], 0, &keyed([2, 0, 0, 0])), Ok(29));
    assert_eq!(add(&mut [0; 29], 0, &keyed([2, 0, 0, 0])), Ok(29));
    assert_eq!(add(&mut [0; 28], 0, &keyed([2, 0, 0, 0])), Err(Refusal::Room.nowhere()));
}

#[test]
fn a_removal_leaves_the_other_sheets() {
    let mut store = run(&[[3, 0, 0, 0], [1, 0, 0, 0], [2, 0, 0, 0]].map(keyed));
    assert_eq!(remove(&mut store, 87, key([1, 0, 0, 0])), Ok(58));
    assert_eq!(store, [run(&[[3, 0, 0, 0], [2, 0, 0, 0]].map(keyed)), run(&[keyed([2, 0, 0, 0])])].concat());
    assert_eq!(remove(&mut store, 58, key([1, 0, 0, 0])), Err(Refusal::NotKept.nowhere()));
    assert_eq!(remove(&mut store, 58, key([2, 0, 0, u32::MAX])), Err(Refusal::NotKept.nowhere()));
}

#[test]
fn no_shelf_comes_before_the_sheets_own_and_the_key() {
    let twice = run(&[keyed([1, 2, 3, 4]), keyed([5, 0, 0, 0]), keyed([1, 2, 3, 4])]);
    let journey = run(&[sheet(&JOURNEY)]);
    let stores = [&twice[..], &twice[..86], &journey, &[0, 0, 0, 0], &[0, 0, 0, 1, 6], &[0; 65_537], &twice[..3]];
    for store in stores {
        let mut lent = store.to_vec();
        let used = store.len() as u32;
        assert_eq!(add(&mut lent, used, &[7]), Err(Refusal::NoShelf.nowhere()));
        assert_eq!(remove(&mut lent, used, key([5, 0, 0, 0])), Err(Refusal::NoShelf.nowhere()));
        assert_eq!(lookup((store, used), (&[], 0), key([5, 0, 0, 0])), Err(Refusal::NoShelf.nowhere()));
        assert_eq!(lookup((&twice, 58), (store, used), key([5, 0, 0, 0])), Err(Refusal::NoShelf.nowhere()));
        assert_eq!(lent, store);
    }
    assert_eq!(add(&mut [0; 9], 10, &keyed([1, 0, 0, 0])), Err(Refusal::NoShelf.nowhere()));
}

#[test]
fn the_yards_store_is_asked_first() {
    let (one, two) = (keyed([1, 0, 0, 0]), keyed([2, 0, 0, 0]));
    let (yard, standard) = (run(&[one.clone()]), run(&[two.clone(), one]));
    let ask = |nth| lookup((&yard, 29), (&standard, 58), key(nth));
    assert_eq!(ask([1, 0, 0, 0]), Ok(Part::OfYard(4, 25)));
    assert_eq!(ask([2, 0, 0, 0]), Ok(Part::OfStandard(4, 25)));
    assert_eq!(ask([3, 0, 0, 0]), Err(Refusal::NotKept.nowhere()));
    assert_eq!(lookup((&yard, 0), (&standard, 58), key([1, 0, 0, 0])), Ok(Part::OfStandard(33, 25)));
}

#[test]
fn a_journey_is_refused_as_a_sheet() {
    assert_eq!(add(&mut [0; 100], 0, &sheet(&JOURNEY)), Err(Refusal::Number.nowhere()));
    assert_eq!(add(&mut [0; 100], 0, &[]), Err(Refusal::Sheet.nowhere()));
}

//! Tests of the shelf: keys, room, freed room, refusals with their places, and parts that are borrowed of their store.
use crate::told;
use seglink::{Key, Refusal, Shelf};

/// The build definition's sample sheet, with a key whose numbers are below 128.
fn sheet([nid_c, nid_sp, major, minor]: [u8; 4]) -> Vec<u8> {
    [&[6, 0xC5, 0xC6, 4, 1, 0, 0, 7, nid_c, nid_sp, major, minor, 1, 0, 0, 0, 80][..], &[0; 8]].concat()
}

fn key(numbers: [u8; 4]) -> Key {
    let [nid_c, nid_sp, major, minor] = numbers.map(u32::from);
    Key { nid_c, nid_sp, major, minor }
}

/// Bytes that a sheet of 25 bytes takes.
const ENTRY: usize = 29;

#[test]
fn each_number_of_a_key_counts() {
    let keys = [[0, 0, 0, 0], [1, 0, 0, 0], [0, 1, 0, 0], [0, 0, 1, 0], [0, 0, 0, 1], [1, 1, 1, 1]];
    let mut shelf = Shelf::new(keys.len() * ENTRY);
    for nth in keys {
        shelf.add(&sheet(nth)).unwrap();
    }
    assert_eq!(shelf.used(), keys.len() * ENTRY);
    for nth in keys {
        assert_eq!(shelf.get(key(nth)), Some(&sheet(nth)[..]));
    }
    assert_eq!(shelf.get(key([0, 0, 0, 2])), None);
    for nth in keys {
        shelf.remove(key(nth)).unwrap();
        assert_eq!(shelf.get(key(nth)), None);
    }
    assert_eq!(shelf.used(), 0);
}

#[test]
fn freed_room_is_used_again_and_a_replaced_sheet_takes_none() {
    let mut shelf = Shelf::new(2 * ENTRY);
    shelf.add(&sheet([1, 0, 0, 0])).unwrap();
    shelf.add(&sheet([2, 0, 0, 0])).unwrap();
    assert_eq!(told(shelf.add(&sheet([3, 0, 0, 0]))), Err((Refusal::ShortRoom, 0)));
    assert_eq!(told(shelf.add(&sheet([2, 0, 0, 0]))), Ok(()));
    shelf.remove(key([1, 0, 0, 0])).unwrap();
    assert_eq!(told(shelf.add(&sheet([3, 0, 0, 0]))), Ok(()));
    assert_eq!(shelf.get(key([3, 0, 0, 0])), Some(&sheet([3, 0, 0, 0])[..]));
}

#[test]
fn the_yard_is_asked_first_and_a_part_lies_in_its_store() {
    let (mut yard, mut standard) = (Shelf::new(100), Shelf::new(100));
    standard.add(&sheet([1, 0, 0, 0])).unwrap();
    standard.add(&sheet([2, 0, 0, 0])).unwrap();
    let mut other = sheet([1, 0, 0, 0]);
    other[16] = 84;
    yard.add(&other).unwrap();
    assert_eq!(Shelf::lookup(&yard, &standard, key([1, 0, 0, 0])).unwrap(), other);
    assert_eq!(Shelf::lookup(&yard, &standard, key([2, 0, 0, 0])).unwrap(), sheet([2, 0, 0, 0]));
    assert_eq!(told(Shelf::lookup(&yard, &standard, key([3, 0, 0, 0]))), Err((Refusal::NotKept, 0)));
    // both parts are held at once
    let parts = [Shelf::lookup(&yard, &standard, key([1, 0, 0, 0])).unwrap(), standard.get(key([1, 0, 0, 0])).unwrap()];
    assert_eq!(parts.map(|part| part[16]), [84, 80]);
}

#[test]
fn a_refusal_changes_nothing_and_has_the_sheet_s_place() {
    let mut shelf = Shelf::new(2 * ENTRY);
    shelf.add(&sheet([1, 0, 0, 0])).unwrap();
    let mut late = sheet([2, 0, 0, 0]);
    late[13] = 0x80;
    assert_eq!(told(shelf.add(&[])), Err((Refusal::SheetForm, 0)));
    assert_eq!(told(shelf.add(&[4])), Err((Refusal::PacketNumber, 0)));
    assert_eq!(told(shelf.add(&late)), Err((Refusal::SheetForm, 13)));
    assert_eq!(told(shelf.remove(key([2, 0, 0, 0]))), Err((Refusal::NotKept, 0)));
    assert_eq!(told(shelf.remove(Key { nid_c: u32::MAX, ..key([1, 0, 0, 0]) })), Err((Refusal::NotKept, 0)));
    assert_eq!((shelf.used(), shelf.get(key([1, 0, 0, 0]))), (ENTRY, Some(&sheet([1, 0, 0, 0])[..])));
}

#[test]
fn a_store_has_at_most_65_536_bytes() {
    let mut large = Shelf::new(Shelf::LARGEST_STORE + 1);
    assert_eq!(told(large.add(&[])), Err((Refusal::NoShelf, 0)));
    assert_eq!(told(Shelf::lookup(&Shelf::new(0), &large, key([0; 4]))), Err((Refusal::NoShelf, 0)));
    assert_eq!(told(Shelf::new(Shelf::LARGEST_STORE).add(&sheet([0; 4]))), Ok(()));
    assert_eq!(told(Shelf::new(0).add(&sheet([0; 4]))), Err((Refusal::ShortRoom, 0)));
}

#[test]
fn a_used_part_makes_the_shelf_again() {
    let mut shelf = Shelf::new(2 * ENTRY);
    assert_eq!(shelf.used_part(), []);
    shelf.add(&sheet([2, 0, 0, 0])).unwrap();
    shelf.add(&sheet([1, 0, 0, 0])).unwrap();
    let kept = [&[0, 0, 0, 25][..], &sheet([1, 0, 0, 0]), &[0, 0, 0, 25], &sheet([2, 0, 0, 0])].concat();
    assert_eq!(shelf.used_part(), kept);
    let mut again = Shelf::of_used_part(shelf.used_part(), 0);
    assert_eq!((again.used(), again.get(key([2, 0, 0, 0]))), (2 * ENTRY, Some(&sheet([2, 0, 0, 0])[..])));
    assert_eq!(told(again.add(&sheet([3, 0, 0, 0]))), Err((Refusal::ShortRoom, 0)));
    assert_eq!(told(Shelf::of_used_part(&kept, 3 * ENTRY).add(&sheet([3, 0, 0, 0]))), Ok(()));
}

#[test]
fn a_used_part_that_is_no_shelf_is_refused() {
    let entry = [&[0, 0, 0, 25][..], &sheet([1, 0, 0, 0])].concat();
    let large = vec![0; Shelf::LARGEST_STORE + 1];
    for used in [&entry[..28], &[&entry[..], &[0]].concat(), &[&entry[..], &entry].concat(), &[0, 0, 0, 0], &large] {
        let mut shelf = Shelf::of_used_part(used, 100);
        assert_eq!(told(shelf.add(&sheet([2, 0, 0, 0]))), Err((Refusal::NoShelf, 0)), "{} bytes", used.len());
        assert_eq!(shelf.used_part(), used);
    }
}

//! The shelf: segment sheets kept in a lent store. It is read into a map from keys to sheets, with the order that the store has them in,
//! changed there and written back.

use crate::refusal::{Refusal, Refused};
use crate::sheet_reading;
use std::collections::BTreeMap;

/// Most bytes of a store.
const LARGEST_STORE: usize = 65_536;

/// Bytes of a sheet's length before the sheet.
const COUNT: usize = 4;

/// Key of a sheet. Keys are ordered by their numbers, the first one first.
#[derive(Clone, Copy, Debug, PartialEq, Eq, PartialOrd, Ord)]
pub struct Key {
    pub nid_c: u32,
    pub nid_sp: u32,
    pub major: u32,
    pub minor: u32,
}

/// Part of a store: its first byte there, and how many.
#[derive(Clone, Copy, Debug, PartialEq, Eq)]
pub enum Part {
    OfYard(usize, usize),
    OfStandard(usize, usize),
}

/// The sheets of a store by their keys, and the keys in the order of the store.
#[derive(Default)]
struct Shelf {
    sheets: BTreeMap<Key, Vec<u8>>,
    order: Vec<Key>,
}

/// Keeps a sheet in the store, of which `used` bytes are used, and returns how many are used then.
pub fn add(store: &mut [u8], used: u32, sheet: &[u8]) -> Result<u32, Refused> {
    let mut shelf = Shelf::read(store, used)?;
    let key = key_of(sheet)?;
    shelf.order.retain(|kept| *kept != key);
    let place = shelf.order.iter().position(|kept| *kept > key).unwrap_or(shelf.order.len());
    shelf.order.insert(place, key);
    shelf.sheets.insert(key, sheet.to_vec());
    shelf.write(store)
}

/// Removes the sheet of a key and returns how many bytes are used then.
pub fn remove(store: &mut [u8], used: u32, key: Key) -> Result<u32, Refused> {
    let mut shelf = Shelf::read(store, used)?;
    shelf.sheets.remove(&key).ok_or_else(|| Refusal::NotKept.nowhere())?;
    shelf.order.retain(|kept| *kept != key);
    shelf.write(store)
}

/// Returns the part of the yard's store, or else of the default store, that keeps the sheet of a key.
pub fn lookup(yard: (&[u8], u32), standard: (&[u8], u32), key: Key) -> Result<Part, Refused> {
    let (yard, standard) = (Shelf::read(yard.0, yard.1)?, Shelf::read(standard.0, standard.1)?);
    let in_yard = yard.part(key).map(|(start, count)| Part::OfYard(start, count));
    let in_standard = standard.part(key).map(|(start, count)| Part::OfStandard(start, count));
    in_yard.or(in_standard).ok_or_else(|| Refusal::NotKept.nowhere())
}

/// Returns the key of a segment's sheet, or the sheet's own refusal.
pub fn key_of(sheet: &[u8]) -> Result<Key, Refused> {
    let identity = sheet_reading::segment_of(sheet)?.identity;
    let [major, minor] = identity.version;
    Ok(Key { nid_c: identity.country, nid_sp: identity.number, major, minor })
}

impl Shelf {
    /// Reads the used part of a store.
    fn read(store: &[u8], used: u32) -> Result<Shelf, Refused> {
        let used = store.get(..used as usize).filter(|_| store.len() <= LARGEST_STORE);
        used.and_then(Shelf::of_run).ok_or_else(|| Refusal::NoShelf.nowhere())
    }

    fn of_run(mut left: &[u8]) -> Option<Shelf> {
        let mut shelf = Shelf::default();
        while !left.is_empty() {
            let count = u32::from_be_bytes(left.get(..COUNT)?.try_into().ok()?) as usize;
            let sheet = left[COUNT..].get(..count)?;
            let key = key_of(sheet).ok()?;
            if shelf.sheets.insert(key, sheet.to_vec()).is_some() {
                return None;
            }
            shelf.order.push(key);
            left = &left[COUNT + count..];
        }
        Some(shelf)
    }

    /// Writes the sheets at the start of the store, if they fit, and returns how many bytes they take.
    fn write(&self, store: &mut [u8]) -> Result<u32, Refused> {
        let entry = |key: &Key| [&(self.sheets[key].len() as u32).to_be_bytes(), &self.sheets[key][..]].concat();
        let run: Vec<u8> = self.order.iter().flat_map(entry).collect();
        store.get_mut(..run.len()).ok_or_else(|| Refusal::Room.nowhere())?.copy_from_slice(&run);
        Ok(run.len() as u32)
    }

    /// Returns where the sheet of a key starts, and how many bytes it has.
    fn part(&self, key: Key) -> Option<(usize, usize)> {
        let count = self.sheets.get(&key)?.len();
        let before = self.order.iter().take_while(|kept| **kept != key);
        Some((before.map(|kept| COUNT + self.sheets[kept].len()).sum::<usize>() + COUNT, count))
    }
}

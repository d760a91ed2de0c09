//! The shelf: keeps segment sheets and finds them by NID_C, NID_SP and version.
use crate::{answer, boundary, Refused, Unit};
use alloc::{vec, vec::Vec};

/// Key of a segment's sheet on a [`Shelf`]. Any numbers may be asked for; a number that no sheet can have is kept nowhere.
#[derive(Clone, Copy, Debug, PartialEq, Eq, PartialOrd, Ord, Hash)]
#[repr(C)]
pub struct Key {
    /// NID_C, of 10 bits.
    pub nid_c: u32,
    /// NID_SP, of 32 bits.
    pub nid_sp: u32,
    /// The version's first number, of 8 bits.
    pub major: u32,
    /// The version's second number, of 8 bits.
    pub minor: u32,
}

/// Keeps segment sheets in a store that it owns. It answers as a plain map from keys to sheets.
///
/// ```
/// use seglink::{Key, Refusal, Refused, Shelf};
///
/// let sheet = [6, 0xC5, 0xC6, 4, 1, 0, 0, 7, 0, 0, 0, 0, 1, 0, 0, 0, 80, 0, 0, 0, 0, 0, 0, 0, 0];
/// let key = Key { nid_c: 0, nid_sp: 0, major: 0, minor: 0 };
/// let (mut yard, mut standard) = (Shelf::new(29), Shelf::new(100));
///
/// standard.add(&sheet)?;
/// assert_eq!(Shelf::lookup(&yard, &standard, key)?, sheet);
/// let mut faster = sheet;
/// faster[16] = 84;
/// yard.add(&faster)?;
/// assert_eq!(Shelf::lookup(&yard, &standard, key)?, faster);
/// assert_eq!((yard.used(), standard.used()), (29, 29));
///
/// yard.remove(key)?;
/// assert_eq!(yard.remove(key).unwrap_err().refusal, Refusal::NotKept);
/// assert_eq!(standard.get(key), Some(&sheet[..]));
///
/// let again = Shelf::of_used_part(standard.used_part(), 100);
/// assert_eq!(again.get(key), Some(&sheet[..]));
/// assert_eq!(Shelf::of_used_part(&[0, 0, 0, 1, 6], 100).remove(key).unwrap_err().refusal, Refusal::NoShelf);
/// # Ok::<(), Refused>(())
/// ```
#[derive(Clone, Debug)]
#[must_use]
pub struct Shelf {
    store: Vec<u8>,
    used: u32,
}

impl Shelf {
    /// Most bytes of a store: one of more is refused with [`NoShelf`](crate::Refusal::NoShelf) at every call.
    pub const LARGEST_STORE: usize = 65_536;

    /// Makes a shelf that keeps nothing, with a store of `capacity` bytes. A kept sheet takes its own bytes and four more.
    pub fn new(capacity: usize) -> Shelf {
        Shelf { store: vec![0; capacity], used: 0 }
    }

    /// Makes a shelf of a used part that was kept elsewhere, as in a file, with a store of `capacity` bytes, or of the used part's if these are
    /// more. Any bytes may be handed over: each call judges them, and refuses what is no shelf with [`NoShelf`](crate::Refusal::NoShelf).
    pub fn of_used_part(used_part: &[u8], capacity: usize) -> Shelf {
        let mut store = used_part.to_vec();
        store.resize(capacity.max(used_part.len()), 0);
        Shelf { store, used: u32::try_from(used_part.len()).unwrap_or(u32::MAX) }
    }

    /// Returns the used part of the store: the kept sheets, each after four bytes for its length, most significant first.
    #[must_use]
    pub fn used_part(&self) -> &[u8] {
        &self.store[..self.used().min(self.store.len())]
    }

    /// Returns how many bytes the kept sheets take, four for each included.
    #[must_use]
    pub fn used(&self) -> usize {
        self.used as usize
    }

    /// Keeps the sheet of a segment; a kept sheet of the same key goes.
    ///
    /// # Errors
    ///
    /// Refused as the sheet is (2, 4, 5 and 9, at a byte), then with [`ShortRoom`](crate::Refusal::ShortRoom) if there is no room. A refusal changes
    /// nothing.
    pub fn add(&mut self, sheet: &[u8]) -> Result<(), Refused> {
        let shelved = boundary::shelf_add(&mut self.store, self.used, sheet);
        self.used = shelved.used;
        answer(shelved.refusal, shelved.place, Unit::Byte, ())
    }

    /// Removes the sheet with this key.
    ///
    /// # Errors
    ///
    /// Refused with [`NotKept`](crate::Refusal::NotKept) if there is none.
    pub fn remove(&mut self, key: Key) -> Result<(), Refused> {
        let shelved = boundary::shelf_remove(&mut self.store, self.used, key);
        self.used = shelved.used;
        answer(shelved.refusal, shelved.place, Unit::Byte, ())
    }

    /// Returns the sheet with this key: the part of the yard's store that keeps it, or else of the default store's.
    ///
    /// # Errors
    ///
    /// Refused with [`NotKept`](crate::Refusal::NotKept) if neither keeps one.
    pub fn lookup<'a>(yard: &'a Shelf, standard: &'a Shelf, key: Key) -> Result<&'a [u8], Refused> {
        let (refusal, part) = boundary::shelf_lookup(&yard.store, yard.used, &standard.store, standard.used, key);
        answer(refusal, 0, Unit::Byte, part)
    }

    /// Returns the sheet with this key, if this shelf keeps it.
    #[must_use]
    pub fn get(&self, key: Key) -> Option<&[u8]> {
        let (refusal, part) = boundary::shelf_lookup(&self.store, self.used, &[], 0, key);
        (refusal == 0).then_some(part)
    }
}

//! The calls of the shelf, by both programs.

use crate::program::Answer;
use second::Refused;
pub use second::{key_of, Key, Part};

#[repr(C)]
struct Shelved {
    refusal: u32,
    place: u32,
    used: u32,
}

#[repr(C)]
struct Wanted {
    nid_c: u32,
    nid_sp: u32,
    major: u32,
    minor: u32,
}

#[repr(C)]
struct Lent {
    bytes: *const u8,
    length: usize,
}

extern "C" {
    fn seglink_shelf_add(store: *mut u8, store_len: usize, used: u32, sheet: *const u8, sheet_len: usize) -> Shelved;
    fn seglink_shelf_remove(store: *mut u8, store_len: usize, used: u32, key: Wanted) -> Shelved;
    fn seglink_shelf_lookup_into(
        part: *mut Lent,
        yard: *const u8,
        yard_len: usize,
        yard_used: u32,
        standard: *const u8,
        standard_len: usize,
        standard_used: u32,
        key: Wanted,
    ) -> u32;
}

/// A store, and how many of its bytes are used.
pub type Store<'a> = (&'a [u8], u32);

/// Answer of a lookup: a refusal, and the part that is lent; a refused lookup lends an empty part of the yard's store.
#[derive(Clone, Copy, Debug, PartialEq, Eq)]
pub struct Looked {
    pub refusal: u32,
    pub part: Option<Part>,
}

/// The calls of one program. The value of a change's answer is the used bytes, on a refusal those that were used before.
pub trait Shelves {
    fn add(store: &mut [u8], used: u32, sheet: &[u8]) -> Answer;
    fn remove(store: &mut [u8], used: u32, key: Key) -> Answer;
    fn lookup(yard: Store, standard: Store, key: Key) -> Looked;
}

impl Shelves for crate::archive::Archive {
    fn add(store: &mut [u8], used: u32, sheet: &[u8]) -> Answer {
        let (bytes, length) = (sheet.as_ptr(), sheet.len());
        changed(unsafe { seglink_shelf_add(store.as_mut_ptr(), store.len(), used, bytes, length) })
    }

    fn remove(store: &mut [u8], used: u32, key: Key) -> Answer {
        changed(unsafe { seglink_shelf_remove(store.as_mut_ptr(), store.len(), used, wanted(key)) })
    }

    fn lookup((yard, yard_used): Store, (standard, standard_used): Store, key: Key) -> Looked {
        let mut part = Lent { bytes: yard.as_ptr(), length: 0 };
        let (first, second) = ((yard.as_ptr(), yard.len()), (standard.as_ptr(), standard.len()));
        let lent = &mut part;
        let refusal = unsafe {
            seglink_shelf_lookup_into(lent, first.0, first.1, yard_used, second.0, second.1, standard_used, wanted(key))
        };
        let of_yard = offset(&part, yard).map(|start| Part::OfYard(start, part.length));
        let of_standard = offset(&part, standard).map(|start| Part::OfStandard(start, part.length));
        Looked { refusal, part: of_yard.or(of_standard) }
    }
}

impl Shelves for crate::second_program::Second {
    fn add(store: &mut [u8], used: u32, sheet: &[u8]) -> Answer {
        told(second::add(store, used, sheet), used)
    }

    fn remove(store: &mut [u8], used: u32, key: Key) -> Answer {
        told(second::remove(store, used, key), used)
    }

    fn lookup(yard: Store, standard: Store, key: Key) -> Looked {
        match second::lookup(yard, standard, key) {
            Ok(part) => Looked { refusal: 0, part: Some(part) },
            Err(refused) => Looked { refusal: refused.refusal as u32, part: Some(Part::OfYard(0, 0)) },
        }
    }
}

fn changed(Shelved { refusal, place, used }: Shelved) -> Answer {
    Answer { refusal, place, value: used.into() }
}

fn wanted(Key { nid_c, nid_sp, major, minor }: Key) -> Wanted {
    Wanted { nid_c, nid_sp, major, minor }
}

/// Returns the first byte of a part in a store, if the part lies there.
fn offset(part: &Lent, store: &[u8]) -> Option<usize> {
    let start = (part.bytes as usize).checked_sub(store.as_ptr() as usize)?;
    (start + part.length <= store.len()).then_some(start)
}

fn told(answer: Result<u32, Refused>, used: u32) -> Answer {
    match answer {
        Ok(used) => Answer::success(used.into()),
        Err(Refused { refusal, place }) => Answer { refusal: refusal as u32, place: place as u32, value: used.into() },
    }
}

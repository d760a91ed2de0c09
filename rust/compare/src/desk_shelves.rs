//! Desk cases of the shelf: stores of 65,536 bytes and a byte more, filled with the smallest sheets to the last byte and a byte less.

use crate::archive::Archive;
use crate::check::require;
use crate::program::Answer;
use crate::second_program::Second;
use crate::shelf_calls::{Key, Looked, Part, Shelves};

/// The document's sheet up to NID_C.
const BEFORE_KEY: [u8; 8] = [6, 0xC5, 0xC6, 4, 1, 0, 0, 7];
/// The document's sheet after the minor version.
const AFTER_KEY: [u8; 13] = [1, 0, 0, 0, 80, 0, 0, 0, 0, 0, 0, 0, 0];
/// Bytes of the smallest sheets with a key of six bytes, and of their entries.
const SHEET: usize = BEFORE_KEY.len() + 6 + AFTER_KEY.len();
const ENTRY: usize = SHEET + 4;
/// How many of them a store of 65,536 bytes holds, and how many bytes are left.
const MOST: usize = 65_536 / ENTRY;
const LEFT: usize = 65_536 % ENTRY;

/// Returns the sheet of the key (1, nth, 0, 0), for `nth` from 16,384 on; NID_SP has three bytes.
pub fn sheet(nth: usize) -> Vec<u8> {
    let nid_sp = [nth & 127 | 128, nth >> 7 & 127 | 128, nth >> 14].map(|group| group as u8);
    [&BEFORE_KEY[..], &[1], &nid_sp, &[0, 0], &AFTER_KEY].concat()
}

fn key(nth: usize) -> Key {
    Key { nid_c: 1, nid_sp: nth as u32, major: 0, minor: 0 }
}

/// Returns the bytes that keep the sheets of these keys.
fn run(keys: impl Iterator<Item = usize>) -> Vec<u8> {
    keys.flat_map(|nth| [&(SHEET as u32).to_be_bytes(), &sheet(nth)[..]].concat()).collect()
}

/// Keys of the sheets that fill a store.
fn keys() -> std::ops::Range<usize> {
    16_384..16_384 + MOST
}

/// Checks every desk case, and returns how many there are.
pub fn check() -> Result<usize, String> {
    let cases: [(&str, fn() -> Result<(), String>); 6] = [
        ("a store filled from its end on", filled),
        ("a full store that falls", falling),
        ("an exact fit and a byte less", exact),
        ("a store of 65,537 bytes", large),
        ("two equal keys at both ends of a full store", twice),
        ("a full store emptied from its start on", emptied),
    ];
    for (name, case) in cases {
        case().map_err(|why| format!("{name}: {why}"))?;
    }
    Ok(cases.len())
}

/// Adds a sheet to the archive's store and to the second program's.
fn add(stores: &mut [Vec<u8>; 2], used: u32, sheet: &[u8]) -> Result<Answer, String> {
    let [store, other] = stores;
    let (answer, expected) = (Archive::add(store, used, sheet), Second::add(other, used, sheet));
    require(answer == expected && store == other, &format!("the archive gave {answer:?}, the second program {expected:?}"))?;
    Ok(answer)
}

/// Checks a lookup in a store beside an empty one.
fn finds(store: &[u8], used: u32, nth: usize, place: usize) -> Result<(), String> {
    let answer = Archive::lookup((store, used), (&[], 0), key(nth));
    let expected = Looked { refusal: 0, part: Some(Part::OfYard(place * ENTRY + 4, SHEET)) };
    require(answer == expected, &format!("a lookup gave {answer:?}"))
}

fn filled() -> Result<(), String> {
    let mut store = vec![0xEE; 65_536];
    let mut used = 0;
    for nth in keys().rev() {
        used = Archive::add(&mut store, used, &sheet(nth)).value as u32;
    }
    require(store == [run(keys()), vec![0xEE; LEFT]].concat(), "the store is not its sheets by rising keys")?;
    let mut stores = [store.clone(), store];
    let more = add(&mut stores, used, &sheet(keys().end))?;
    require(more == Answer { refusal: 8, place: 0, value: used.into() }, "one more sheet has room")?;
    let again = add(&mut stores, used, &sheet(keys().start))?;
    require(again == Answer::success(used.into()), "a sheet does not replace itself")?;
    finds(&stores[0], used, keys().start, 0)?;
    finds(&stores[0], used, keys().end - 1, MOST - 1)
}

fn falling() -> Result<(), String> {
    let store = [run(keys().rev()), vec![0xEE; LEFT]].concat();
    let used = (MOST * ENTRY) as u32;
    finds(&store, used, keys().start, MOST - 1)?;
    finds(&store, used, keys().end - 1, 0)
}

fn exact() -> Result<(), String> {
    for (room, refusal) in [(3 * ENTRY, 0), (3 * ENTRY - 1, 8)] {
        let mut store = run([16_384, 16_386].into_iter());
        store.resize(room, 0xEE);
        let mut stores = [store.clone(), store];
        let answer = add(&mut stores, (2 * ENTRY) as u32, &sheet(16_385))?;
        require(answer.refusal == refusal, &format!("{room} bytes: {answer:?}"))?;
    }
    Ok(())
}

fn large() -> Result<(), String> {
    let mut stores = [vec![0; 65_537], vec![0; 65_537]];
    let answer = add(&mut stores, 0, &sheet(16_384))?;
    require(answer == Answer { refusal: 21, place: 0, value: 0 }, &format!("{answer:?}"))
}

fn twice() -> Result<(), String> {
    for order in [false, true] {
        let mut all: Vec<usize> = keys().collect();
        let last = all.len() - 1;
        all[last] = all[0];
        if order {
            all[1..last].reverse();
        }
        let store = [run(all.into_iter()), vec![0xEE; LEFT]].concat();
        let answer = Archive::lookup((&store, (MOST * ENTRY) as u32), (&[], 0), key(16_390));
        require(answer == Looked { refusal: 21, part: Some(Part::OfYard(0, 0)) }, &format!("{answer:?}"))?;
    }
    Ok(())
}

fn emptied() -> Result<(), String> {
    let mut store = [run(keys()), vec![0xEE; LEFT]].concat();
    let mut used = (MOST * ENTRY) as u32;
    for (nth, left) in keys().zip((0..MOST).rev()) {
        let answer = Archive::remove(&mut store, used, key(nth));
        require(answer == Answer::success((left * ENTRY) as i64), &format!("{answer:?}"))?;
        used = answer.value as u32;
    }
    // each removal leaves the last sheet where it was, past the used part
    let last = std::iter::repeat(keys().end - 1).take(MOST);
    require(store == [run(last), vec![0xEE; LEFT]].concat(), "a removal changed bytes past the used part")
}

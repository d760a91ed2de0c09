//! Random calls on two shelves: fresh ones, which must answer as a plain map does, ones of any order, and ones that are no shelf. Both
//! programs must agree on every answer, every byte of both stores and the place of every part.

use crate::archive::Archive;
use crate::case::Case;
use crate::check::require;
use crate::program::{Answer, JOURNEY};
use crate::random::Random;
use crate::rooms::Rooms;
use crate::second_program::Second;
use crate::segments::{any_sizes, segment, Sizes, SMALLEST};
use crate::shelf_calls::{key_of, Key, Looked, Part, Shelves};
use crate::shelf_event::{ShelfEvent, ShelfTally};
use std::collections::BTreeMap;

/// Places of the key's four numbers among the fields of a segment.
const KEY: std::ops::Range<usize> = 6..10;
/// Bytes of a sheet's length before the sheet.
const COUNT: usize = 4;
/// Bytes of a store that is too large.
const LARGE: usize = 65_537;

/// What is wrong with a store.
#[derive(Clone, Copy, PartialEq, Eq)]
enum Wrong {
    Damaged,
    EqualKeys,
    UsedPast,
    UsedCut,
    Large,
}

/// A store of both programs, how many of its bytes are used, what is wrong with it, and the map that it must answer as if it was fresh.
struct Shelf {
    rooms: Rooms,
    used: u32,
    wrong: Option<Wrong>,
    map: Option<BTreeMap<Key, Vec<u8>>>,
}

/// Makes random calls on a yard's and a default store, with sheets of few keys and the case's sheet.
pub fn check(random: &mut Random, case: &Case, tally: &mut ShelfTally) -> Result<(), String> {
    let mut sheets: Vec<Vec<u8>> = (0..random.between(2, 7)).map(|_| small(random)).collect();
    sheets.push(case.sheet.clone());
    let mut shelves = [Shelf::random(random, &sheets), Shelf::random(random, &sheets)];
    for _ in 0..random.between(1, 8) {
        let side = random.place(2);
        match random.between(0, 5) {
            0..=2 => {
                let sheet = random.place(sheets.len());
                shelves[side].add(&sheets[sheet], tally)
            }
            3 => shelves[side].remove(any_key(random, &sheets), tally),
            _ => look(&shelves, any_key(random, &sheets), tally),
        }?;
    }
    Ok(())
}

/// Draws a small segment's sheet with one of few keys.
fn small(random: &mut Random) -> Vec<u8> {
    let sizes = match random.between(0, 5) {
        0..=3 => SMALLEST,
        4 => Sizes { changes: 1, ..SMALLEST },
        _ => any_sizes(random),
    };
    let mut draft = segment(random, Sizes { changes: sizes.changes.min(3), entries: (0, 1), voltages: 0, currents: 0 });
    for field in &mut draft.fields[KEY] {
        field.value = random.pick(&[0, 0, 1, 200]);
        field.number = field.value.into();
    }
    draft.sheet()
}

/// Draws the key of one of the sheets, one of few keys, or a key of numbers of any size.
fn any_key(random: &mut Random, sheets: &[Vec<u8>]) -> Key {
    let few = |random: &mut Random| random.pick(&[0, 0, 1, 200]);
    match random.between(0, 7) {
        0 => Key { nid_c: few(random), nid_sp: few(random), major: few(random), minor: few(random) },
        1 => {
            let mut any = || random.of_any_size();
            Key { nid_c: any(), nid_sp: any(), major: any(), minor: any() }
        }
        _ => key_of(&sheets[random.place(sheets.len() - 1)]).expect("it keeps every rule"),
    }
}

/// Returns the bytes that keep these sheets.
fn run(sheets: &[&Vec<u8>]) -> Vec<u8> {
    sheets.iter().flat_map(|sheet| [&(sheet.len() as u32).to_be_bytes(), &sheet[..]].concat()).collect()
}

/// Draws some of the sheets in any order: with different keys, or with any.
fn some<'a>(random: &mut Random, sheets: &'a [Vec<u8>], different: bool) -> Vec<&'a Vec<u8>> {
    let mut some: Vec<&Vec<u8>> = Vec::new();
    for _ in 0..random.between(0, 5) {
        let sheet = &sheets[random.place(sheets.len() - 1)];
        if !different || some.iter().all(|kept| key_of(kept) != key_of(sheet)) {
            some.push(sheet);
        }
    }
    some
}

impl Shelf {
    /// Draws a store: fresh, with sheets in any order, or with something wrong.
    fn random(random: &mut Random, sheets: &[Vec<u8>]) -> Shelf {
        let mut kept = run(&some(random, sheets, true));
        let mut wrong = None;
        let mut used = kept.len();
        match random.between(0, 15) {
            0..=6 => return Shelf::fresh(random, sheets),
            7..=10 => {}
            11 => {
                kept = run(&some(random, sheets, false));
                (used, wrong) = (kept.len(), Some(Wrong::EqualKeys));
            }
            12 | 13 if !kept.is_empty() => {
                let place = random.place(kept.len());
                kept[place] ^= 1 << random.between(0, 7);
                wrong = Some(Wrong::Damaged);
            }
            14 if used > 0 => (used, wrong) = (random.place(used), Some(Wrong::UsedCut)),
            _ => wrong = Some(Wrong::UsedPast),
        }
        let mut size = kept.len() + any_room(random, sheets);
        if wrong == Some(Wrong::UsedPast) {
            used = size + 1 + random.place(3);
        } else if random.one_in(300) {
            (size, wrong) = (LARGE, Some(Wrong::Large));
        }
        kept.extend(random.bytes(size - kept.len()));
        Shelf { rooms: Rooms::holding(random, &kept), used: used as u32, wrong, map: None }
    }

    /// Draws a fresh store: a size that some of the sheets fill, a byte less, or any size.
    fn fresh(random: &mut Random, sheets: &[Vec<u8>]) -> Shelf {
        let filled = run(&some(random, sheets, true)).len();
        let size = match random.between(0, 5) {
            0 | 1 => filled,
            2 => filled.saturating_sub(1),
            _ => filled + any_room(random, sheets),
        };
        Shelf { rooms: Rooms::random(random, size), used: 0, wrong: None, map: Some(BTreeMap::new()) }
    }

    fn store(&self) -> &[u8] {
        self.rooms.bytes()
    }

    /// Returns the kept sheets in their order; none if the store is no shelf.
    fn kept(&self) -> Option<Vec<(Key, usize)>> {
        let mut left = self.store().get(..self.used as usize).filter(|_| self.store().len() < LARGE)?;
        let mut kept: Vec<(Key, usize)> = Vec::new();
        while !left.is_empty() {
            let count = u32::from_be_bytes(left.get(..COUNT)?.try_into().ok()?) as usize;
            let key = key_of(left[COUNT..].get(..count)?).ok()?;
            if kept.iter().any(|(other, _)| *other == key) {
                return None;
            }
            kept.push((key, count));
            left = &left[COUNT + count..];
        }
        Some(kept)
    }

    fn add(&mut self, sheet: &[u8], tally: &mut ShelfTally) -> Result<(), String> {
        let (used, kept, size) = (self.used, self.kept(), self.store().len());
        let answer = self.rooms.lend(|room| Archive::add(room, used, sheet), |room| Second::add(room, used, sheet));
        let answer = answer.map_err(|why| format!("an addition of {} bytes to {used} of {size}: {why}", sheet.len()))?;
        self.used = answer.value as u32;
        self.count_wrong(&answer, key_of(sheet).is_err(), tally);
        if let Some(kept) = &kept {
            count_addition(kept, sheet, size, &answer, tally);
        }
        if let Some(map) = &mut self.map {
            let expected = map_add(map, size, sheet, used);
            require(answer == expected, &format!("an addition gave {answer:?}, a plain map {expected:?}"))?;
            self.require_map(tally)?;
        }
        Ok(())
    }

    fn remove(&mut self, key: Key, tally: &mut ShelfTally) -> Result<(), String> {
        let (used, kept) = (self.used, self.kept());
        let answer = self.rooms.lend(|room| Archive::remove(room, used, key), |room| Second::remove(room, used, key));
        let answer = answer.map_err(|why| format!("a removal of {key:?} from {used} bytes: {why}"))?;
        self.used = answer.value as u32;
        self.count_wrong(&answer, false, tally);
        if let Some(kept) = &kept {
            let place = kept.iter().position(|(other, _)| *other == key);
            let last = kept.len().saturating_sub(1);
            tally.count(&[
                (ShelfEvent::RemovedOnly, place.is_some() && last == 0),
                (ShelfEvent::RemovedFirst, place == Some(0) && last > 0),
                (ShelfEvent::RemovedLast, place == Some(last) && last > 0),
                (ShelfEvent::RemovedBetween, place.map_or(false, |nth| 0 < nth && nth < last)),
                (ShelfEvent::NotKeptRemoved, answer.refusal == 17),
                (ShelfEvent::OutOfRange, answer.refusal == 17 && is_out_of_range(key)),
                (ShelfEvent::OtherOrder, place.is_some() && !rises(kept)),
            ]);
        }
        if let Some(map) = &mut self.map {
            let expected = match map.remove(&key) {
                Some(_) => Answer::success(weight(map) as i64),
                None => Answer { refusal: 17, place: 0, value: used.into() },
            };
            require(answer == expected, &format!("a removal gave {answer:?}, a plain map {expected:?}"))?;
            self.require_map(tally)?;
        }
        Ok(())
    }

    /// Checks that a store that was fresh has its sheets in the order of their keys.
    fn require_map(&self, tally: &mut ShelfTally) -> Result<(), String> {
        let map = self.map.as_ref().expect("it was fresh");
        let sheets: Vec<&Vec<u8>> = map.values().collect();
        tally.count(&[(ShelfEvent::Mapped, true)]);
        require(self.store()[..self.used as usize] == run(&sheets), "a store is not its sheets by rising keys")
    }

    fn count_wrong(&self, answer: &Answer, refused: bool, tally: &mut ShelfTally) {
        let none = answer.refusal == 21;
        tally.count(&[
            (ShelfEvent::Damaged, none && self.wrong == Some(Wrong::Damaged)),
            (ShelfEvent::EqualKeys, none && self.wrong == Some(Wrong::EqualKeys)),
            (ShelfEvent::UsedPast, none && self.wrong == Some(Wrong::UsedPast)),
            (ShelfEvent::UsedCut, none && self.wrong == Some(Wrong::UsedCut)),
            (ShelfEvent::Large, none && self.wrong == Some(Wrong::Large)),
            (ShelfEvent::BrokenAndRefused, none && refused),
        ]);
    }
}

/// Draws how many bytes a store has past its sheets: none, room for one of the sheets, a byte less, or any.
fn any_room(random: &mut Random, sheets: &[Vec<u8>]) -> usize {
    let entry = COUNT + sheets[random.place(sheets.len() - 1)].len();
    match random.between(0, 4) {
        0 => 0,
        1 => entry,
        2 => entry - 1,
        _ => random.place(120),
    }
}

fn rises(kept: &[(Key, usize)]) -> bool {
    kept.windows(2).all(|pair| pair[0].0 < pair[1].0)
}

fn is_out_of_range(Key { nid_c, major, minor, .. }: Key) -> bool {
    nid_c > 1_023 || major > 255 || minor > 255
}

fn weight(map: &BTreeMap<Key, Vec<u8>>) -> usize {
    map.values().map(|sheet| COUNT + sheet.len()).sum()
}

/// Returns the answer of a plain map to an addition, and adds the sheet to it.
fn map_add(map: &mut BTreeMap<Key, Vec<u8>>, room: usize, sheet: &[u8], used: u32) -> Answer {
    let key = match key_of(sheet) {
        Ok(key) => key,
        Err(refused) => return Answer { refusal: refused.refusal as u32, place: refused.place as u32, value: used.into() },
    };
    let replaced = map.insert(key, sheet.to_vec());
    if weight(map) <= room {
        return Answer::success(weight(map) as i64);
    }
    match replaced {
        Some(sheet) => map.insert(key, sheet),
        None => map.remove(&key),
    };
    Answer { refusal: 8, place: 0, value: used.into() }
}

/// Counts an addition to a shelf that kept these sheets.
fn count_addition(kept: &[(Key, usize)], sheet: &[u8], size: usize, answer: &Answer, tally: &mut ShelfTally) {
    let own = key_of(sheet);
    let Answer { refusal, place, value } = *answer;
    let needed = |key: Key| {
        let others = kept.iter().filter(|(other, _)| *other != key);
        others.map(|(_, count)| COUNT + count).sum::<usize>() + COUNT + sheet.len()
    };
    if let Ok(key) = own {
        let (done, replaced) = (refusal == 0, kept.iter().find(|(other, _)| *other == key).map(|(_, count)| *count));
        let (below, others) = (kept.iter().filter(|(other, _)| *other < key).count(), kept.len());
        let new = done && replaced.is_none() && rises(kept);
        tally.count(&[
            (ShelfEvent::First, new && others == 0),
            (ShelfEvent::Before, new && others > 0 && below == 0),
            (ShelfEvent::Between, new && 0 < below && below < others),
            (ShelfEvent::After, new && others > 0 && below == others),
            (ShelfEvent::ReplacedAlike, done && replaced == Some(sheet.len())),
            (ShelfEvent::ReplacedLonger, done && replaced.map_or(false, |count| count < sheet.len())),
            (ShelfEvent::ReplacedShorter, done && replaced.map_or(false, |count| count > sheet.len())),
            (ShelfEvent::Filled, done && value as usize == size && replaced.is_none()),
            (ShelfEvent::FilledByReplacing, done && value as usize == size && replaced.is_some()),
            (ShelfEvent::ShortByOne, refusal == 8 && needed(key) == size + 1),
            (ShelfEvent::Short, refusal == 8),
            (ShelfEvent::OtherOrder, done && !rises(kept)),
        ]);
    } else {
        tally.count(&[
            (ShelfEvent::Own, true),
            (ShelfEvent::OwnPlaced, place > 0),
            (ShelfEvent::Journey, refusal == 2 && sheet.first() == Some(&JOURNEY)),
            (ShelfEvent::ShortOfRefused, size < COUNT + sheet.len()),
        ]);
    }
}

/// Looks a key up in both stores.
fn look([yard, standard]: &[Shelf; 2], key: Key, tally: &mut ShelfTally) -> Result<(), String> {
    let (first, second) = ((yard.store(), yard.used), (standard.store(), standard.used));
    let (answer, expected) = (Archive::lookup(first, second, key), Second::lookup(first, second, key));
    require(answer == expected, &format!("a lookup of {key:?} gave {answer:?}, the second program {expected:?}"))?;
    if let (Some(yard), Some(standard)) = (&yard.map, &standard.map) {
        let mapped = yard.get(&key).or_else(|| standard.get(&key));
        require(part_of(answer, first.0, second.0) == mapped.map(|sheet| &sheet[..]), "a lookup is not that of a plain map")?;
        tally.count(&[(ShelfEvent::Mapped, true)]);
    }
    let keeps = |shelf: &Shelf| shelf.kept().map_or(false, |kept| kept.iter().any(|(other, _)| *other == key));
    let of_yard = matches!(answer.part, Some(Part::OfYard(_, count)) if count > 0);
    tally.count(&[
        (ShelfEvent::OfYard, of_yard),
        (ShelfEvent::OfYardThoughBoth, of_yard && keeps(standard)),
        (ShelfEvent::OfStandard, matches!(answer.part, Some(Part::OfStandard(..)))),
        (ShelfEvent::NotKeptLooked, answer.refusal == 17),
        (ShelfEvent::OutOfRange, answer.refusal == 17 && is_out_of_range(key)),
        (ShelfEvent::StandardBroken, answer.refusal == 21 && keeps(yard)),
    ]);
    Ok(())
}

/// Returns the bytes of a lookup's part, if it is not refused.
fn part_of<'a>(looked: Looked, yard: &'a [u8], standard: &'a [u8]) -> Option<&'a [u8]> {
    match looked.part? {
        _ if looked.refusal != 0 => None,
        Part::OfYard(start, count) => Some(&yard[start..start + count]),
        Part::OfStandard(start, count) => Some(&standard[start..start + count]),
    }
}

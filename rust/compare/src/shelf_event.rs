//! Events of the shelf in the random calls and in the full stores: each is counted, and must happen.

use std::fmt;

#[derive(Clone, Copy)]
pub enum ShelfEvent {
    First,
    Before,
    Between,
    After,
    ReplacedAlike,
    ReplacedLonger,
    ReplacedShorter,
    Filled,
    FilledByReplacing,
    ShortByOne,
    Short,
    ShortOfRefused,
    Own,
    OwnPlaced,
    Journey,
    RemovedFirst,
    RemovedBetween,
    RemovedLast,
    RemovedOnly,
    NotKeptRemoved,
    NotKeptLooked,
    OutOfRange,
    OfYard,
    OfStandard,
    OfYardThoughBoth,
    OtherOrder,
    Damaged,
    EqualKeys,
    UsedPast,
    UsedCut,
    Large,
    StandardBroken,
    BrokenAndRefused,
    Mapped,
}

/// Each event with its words, in the order of the type.
pub const SHELF_EVENTS: [(ShelfEvent, &str); 34] = [
    (ShelfEvent::First, "sheets added to an empty shelf"),
    (ShelfEvent::Before, "sheets added before all others"),
    (ShelfEvent::Between, "sheets added between others"),
    (ShelfEvent::After, "sheets added after all others"),
    (ShelfEvent::ReplacedAlike, "sheets replaced by one as long"),
    (ShelfEvent::ReplacedLonger, "sheets replaced by a longer one"),
    (ShelfEvent::ReplacedShorter, "sheets replaced by a shorter one"),
    (ShelfEvent::Filled, "stores filled to the last byte"),
    (ShelfEvent::FilledByReplacing, "stores filled to the last byte by a replacing sheet"),
    (ShelfEvent::ShortByOne, "additions a byte longer than the room: 8"),
    (ShelfEvent::Short, "additions longer than the room: 8"),
    (ShelfEvent::ShortOfRefused, "refused sheets that have no room either: their own refusal"),
    (ShelfEvent::Own, "additions refused as the sheet is"),
    (ShelfEvent::OwnPlaced, "of these, at a place other than 0"),
    (ShelfEvent::Journey, "journeys added: 2"),
    (ShelfEvent::RemovedFirst, "first sheets removed"),
    (ShelfEvent::RemovedBetween, "sheets removed between others"),
    (ShelfEvent::RemovedLast, "last sheets removed"),
    (ShelfEvent::RemovedOnly, "only sheets removed"),
    (ShelfEvent::NotKeptRemoved, "removals of no kept sheet: 17"),
    (ShelfEvent::NotKeptLooked, "lookups of no kept sheet: 17"),
    (ShelfEvent::OutOfRange, "keys that no sheet can have: 17"),
    (ShelfEvent::OfYard, "parts of the yard's store"),
    (ShelfEvent::OfStandard, "parts of the default store"),
    (ShelfEvent::OfYardThoughBoth, "parts of the yard's store where both keep the key"),
    (ShelfEvent::OtherOrder, "changes of stores whose keys do not rise"),
    (ShelfEvent::Damaged, "calls on damaged stores: 21"),
    (ShelfEvent::EqualKeys, "calls on stores with two equal keys: 21"),
    (ShelfEvent::UsedPast, "calls with more used bytes than the store has: 21"),
    (ShelfEvent::UsedCut, "calls with a used part that ends in a sheet: 21"),
    (ShelfEvent::Large, "calls on stores of more than 65,536 bytes: 21"),
    (ShelfEvent::StandardBroken, "lookups of a kept sheet beside a default store that is no shelf: 21"),
    (ShelfEvent::BrokenAndRefused, "refused sheets added to a store that is no shelf: 21"),
    (ShelfEvent::Mapped, "calls on stores that were fresh, answered as by a plain map"),
];

/// Counts of the events.
pub struct ShelfTally {
    events: [u64; SHELF_EVENTS.len()],
}

impl Default for ShelfTally {
    fn default() -> ShelfTally {
        ShelfTally { events: [0; SHELF_EVENTS.len()] }
    }
}

impl ShelfTally {
    /// Counts the events that happened.
    pub fn count(&mut self, events: &[(ShelfEvent, bool)]) {
        events.iter().for_each(|(event, happened)| self.events[*event as usize] += u64::from(*happened));
    }

    /// Returns what never happened.
    pub fn missing(&self) -> Vec<String> {
        let never = SHELF_EVENTS.iter().filter(|(event, _)| self.events[*event as usize] == 0);
        never.map(|(_, words)| format!("no {words}")).collect()
    }
}

impl fmt::Display for ShelfTally {
    fn fmt(&self, f: &mut fmt::Formatter) -> fmt::Result {
        write!(f, "shelf")?;
        SHELF_EVENTS.iter().try_for_each(|(event, words)| write!(f, "\n{:>9} {words}", self.events[*event as usize]))
    }
}

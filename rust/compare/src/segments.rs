//! Random segments of any size that keep every rule.

use crate::draft::{Draft, Kind, CANTS, VOLTAGES};
use crate::random::Random;
use std::collections::BTreeSet;

/// How many changes a segment has, and between which numbers the count of entries of each element is drawn.
#[derive(Clone, Copy)]
pub struct Sizes {
    pub changes: u32,
    pub entries: (u32, u32),
    pub voltages: u32,
    pub currents: u32,
}

pub const SMALLEST: Sizes = Sizes { changes: 0, entries: (0, 0), voltages: 0, currents: 0 };
pub const LARGEST: Sizes = Sizes { changes: 31, entries: (31, 31), voltages: 31, currents: 31 };

/// Largest length of a segment in centimetres.
pub const LONGEST: u32 = 16_777_215;

/// Draws sizes of every order, the smallest and the largest included.
pub fn any_sizes(random: &mut Random) -> Sizes {
    let most = match random.between(0, 19) {
        0..=3 => return SMALLEST,
        4 => return LARGEST,
        5..=15 => Sizes { changes: 3, entries: (0, 3), voltages: 3, currents: 3 },
        _ => LARGEST,
    };
    Sizes {
        changes: random.with_ends(0, most.changes),
        entries: (0, random.with_ends(0, most.entries.1)),
        voltages: random.with_ends(0, most.voltages),
        currents: random.with_ends(0, most.currents),
    }
}

/// Draws a segment. Counts past the limits are taken as they are; everything else keeps the rules.
pub fn segment(random: &mut Random, sizes: Sizes) -> Draft {
    let least = shortest(sizes);
    let length = match random.between(0, 3) {
        0 => least,
        1 => random.with_ends(least, 2_000),
        2 => random.with_ends(least, 400_000),
        _ => random.with_ends(least, LONGEST),
    };
    segment_of_length(random, sizes, length)
}

/// Returns the least length in cm of a segment with these sizes: there is a centimetre for each change.
pub fn shortest(sizes: Sizes) -> u32 {
    1 + sizes.changes.max(sizes.voltages).max(sizes.currents)
}

/// Draws a segment of a length in cm.
pub fn segment_of_length(random: &mut Random, sizes: Sizes, length: u32) -> Draft {
    let mut draft = Draft::default();
    header(random, &mut draft, 6);
    identity(random, &mut draft);
    measures(random, &mut draft, length);
    list(random, &mut draft, length, (Kind::Count, sizes.changes), |random, draft| element(random, draft, sizes.entries));
    list(random, &mut draft, length, (Kind::WireCount, sizes.voltages), voltage);
    list(random, &mut draft, length, (Kind::WireCount, sizes.currents), current);
    draft
}

/// Draws a segment with entries in every element; three of four entries name one of a few neighbouring cant deficiencies, so that trains
/// fall from one to the next.
pub fn gathered(random: &mut Random, sizes: Sizes) -> Draft {
    let (least, most) = sizes.entries;
    let mut draft = segment(random, Sizes { entries: (least.max(1), most.max(1)), ..sizes });
    let lowest = random.place(CANTS.len()) as u32;
    let highest = (lowest + random.between(0, 3)).min(CANTS.len() as u32 - 1);
    for place in draft.places(Kind::QDiff) {
        if !random.one_in(4) {
            draft.replace_class(place, 0, random.between(lowest, highest));
        }
    }
    draft
}

pub fn header(random: &mut Random, draft: &mut Draft, number: u32) {
    let digits = (0..8).fold(0, |number, _| number << 4 | random.pick(&[0, 1, 2, 3, 4, 5, 6, 7, 8, 9, 15]));
    draft.same(Kind::PacketNumber, 8, number);
    draft.same(Kind::Operational, 32, digits);
    plain(random, draft, 24);
    plain(random, draft, 15);
    draft.same(Kind::Seconds, 17, random.with_ends(0, 86_399));
    plain(random, draft, 8);
}

pub fn identity(random: &mut Random, draft: &mut Draft) {
    for width in [10, 32, 8, 8] {
        plain(random, draft, width);
    }
}

fn measures(random: &mut Random, draft: &mut Draft, length: u32) {
    draft.same(Kind::Length, 24, length);
    plain(random, draft, 24);
    draft.same(Kind::UtcOffset, 7, random.with_ends(0, 112));
    plain(random, draft, 20);
}

pub fn plain(random: &mut Random, draft: &mut Draft, width: u32) {
    let largest = u32::MAX >> (32 - width);
    let value = if random.one_in(2) { random.with_ends(0, largest) } else { random.of_any_size() & largest };
    draft.same(Kind::Plain, width, value);
}

/// Adds a list: `item` at the start, the count, and changes at rising locations, near one another or far apart.
fn list(random: &mut Random, draft: &mut Draft, length: u32, (kind, count): (Kind, u32), item: impl Fn(&mut Random, &mut Draft)) {
    item(random, draft);
    draft.same(kind, 5, count);
    let last = if random.one_in(4) { count * 2 } else { length - 1 }.min(length - 1);
    let mut locations = BTreeSet::new();
    while locations.len() < count as usize {
        locations.insert(random.with_ends(1, last.max(1)));
    }
    for location in locations {
        draft.same(Kind::Location, 24, location);
        item(random, draft);
    }
}

fn element(random: &mut Random, draft: &mut Draft, (least, most): (u32, u32)) {
    let entries = random.between(least, most);
    draft.speed(random.with_ends(0, 604));
    draft.same(Kind::Front, 1, random.between(0, 1));
    draft.same(Kind::Count, 5, entries);
    for _ in 0..entries {
        entry(random, draft);
    }
}

fn entry(random: &mut Random, draft: &mut Draft) {
    match random.between(0, 2) {
        0 => draft.class(0, random.place(CANTS.len()) as u32),
        differs_by => draft.class(differs_by, random.between(0, 2)),
    }
    draft.speed(random.with_ends(0, 604));
}

fn voltage(random: &mut Random, draft: &mut Draft) {
    let place = random.place(VOLTAGES.len()) as u32;
    let traction = if place == 0 { 0 } else { random.with_ends(0, 1_023) };
    draft.voltage(place, traction);
}

fn current(random: &mut Random, draft: &mut Draft) {
    draft.current(random.with_ends(0, 10_010));
}

//! One random case: a packet and a sheet, whole, damaged or noise, and the questions on them.

use crate::damage::{spoil_fields, spoil_form, spoil_packet, spoil_sheet};
use crate::draft::{Draft, Kind, CANTS};
use crate::journeys::{about_the_longest, any_counts, journey};
use crate::program::Train;
use crate::random::Random;
use crate::segments::{any_sizes, gathered, segment, Sizes};

pub struct Case {
    pub name: &'static str,
    pub packet: Vec<u8>,
    pub sheet: Vec<u8>,
    /// The segment or journey of both, if both are accepted and the packet is the sheet's.
    pub whole: Option<Draft>,
    /// L_SP first, then the locations of changes and 0, in cm: speed questions are asked about them. A journey has 0 alone.
    pub marks: Vec<u32>,
    /// Places in the table of the cant deficiencies that entries name: trains are drawn near them.
    pub named: Vec<u32>,
    /// Where the fields of temporary constraints begin: a bit of the packet, a byte of the sheet.
    pub constrained: Vec<(u32, u32)>,
    /// Where the counts of wire changes begin: a byte of the sheet.
    pub counted: Vec<u32>,
}

impl Case {
    /// Makes the case of a seed's generator.
    pub fn random(random: &mut Random) -> Case {
        match random.between(0, 63) {
            0..=23 => whole(random),
            24..=43 => with_spoilt_fields(random),
            44..=55 => with_spoilt_bytes(random),
            56..=59 => with_a_count_past_its_limit(random),
            60 => with_a_body_too_long(random),
            _ => noise(random),
        }
    }

    pub fn of(name: &'static str, draft: &Draft, whole: bool) -> Case {
        let marks = [draft.values(Kind::Length), draft.values(Kind::Location), vec![0]].concat();
        let (packet, sheet, named) = (draft.packet(), draft.sheet(), draft.values(Kind::Cant));
        let (constrained, counted) = (draft.constraint_places(), draft.wire_count_bytes());
        Case { name, packet, sheet, whole: whole.then(|| draft.clone()), marks, named, constrained, counted }
    }
}

/// Draws a segment, or one time in three a journey.
pub fn any_draft(random: &mut Random) -> Draft {
    if random.one_in(3) {
        let counts = any_counts(random);
        journey(random, &counts)
    } else {
        let sizes = any_sizes(random);
        if random.one_in(2) {
            gathered(random, sizes)
        } else {
            segment(random, sizes)
        }
    }
}

fn whole(random: &mut Random) -> Case {
    Case::of("whole", &any_draft(random), true)
}

fn with_spoilt_fields(random: &mut Random) -> Case {
    let mut draft = any_draft(random);
    spoil_fields(random, &mut draft);
    Case::of("with spoilt fields", &draft, false)
}

fn with_spoilt_bytes(random: &mut Random) -> Case {
    let mut draft = any_draft(random);
    let form = random.one_in(2);
    if form {
        spoil_form(random, &mut draft);
    }
    let mut case = Case::of("with spoilt bytes", &draft, false);
    spoil_packet(random, &mut case.packet);
    if !form {
        spoil_sheet(random, &mut case.sheet);
    }
    case
}

/// Makes a case with more changes, entries, segments, timing points or constraints than allowed, all of them there.
fn with_a_count_past_its_limit(random: &mut Random) -> Case {
    let mut sizes = Sizes { entries: (0, 1), ..any_sizes(random) };
    let mut counts = None;
    match random.between(0, 6) {
        0 => sizes.voltages = random.with_ends(32, 40),
        1 => sizes.currents = random.with_ends(32, 40),
        2 => sizes.changes = random.with_ends(32, 40),
        3 => sizes.entries = (32, 40),
        4 => counts = Some(vec![(random.with_ends(32, 40), 0)]),
        5 => counts = Some(vec![(1, random.with_ends(32, 40))]),
        _ => counts = Some(vec![(0, 0); random.with_ends(256, 300) as usize]),
    }
    let draft = match counts {
        Some(counts) => journey(random, &counts),
        None => segment(random, sizes),
    };
    Case::of("with a count past its limit", &draft, false)
}

/// Makes a journey of one or some more timing points or constraints than a packet holds; its sheet is whole, or one time in three spoilt.
fn with_a_body_too_long(random: &mut Random) -> Case {
    let more = random.pick(&[1, 1, 2, 31, 400]);
    let counts = about_the_longest(random, more);
    let mut draft = journey(random, &counts);
    if random.one_in(3) {
        spoil_fields(random, &mut draft);
    }
    let mut case = Case::of("with a body too long", &draft, false);
    if random.one_in(3) {
        spoil_sheet(random, &mut case.sheet);
    }
    case
}

/// Makes a case of random bytes; half of the cases begin with a right start.
fn noise(random: &mut Random) -> Case {
    let size = if random.one_in(4) { 2_100 } else { 80 };
    let (packet_size, sheet_size) = (random.place(size), random.place(size));
    let mut packet = random.bytes(packet_size);
    let mut sheet = random.bytes(sheet_size);
    if random.one_in(2) {
        let start = any_draft(random).packet();
        overwrite(&mut packet, &start[..15]);
        let bits = packet.len().saturating_sub(15) * 8;
        overwrite(&mut packet, &[start[0], (bits >> 8) as u8, bits as u8]);
        sheet.iter_mut().for_each(|byte| *byte &= 0x7F);
        overwrite(&mut sheet, &[start[0], 0, 0, 0, 0, 0]);
    }
    let (marks, named, constrained, counted) = (vec![0], Vec::new(), Vec::new(), Vec::new());
    Case { name: "noise", packet, sheet, whole: None, marks, named, constrained, counted }
}

/// Writes `start` over the first bytes, as far as there are any.
fn overwrite(bytes: &mut [u8], start: &[u8]) {
    bytes.iter_mut().zip(start).for_each(|(byte, other)| *byte = *other);
}

/// The highest maximum of a train in km/h.
pub const FASTEST: u32 = 600;

/// Draws a train, three times in sixteen a train that is not allowed.
pub fn any_train(random: &mut Random, named: &[u32]) -> Train {
    let mut train = Train {
        length: if random.one_in(2) { random.with_ends(1, 1_000) } else { random.with_ends(1, 150_000) },
        cant: any_cant(random, named),
        maximum: if random.one_in(3) { random.with_ends(1, FASTEST) } else { FASTEST },
        freight_p: random.one_in(2),
        freight_g: random.one_in(2),
        passenger: random.one_in(2),
    };
    match random.between(0, 15) {
        0 => train.length = random.pick(&[0, 150_001, u32::MAX]),
        1 => train.cant = random.pick(&[0, 1, 10, 79, 81, 301, 336]),
        2 => train.maximum = random.pick(&[0, 0, 601, 601, 604, 605, 65_536, 65_537, 0x8000_0001, u32::MAX]),
        _ => {}
    }
    train
}

/// Draws a cant deficiency: one that an entry names, one of the two above it, or any.
fn any_cant(random: &mut Random, named: &[u32]) -> u32 {
    if named.is_empty() || random.one_in(4) {
        return random.pick(&CANTS);
    }
    let place = random.pick(named).saturating_add(random.pick(&[0, 1, 1, 2]));
    CANTS[(place as usize).min(CANTS.len() - 1)]
}

/// Draws a kind: 0 to 3, or a larger one, whose low bits may be 0 or 1.
pub fn any_kind(random: &mut Random) -> u32 {
    match random.between(0, 5) {
        4 => random.pick(&[255, 256, 257, 65_536, 65_537, 0x8000_0000, 0x8000_0001, u32::MAX]),
        5 => random.of_any_size(),
        small => small,
    }
}

/// Draws a location: near a mark plus the train's length, near a mark, from 0 to L_SP or anywhere.
pub fn any_location(random: &mut Random, marks: &[u32], train: &Train) -> u32 {
    let mark = random.pick(marks);
    let about = random.pick(&[-1, 0, 1]);
    match random.between(0, 7) {
        0..=1 => mark.saturating_add(train.length).wrapping_add(about as u32),
        2..=4 => mark.wrapping_add(about as u32),
        5..=6 => random.between(0, marks[0]),
        _ => random.of_any_size(),
    }
}

//! Damages segments and journeys: fields at and past their limits, numbers in a wrong form, wrong bits and wrong sizes.

use crate::draft::{Draft, Kind, CANTS};
use crate::random::Random;

/// Returns the values and the numbers on both sides of each end of a kind's range or set.
fn edges(kind: Kind) -> (&'static [u32], &'static [u32]) {
    match kind {
        Kind::PacketNumber => (&[0, 4, 5, 6, 7, 255], &[0, 4, 5, 6, 7, 256, 260, 262]),
        Kind::Operational => (&[0x9999_9999, 0xFFFF_FFFF, 0xA, 0xE000_0000], &[0x9999_9999, 0xFFFF_FFFF, 0xA, 0xE000_0000]),
        Kind::Seconds => (&[86_399, 86_400, 131_071], &[86_399, 86_400, 131_072]),
        Kind::Length => (&[0, 1, 2, 16_777_215], &[0, 1, 2, 16_777_215, 16_777_216]),
        Kind::UtcOffset => (&[112, 113, 127], &[112, 113, 128]),
        Kind::Speed => (&[120, 121, 127], &[604, 605, 635, 640]),
        Kind::Front => (&[0, 1], &[1, 2, 3]),
        Kind::Count => (&[0, 1, 30, 31], &[0, 1, 31, 32]),
        Kind::QDiff => (&[0, 1, 2, 3], &[0, 1, 2, 3, 4]),
        Kind::Cant => (&[0, 10, 11, 15], &[0, 1, 2, 10, 79, 80, 81, 300, 301]),
        Kind::Category => (&[2, 3, 10, 15], &[2, 3, 16, 80, 100, 130]),
        Kind::Voltage => (&[0, 1, 5, 6, 15], &[0, 1, 5, 600, 750, 25_000, 24_999]),
        Kind::Traction => (&[0, 1, 512, 1_023], &[0, 1, 1_023, 1_024]),
        Kind::WireCount => (&[0, 1, 23, 24, 30, 31], &[0, 1, 23, 24, 30, 31, 32]),
        Kind::Current => (&[0, 1_000, 1_001, 1_022, 1_023], &[0, 1, 10_010, 10_011, 10_221]),
        Kind::Status => (&[0, 4, 5, 7], &[0, 4, 5, 8]),
        Kind::SegmentCount => (&[0, 1, 2, 255], &[0, 1, 2, 255, 256]),
        Kind::ArrivalSeconds => (&[86_399, 86_400, 86_401, 131_071], &[86_399, 86_400, 86_401, 131_072]),
        Kind::Alignment | Kind::StopKind => (&[0, 1, 2, 3], &[0, 1, 2, 3, 4]),
        Kind::Information => (&[0, 1, 2, 3], &[0, 1, 2, 4]),
        Kind::PassedBy => (&[1, u32::MAX], &[1, 2, 86_399]),
        Kind::ConstraintType | Kind::Range => (&[0, 1, 2, 3], &[0, 1, 2, 3, 4, 5]),
        Kind::Start => (&[0, 1, 16_777_214, 16_777_215], &[0, 1, 16_777_214, 16_777_215, 16_777_216]),
        Kind::Adhesion => (&[0, 5, 6, 7], &[0, 5, 6, 8]),
        Kind::Unused => (&[1, 2, u32::MAX], &[1, 2, 3, 4, 5, 604, 16_777_215]),
        Kind::UnusedCurrent => (&[0, 1, 1_000, 1_022, 1_023], &[0, 1, 1_022, 1_023, 10_010]),
        // these limits follow from the field's width and from the locations near it
        Kind::Plain | Kind::Location | Kind::End => (&[], &[]),
    }
}

/// Puts one field of a random kind, or two or three, at a limit, past it or anywhere.
pub fn spoil_fields(random: &mut Random, draft: &mut Draft) {
    for _ in 0..random.pick(&[1, 1, 1, 2, 3]) {
        let kind = kind_of(random, draft);
        let place = random.pick(&draft.places(kind));
        let (value, number) = match kind {
            Kind::Location => location(random, draft, place),
            Kind::End => end(random, draft, place),
            Kind::Plain => about_width(random, draft.fields[place].width),
            Kind::Cant if random.one_in(2) => other_cant(random),
            Kind::Operational if random.one_in(2) => wrong_digit(random, draft.fields[place].value),
            _ => (random.pick(edges(kind).0), random.pick(edges(kind).1).into()),
        };
        let anything = random.one_in(6);
        let field = &mut draft.fields[place];
        field.value = if anything { random.any() as u32 } else { value };
        field.number = if anything { random.of_any_size().into() } else { number };
    }
}

/// The kinds that constraints alone have in a journey.
const CONSTRAINED: [Kind; 9] = [
    Kind::ConstraintType,
    Kind::Range,
    Kind::Start,
    Kind::End,
    Kind::Front,
    Kind::Speed,
    Kind::Adhesion,
    Kind::Unused,
    Kind::UnusedCurrent,
];

/// Draws a kind that the draft has: more often locations, constraints and their ends, which can be wrong in most ways, and plain fields,
/// which are many.
fn kind_of(random: &mut Random, draft: &Draft) -> Kind {
    let mut kinds = vec![Kind::Plain];
    for field in &draft.fields {
        if !kinds.contains(&field.kind) {
            kinds.push(field.kind);
        }
    }
    match random.between(0, 3) {
        0 => Kind::Plain,
        1 if kinds.contains(&Kind::Location) => Kind::Location,
        1 if kinds.contains(&Kind::ConstraintType) => {
            kinds.retain(|kind| CONSTRAINED.contains(kind));
            let end = kinds.contains(&Kind::End) && random.one_in(2);
            if end {
                Kind::End
            } else {
                random.pick(&kinds)
            }
        }
        _ => random.pick(&kinds),
    }
}

/// Draws a location near the one before it, near an end of the segment, or past all that a packet holds.
fn location(random: &mut Random, draft: &Draft, place: usize) -> (u32, u64) {
    let fields = &draft.fields;
    let before = fields[..place].iter().rev().find(|field| field.kind == Kind::Location).map_or(0, |field| field.value);
    let end = fields[draft.places(Kind::Length)[0]].value;
    let near = [0, 1, before, before.saturating_sub(1), before + 1, end, end.saturating_sub(1), end + 1];
    let number = if random.one_in(4) { random.pick(&[16_777_216, u32::MAX]) } else { random.pick(&near) };
    (random.pick(&near), number.into())
}

/// Draws an end near the constraint's start, which stands before it, or past all that a packet holds.
fn end(random: &mut Random, draft: &Draft, place: usize) -> (u32, u64) {
    let start = draft.fields[place - 1].value;
    let near = [0, start.saturating_sub(1), start, start.wrapping_add(1), 16_777_215];
    let number = if random.one_in(4) { random.pick(&[16_777_216, u32::MAX]) } else { random.pick(&near) };
    (random.pick(&near), number.into())
}

/// Draws the highest number that the packet's field holds, or the next, which the field does not hold.
fn about_width(random: &mut Random, width: u32) -> (u32, u64) {
    (u32::MAX, (1 << width) - 1 + u64::from(random.between(0, 1)))
}

/// Draws a figure beside one of the table, with a place in the table or past it.
fn other_cant(random: &mut Random) -> (u32, u64) {
    let figure = random.pick(&CANTS);
    (random.between(0, 15), random.pick(&[figure - 1, figure, figure + 1]).into())
}

/// Replaces one digit of NID_OPERATIONAL by A to E.
fn wrong_digit(random: &mut Random, number: u32) -> (u32, u64) {
    let shift = 4 * random.between(0, 7);
    let wrong = number & !(15 << shift) | random.between(10, 14) << shift;
    (wrong, wrong.into())
}

/// Gives one number of the sheet zero groups at its end, or a size past 4,294,967,295, or past five groups.
pub fn spoil_form(random: &mut Random, draft: &mut Draft) {
    let place = random.place(draft.fields.len());
    let field = &mut draft.fields[place];
    match random.between(0, 3) {
        0 => field.zero_groups = random.between(1, 5),
        1 => field.number = 1 << 32,
        2 => field.number |= 1 << random.between(32, 34),
        _ => field.number = random.any() >> random.between(1, 29),
    }
}

/// Damages a packet's bytes: bits, size, the length field, the padding.
pub fn spoil_packet(random: &mut Random, packet: &mut Vec<u8>) {
    match random.between(0, 6) {
        0 => flip_bits(random, packet),
        1 => packet.truncate(random.place(packet.len() + 1)),
        2 => packet.truncate(random.place(16)),
        3 => lengthen(random, packet),
        4 => packet[2] = packet[2].wrapping_add(random.between(1, 255) as u8),
        5 => set_padding(random, packet),
        _ => refit(random, packet),
    }
}

/// Damages a sheet's bytes: bits and size.
pub fn spoil_sheet(random: &mut Random, sheet: &mut Vec<u8>) {
    match random.between(0, 3) {
        0 => flip_bits(random, sheet),
        1 => sheet.truncate(random.place(sheet.len() + 1)),
        2 => lengthen(random, sheet),
        _ => *sheet.last_mut().expect("a sheet has numbers") |= 0x80,
    }
}

fn flip_bits(random: &mut Random, bytes: &mut [u8]) {
    for _ in 0..random.pick(&[1, 1, 2, 8]) {
        bytes[random.place(bytes.len())] ^= 1 << random.between(0, 7);
    }
}

fn lengthen(random: &mut Random, bytes: &mut Vec<u8>) {
    let count = random.pick(&[1, 1, 2, 9]);
    let more = if random.one_in(2) { vec![0; count] } else { random.bytes(count) };
    bytes.extend(more);
}

fn length_field(packet: &[u8]) -> usize {
    usize::from(packet[1]) << 8 | usize::from(packet[2])
}

/// Sets padding bits, if there are any.
fn set_padding(random: &mut Random, packet: &mut [u8]) {
    let used = (length_field(packet) + 7) % 8 + 1;
    let padding = (0xFFu16 >> used) as u8;
    let last = packet.last_mut().expect("a packet has a header");
    *last |= padding & random.any() as u8;
}

/// Changes L_PACKET_ATO and makes the packet as long as it asks for: then fields do not fit, or bits are left.
fn refit(random: &mut Random, packet: &mut Vec<u8>) {
    let length = length_field(packet);
    let other = match random.between(0, 3) {
        0 => length + random.between(1, 9) as usize,
        1 => length.saturating_sub(random.between(1, 9) as usize),
        2 => random.place(length + 1),
        _ => random.place(65_536),
    };
    packet[1] = (other >> 8) as u8;
    packet[2] = other as u8;
    let fill = if random.one_in(2) { 0 } else { random.any() as u8 };
    packet.resize(15 + (other + 7) / 8, fill);
}

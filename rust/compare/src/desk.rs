//! The document's desk cases, each with the answer that the document gives; a refusal's place is counted by hand.

use crate::desk_cants;
use crate::desk_constraints;
use crate::desk_journeys;
use crate::desk_kinds;
use crate::desk_maxima;
use crate::desk_wires;
use crate::draft::{Draft, Kind};
use crate::program::{Answer, Operation, Question, Train, KIND_PACKET, KIND_SHEET};

/// A question to an operation, the size of its room, and its answer.
#[derive(Clone)]
pub struct Desk {
    pub name: &'static str,
    pub operation: Operation,
    pub input: Vec<u8>,
    pub room: usize,
    pub train: Train,
    pub x: u32,
    pub answer: Answer,
}

impl Desk {
    pub fn question(&self) -> Question<'_> {
        Question { operation: self.operation, input: &self.input, train: self.train.clone(), x: self.x }
    }
}

/// Figures in which the desk cases differ from the document's packet.
#[derive(Clone, Copy)]
pub struct Plan {
    pub seconds: u32,
    pub length: u32,
    pub speed: u32,
    pub front: u32,
    /// Entries of the first element: Q_DIFF, the class in the packet, km/h.
    pub entries: &'static [(u32, u32, u32)],
    /// Location in cm of a change to 140 km/h.
    pub change: Option<u32>,
    /// How many changes of voltage and of current there are, from the location 1 on.
    pub voltages: u32,
    pub currents: u32,
    pub current: u32,
}

pub const DOCUMENT: Plan =
    Plan { seconds: 0, length: 1, speed: 80, front: 0, entries: &[], change: None, voltages: 0, currents: 0, current: 0 };
pub const CHANGED: Plan = Plan { length: 1_000, speed: 100, change: Some(500), ..DOCUMENT };
pub const TRAIN: Train = Train { length: 200, cant: 150, maximum: 600, freight_p: true, freight_g: false, passenger: false };

pub fn draft(plan: Plan) -> Draft {
    let mut draft = Draft::default();
    start(&mut draft, plan);
    draft.speed(plan.speed);
    draft.same(Kind::Front, 1, plan.front);
    draft.same(Kind::Count, 5, plan.entries.len() as u32);
    for (q_diff, class, speed) in plan.entries {
        draft.class(*q_diff, *class);
        draft.speed(*speed);
    }
    draft.same(Kind::Count, 5, plan.change.map_or(0, |_| 1));
    if let Some(location) = plan.change {
        draft.same(Kind::Location, 24, location);
        draft.speed(140);
        draft.same(Kind::Front, 1, 0);
        draft.same(Kind::Count, 5, 0);
    }
    draft.voltage(0, 0);
    draft.same(Kind::WireCount, 5, plan.voltages);
    for location in 1..=plan.voltages {
        draft.same(Kind::Location, 24, location);
        draft.voltage(5, 1_023);
    }
    draft.current(plan.current);
    draft.same(Kind::WireCount, 5, plan.currents);
    for location in 1..=plan.currents {
        draft.same(Kind::Location, 24, location);
        draft.current(location * 10 + 1);
    }
    draft
}

fn start(draft: &mut Draft, plan: Plan) {
    draft.same(Kind::PacketNumber, 8, 6);
    draft.same(Kind::Operational, 32, 0x12345);
    for (kind, width, value) in [
        (Kind::Plain, 24, 1),
        (Kind::Plain, 15, 0),
        (Kind::Seconds, 17, plan.seconds),
        (Kind::Plain, 8, 7),
        (Kind::Plain, 10, 0),
        (Kind::Plain, 32, 0),
        (Kind::Plain, 8, 0),
        (Kind::Plain, 8, 0),
        (Kind::Length, 24, plan.length),
        (Kind::Plain, 24, 0),
        (Kind::UtcOffset, 7, 0),
        (Kind::Plain, 20, 0),
    ] {
        draft.same(kind, width, value);
    }
}

/// Makes the largest segment in both media: every list is full, and every number has as many groups as its range allows.
fn largest() -> Draft {
    let mut draft = Draft::default();
    let highest = |width: u32| u32::MAX >> (32 - width);
    draft.same(Kind::PacketNumber, 8, 6);
    draft.same(Kind::Operational, 32, 0x9999_9999);
    for width in [24, 15] {
        draft.same(Kind::Plain, width, highest(width));
    }
    draft.same(Kind::Seconds, 17, 86_399);
    for width in [8, 10, 32, 8, 8] {
        draft.same(Kind::Plain, width, highest(width));
    }
    draft.same(Kind::Length, 24, highest(24));
    draft.same(Kind::Plain, 24, highest(24));
    draft.same(Kind::UtcOffset, 7, 112);
    draft.same(Kind::Plain, 20, highest(20));
    full_list(&mut draft, Kind::Count, full_element);
    full_list(&mut draft, Kind::WireCount, |draft| draft.voltage(1, 1_023));
    full_list(&mut draft, Kind::WireCount, |draft| draft.current(10_010));
    draft
}

/// Adds a list: `item` at the segment's start, and 31 changes up to the segment's last centimetre.
fn full_list(draft: &mut Draft, kind: Kind, item: fn(&mut Draft)) {
    item(draft);
    draft.same(kind, 5, 31);
    for location in 16_777_184..16_777_215 {
        draft.same(Kind::Location, 24, location);
        item(draft);
    }
}

fn full_element(draft: &mut Draft) {
    draft.speed(600);
    draft.same(Kind::Front, 1, 0);
    draft.same(Kind::Count, 5, 31);
    for _ in 0..31 {
        draft.class(0, 10);
        draft.speed(600);
    }
}

/// Returns all desk cases.
pub fn cases() -> Vec<Desk> {
    let mut cases = Vec::new();
    conversions(&mut cases);
    refusals(&mut cases);
    limits(&mut cases);
    desk_wires::limits(&mut cases);
    for draft in [draft(DOCUMENT), largest()] {
        rooms(&mut cases, &draft);
    }
    questions(&mut cases);
    speeds(&mut cases);
    desk_cants::speeds(&mut cases);
    desk_kinds::speeds(&mut cases);
    desk_maxima::speeds(&mut cases);
    cases.extend(desk_journeys::cases());
    cases.extend(desk_constraints::cases());
    desk_kinds::unknown(&mut cases);
    taken(&mut cases);
    cases
}

const ROOM: usize = 16_000;

fn converts(name: &'static str, operation: Operation, input: Vec<u8>, answer: Answer) -> Desk {
    Desk { name, operation, input, room: ROOM, train: TRAIN, x: 0, answer }
}

pub fn packet(name: &'static str, packet: Vec<u8>, answer: Answer) -> Desk {
    converts(name, Operation::PacketToSheet, packet, answer)
}

pub fn sheet(name: &'static str, sheet: Vec<u8>, answer: Answer) -> Desk {
    converts(name, Operation::SheetToPacket, sheet, answer)
}

pub fn speed(name: &'static str, kind: u32, input: Vec<u8>, (train, x): (&Train, u32), answer: Answer) -> Desk {
    Desk { name, operation: Operation::PermittedSpeed(kind), input, room: 0, train: train.clone(), x, answer }
}

/// Adds cases in which a draft's packet and sheet make each other.
pub fn accepted(cases: &mut Vec<Desk>, name: &'static str, draft: &Draft) {
    let (bytes, numbers) = (draft.packet(), draft.sheet());
    let (to_sheet, to_packet) = (Answer::success(numbers.len() as i64), Answer::success(bytes.len() as i64));
    cases.push(packet(name, bytes, to_sheet));
    cases.push(sheet(name, numbers, to_packet));
}

/// Adds cases in which a draft's packet is refused at a bit and its sheet at a byte.
pub fn refused(cases: &mut Vec<Desk>, name: &'static str, draft: &Draft, refusal: u32, (bit, byte): (u32, u32)) {
    cases.push(packet(name, draft.packet(), Answer::refused(refusal, bit)));
    cases.push(sheet(name, draft.sheet(), Answer::refused(refusal, byte)));
}

/// Adds cases with rooms of the result's size and of one byte less.
pub fn rooms(cases: &mut Vec<Desk>, draft: &Draft) {
    let mut whole = Vec::new();
    accepted(&mut whole, "a room of the result's size, or one byte less", draft);
    for case in whole {
        let room = case.answer.value as usize;
        let short = converts(case.name, case.operation, case.input.clone(), Answer::refused(8, 0));
        cases.push(Desk { room: room - 1, ..short });
        cases.push(Desk { room, ..case });
    }
}

fn conversions(cases: &mut Vec<Desk>) {
    let document = draft(DOCUMENT);
    cases.push(packet("the document's packet", document.packet(), Answer::success(25)));
    cases.push(sheet("the document's sheet", document.sheet(), Answer::success(39)));
    let asked = packet("the document's altitude", document.packet(), Answer::success(-100_000));
    cases.push(Desk { operation: Operation::AltitudeOfPacket, ..asked });
    for speed in [83, 84, 85, 604] {
        cases.push(sheet("an accepted speed", draft(Plan { speed, ..DOCUMENT }).sheet(), Answer::success(39)));
    }
    cases.push(sheet("0 A", draft(Plan { current: 1, ..DOCUMENT }).sheet(), Answer::success(39)));
    cases.push(packet("0 A", draft(Plan { current: 1, ..DOCUMENT }).packet(), Answer::success(25)));
    cases.push(packet("the largest packet", largest().packet(), Answer::success(5_728)));
    cases.push(sheet("the largest sheet", largest().sheet(), Answer::success(2_073)));
}

/// Adds refusals. The fields of the document's packet end with the bit 304, the last of them begins at 300; the numbers of its sheet end with
/// the byte 24.
fn refusals(cases: &mut Vec<Desk>) {
    let document = draft(DOCUMENT).packet();
    let with_byte = |place: usize, byte: u8| {
        let mut packet = document.clone();
        packet[place] = byte;
        packet
    };
    let no_body = with_byte(2, 0)[..15].to_vec();
    let a_byte_more = [&with_byte(2, 0xC1)[..], &[0]].concat();
    for (name, bytes, refusal, place) in [
        ("an empty packet", Vec::new(), 1, 0),
        ("another packet number", with_byte(0, 5), 2, 0),
        ("the packet without its last byte", document[..38].to_vec(), 3, 0),
        ("a length that asks for fewer bytes", with_byte(2, 0xB8), 3, 0),
        ("a digit A, the last", with_byte(6, 0x4A), 4, 24),
        ("no body", no_body, 6, 120),
        ("a last field that does not fit", with_byte(2, 0xB8)[..38].to_vec(), 6, 300),
        ("a bit left", with_byte(2, 0xBA), 13, 305),
        ("bits left in a byte more", a_byte_more, 13, 305),
        ("a segment that calls itself a journey", with_byte(0, 4), 13, 131),
        ("a padding bit", with_byte(38, 1), 7, 311),
        ("two padding bits", with_byte(38, 0x24), 7, 306),
    ] {
        cases.push(packet(name, bytes, Answer::refused(refusal, place)));
    }
    let numbers = draft(DOCUMENT).sheet();
    for (name, bytes, refusal, place) in [
        ("an empty sheet", Vec::new(), 9, 0),
        ("a number with a zero group", vec![0x80, 0x00], 9, 0),
        ("a length with a zero group", [&numbers[..12], &[0x81, 0x00], &numbers[13..]].concat(), 9, 12),
        ("a sheet that ends within a number", numbers[..3].to_vec(), 9, 1),
        ("a sheet without its last byte", numbers[..24].to_vec(), 9, 24),
        ("a byte left", [&numbers[..], &[0]].concat(), 9, 25),
        ("605 km/h", draft(Plan { speed: 605, ..DOCUMENT }).sheet(), 4, 16),
    ] {
        cases.push(sheet(name, bytes, Answer::refused(refusal, place)));
    }
}

fn limits(cases: &mut Vec<Desk>) {
    accepted(cases, "86,399 seconds", &draft(Plan { seconds: 86_399, ..DOCUMENT }));
    refused(cases, "86,400 seconds", &draft(Plan { seconds: 86_400, ..DOCUMENT }), 4, (95, 6));
    accepted(cases, "a location at L_SP - 1", &draft(Plan { change: Some(999), ..CHANGED }));
    // L_SP has two bytes in the sheet, so the first location begins a byte later
    refused(cases, "a location at L_SP", &draft(Plan { change: Some(1_000), ..CHANGED }), 5, (271, 21));
    refused(cases, "a location at 0", &draft(Plan { change: Some(0), ..CHANGED }), 5, (271, 21));
    refused(cases, "a length of 0", &draft(Plan { length: 0, ..DOCUMENT }), 4, (178, 12));
}

/// Adds questions: they refuse what a conversion of a segment refuses, except a short room, before they judge the train, which is not
/// allowed here.
fn questions(cases: &mut Vec<Desk>) {
    let train = Train { length: 0, ..TRAIN };
    let mut asked = Vec::new();
    for case in cases.iter().filter(|case| ![0, 8].contains(&case.answer.refusal) && !case.question().is_journey()) {
        let operations: &[Operation] = match case.operation {
            Operation::PacketToSheet => &[Operation::PermittedSpeed(KIND_PACKET), Operation::AltitudeOfPacket],
            _ => &[Operation::PermittedSpeed(KIND_SHEET)],
        };
        for operation in operations {
            let refused = converts(case.name, *operation, case.input.clone(), case.answer);
            asked.push(Desk { train: train.clone(), ..refused });
        }
    }
    cases.extend(asked);
}

/// Adds packets that an intake takes: they have the verdict and the sheet of the conversion; the verdict does not depend on the sheet's room.
fn taken(cases: &mut Vec<Desk>) {
    let packets: Vec<Desk> = cases.iter().filter(|case| case.operation == Operation::PacketToSheet).cloned().collect();
    for case in packets {
        let verdict = match case.answer.refusal {
            0 | 8 => Answer::success(case.input.len() as i64),
            _ => case.answer,
        };
        cases.push(Desk { operation: Operation::Completion, answer: verdict, ..case.clone() });
        cases.push(Desk { operation: Operation::TakenSheet, ..case });
    }
}

fn speeds(cases: &mut Vec<Desk>) {
    for (front, x, speed) in [(0, 499, 100), (0, 699, 100), (0, 700, 140), (1, 499, 100), (1, 500, 140), (1, 999, 140)] {
        let plan = Plan { front, ..CHANGED };
        both_speeds(cases, "a change at 500", plan, (&TRAIN, x), Answer::success(speed));
    }
    both_speeds(cases, "x at L_SP", CHANGED, (&TRAIN, 1_000), Answer::refused(11, 0));
    for (length, cant) in [(0, 150), (150_001, 150), (200, 151)] {
        let train = Train { length, cant, ..TRAIN };
        both_speeds(cases, "a train that is not allowed", CHANGED, (&train, 1_000), Answer::refused(10, 0));
    }
}

/// Adds a speed question about a sheet, and one about its packet, whose speed is lowered to a multiple of 5.
pub fn both_speeds(cases: &mut Vec<Desk>, name: &'static str, plan: Plan, (train, x): (&Train, u32), answer: Answer) {
    let draft = draft(plan);
    let lowered = Answer { value: answer.value / 5 * 5, ..answer };
    for (kind, input, answer) in [(KIND_PACKET, draft.packet(), lowered), (KIND_SHEET, draft.sheet(), answer)] {
        cases.push(speed(name, kind, input, (train, x), answer));
    }
}

//! Times of the archive beside the second program and asn1c: conversions and speeds of small, middle and the largest segments; beside the
//! second program: conversions of small and the largest journeys and of journeys full of temporary constraints; beside questions about one
//! segment: speeds on runs of four; beside plain copies: the largest packets taken in deliveries; and beside the judge's own passes: lookups in
//! full stores; beside a question for each card: boards of 64 cards.

mod asn1c;
mod boards;
mod deliveries;
mod machine;
mod measure;
mod restricted;
mod runs;
mod shelves;
mod steps;

use compare::archive::Archive;
use compare::desk_shelves;
use compare::draft::{Draft, Kind};
use compare::journeys::{journey, spread, Size, LONGEST, LONGEST_UNCONSTRAINED};
use compare::program::{Operation, Program, Question, Train, KIND_PACKET, KIND_SHEET};
use compare::random::Random;
use compare::second_program::Second;
use compare::segments::{segment, Sizes, LARGEST, SMALLEST};
use measure::{Medians, Round};
use std::time::Instant;

const MIDDLE: Sizes = Sizes { changes: 10, entries: (0, 6), voltages: 3, currents: 3 };
/// How many segments of each size are measured: enough that the processor cannot predict their fields.
const SIZES: [(&str, usize, Sizes); 3] = [("small", 4_000, SMALLEST), ("middle", 600, MIDDLE), ("largest", 30, LARGEST)];
/// A journey with as many segments of 31 constraints each as a packet holds.
const CONSTRAINED: Size = (28, 0, 28 * 31);
/// How many journeys of each size are measured; a size is the counts of segments, timing points and constraints.
const JOURNEYS: [(&str, usize, Size); 3] = [
    ("small", 1_500, (2, 3, 0)),
    ("largest without constraints", 12, LONGEST_UNCONSTRAINED),
    ("full of constraints", 12, CONSTRAINED),
];
/// How many of the largest packets are taken in deliveries.
const TAKEN_SEGMENTS: usize = 30;
const TAKEN_JOURNEYS: usize = 12;
const LARGEST_RESULT: usize = 15_226;
const SMALL: Sizes = Sizes { changes: 2, entries: (0, 2), voltages: 1, currents: 1 };
const TRAIN: Train = Train { length: 20_000, cant: 150, maximum: 600, freight_p: false, freight_g: true, passenger: false };

/// The operations that are measured. The conversions come first: journeys have only these.
const OPERATIONS: [(Operation, &str); 4] = [
    (Operation::PacketToSheet, "packet to sheet"),
    (Operation::SheetToPacket, "sheet to packet"),
    (Operation::PermittedSpeed(KIND_PACKET), "speed from packet"),
    (Operation::PermittedSpeed(KIND_SHEET), "speed from sheet"),
];
const CONVERSIONS: usize = 2;

const HOW_TO_READ: &str = "\
Medians of rounds taken in turn; one room for all calls, not cleared between them; speeds at the segment's last location.
Ratio: a program's time by the archive's in the same round.
asn1c: the codec that Debian's asn1c makes of an ASN.1 module of the packet. It reads a packet into a structure of its own, where
the others write a sheet, and writes a packet from that structure. Reading, it refuses only a packet that ends too soon; writing, a
value outside its range; it answers no speeds and has no journeys. Freeing the structures is not counted. The run stops where a packet
does not come back from it unchanged.
Runs: four segments, with a train that stands on all of them and with one that has left three, beside one segment with the same train.
Restricted: a speed with a journey, in whose last segment x lies; beside it the permitted speed of the same run and the journey's judgement, which is
its conversion into no room, refused with 8. The ratio is to both together.
At once and byte by byte: an intake takes a packet in one delivery, and in one for each byte; beside them plain copies of the same bytes, a
call each. Completion judges the packet. A delivery is to cost a call and a copy, and not what a completion does.
Lookup: of a key that is not kept, in a full store whose keys rise; beside it the judge's own passes over the store's sheets, a call each.
Check: of 128 right steps on a segment; beside it one question about the segment's last centimetre. At most 3 times as long.
Board: of 64 cards along a packet's segment; beside it a question for each card. At most 0.4 of them.";

fn main() {
    println!("Processor: {}", machine::processor());
    if machine::is_emulated() {
        println!("WARNING: under an emulator, times and ratios say nothing of an x86-64 processor.");
    }
    println!("{HOW_TO_READ}");
    let mut random = Random::new(1);
    for (name, count, sizes) in SIZES {
        let drafts: Vec<Draft> = (0..count).map(|_| segment(&mut random, sizes)).collect();
        rows(name, &drafts, true);
    }
    for (name, count, size) in JOURNEYS {
        let drafts: Vec<Draft> = (0..count).map(|_| any_journey(&mut random, size)).collect();
        rows(name, &drafts, false);
    }
    for (name, count, sizes) in SIZES {
        runs::rows(name, &mut random, count / 2, sizes);
    }
    restricted::rows(&mut random, SMALL);
    let drafts: Vec<Draft> = (0..TAKEN_SEGMENTS).map(|_| segment(&mut random, LARGEST)).collect();
    steps::rows("largest segments", &drafts, &TRAIN);
    for (name, count, sizes) in SIZES {
        let drafts: Vec<Draft> = (0..count / 20 + 1).map(|_| segment(&mut random, sizes)).collect();
        boards::row(name, &drafts, &TRAIN);
    }
    let segments: Vec<_> = (0..TAKEN_SEGMENTS).map(|_| segment(&mut random, LARGEST).packet()).collect();
    deliveries::rows("largest segments", &segments);
    let journeys: Vec<_> = (0..TAKEN_JOURNEYS).map(|_| any_journey(&mut random, LONGEST).packet()).collect();
    deliveries::rows("largest journeys", &journeys);
    shelves::rows("smallest sheets", |nth| desk_shelves::sheet(16_384 + nth));
    shelves::rows("small sheets", |nth| shelves::keyed(&mut random, SMALL, nth));
}

fn any_journey(random: &mut Random, size: Size) -> Draft {
    let counts = spread(random, size);
    journey(random, &counts)
}

/// Prints the four rows of a size of segments, or the two rows of a size of journeys, without asn1c.
fn rows(name: &str, drafts: &[Draft], segments: bool) {
    let (packets, sheets): (Vec<_>, Vec<_>) = drafts.iter().map(|draft| (draft.packet(), draft.sheet())).unzip();
    // these structures fill the holes in the heap: asn1c is faster if it allocates beyond them
    let _kept = packets.iter().filter(|_| segments).map(|packet| asn1c::checked(packet)).collect::<Vec<_>>();
    let fields = drafts.iter().map(|draft| draft.fields.len()).sum::<usize>();
    let bytes = |of: &[Vec<u8>]| of.concat().len() / of.len();
    print!("\n{name}: {} {}, on average ", drafts.len(), if segments { "segments" } else { "journeys" });
    print!("{} bytes of packet, ", bytes(&packets));
    println!("{} of sheet, {} fields", bytes(&sheets), fields / drafts.len());
    print!("{:18}{:>14}{:>12}", "", "archive ns", "ns a field");
    println!("{:>14}{:>12}{:>8}{:>14}{:>12}{:>8}", "second ns", "ns a field", "ratio", "asn1c ns", "ns a field", "ratio");
    for (operation, title) in OPERATIONS.into_iter().take(if segments { OPERATIONS.len() } else { CONVERSIONS }) {
        let inputs = match operation {
            Operation::PacketToSheet | Operation::PermittedSpeed(KIND_PACKET) => &packets,
            _ => &sheets,
        };
        let questions = drafts.iter().zip(inputs).map(|(draft, input)| question(operation, draft, input)).collect::<Vec<_>>();
        let mut programs = vec![round::<Archive>(&questions), round::<Second>(&questions)];
        match operation {
            Operation::PacketToSheet if segments => programs.push(Box::new(|| asn1c::round(&packets).0)),
            Operation::SheetToPacket if segments => programs.push(Box::new(|| asn1c::round(&packets).1)),
            _ => {}
        }
        row(title, &measure::medians(&mut programs), drafts.len(), fields);
    }
}

fn question<'a>(operation: Operation, draft: &Draft, input: &'a [u8]) -> Question<'a> {
    let last = draft.places(Kind::Length).first().map_or(0, |place| draft.fields[*place].value - 1);
    Question { operation, input, train: TRAIN, x: last }
}

/// Makes a round of a program's calls, which must all be accepted.
fn round<'a, P: Program>(questions: &'a [Question<'a>]) -> Round<'a> {
    let mut room = [0; LARGEST_RESULT];
    Box::new(move || {
        let began = Instant::now();
        for question in questions {
            let answer = measure::unknown(P::answer(measure::unknown(question), &mut room));
            assert!(answer.refusal == 0, "the question is answered");
        }
        began.elapsed()
    })
}

/// Prints a row: each program's time for a call and for a field, with its ratio to the archive; a dash if asn1c has no such operation.
fn row(title: &str, programs: &[Medians], calls: usize, fields: usize) {
    print!("{title:18}");
    for (place, Medians { time, ratio }) in programs.iter().enumerate() {
        print!("{:>14.0}{:>12.1}", time / calls as f64, time / fields as f64);
        if place > 0 {
            print!("{ratio:>8.1}");
        }
    }
    if programs.len() < 3 {
        print!("{:>14}{:>12}{:>8}", "-", "-", "-");
    }
    println!();
}

//! Desk cases of the intake: calls that follow one another, each with the state or the answer that the request gives, and the room after them.

use self::Call::{Ask, Complete, Deliver};
use crate::check::require;
use crate::desk::{draft, DOCUMENT};
use crate::desk_journeys::journey;
use crate::intakes::{gathering, judged, Intakes, PASSED};
use crate::program::{Answer, Intake};
use crate::random::Random;
use crate::rooms::Rooms;

/// Byte that fills a room before it is lent.
const FILL: u8 = 0xA5;
const FRESH: Intake = gathering(0);
const LONG: Intake = judged(0, 8, 0);
const EARLY: Answer = Answer { refusal: 14, place: 0, value: 0 };

/// A call, and the state or the answer that it must give.
enum Call {
    Deliver(Vec<u8>, Intake),
    Complete(Intake),
    /// A question for the sheet: the bytes handed over of the room that took the packet, and the bytes of the room for the sheet.
    Ask(usize, usize, Answer),
}

/// Calls from a state on, and the bytes of the room before and after them.
pub struct IntakeDesk {
    pub name: &'static str,
    start: Intake,
    room: Vec<u8>,
    calls: Vec<Call>,
    held: Vec<u8>,
}

impl IntakeDesk {
    /// Makes the calls in both programs and checks what they give.
    pub fn check(&self, random: &mut Random) -> Result<(), String> {
        let mut intakes = Intakes::new(random, self.start, &self.room);
        for (nth, call) in self.calls.iter().enumerate() {
            let given = match call {
                Deliver(delivery, state) => intakes.deliver(delivery).map(|next| next == *state),
                Complete(state) => intakes.complete().map(|next| next == *state),
                Ask(taken, room, answer) => {
                    let mut lent = Rooms::random(random, *room);
                    intakes.sheet(*taken, &mut lent).map(|given| given == *answer)
                }
            };
            let told = |why: &str| format!("call {nth}, which leaves {:?}: {why}", intakes.state);
            require(given.map_err(|why| told(&why))?, &told("both gave another answer than the request"))?;
        }
        require(intakes.room() == self.held, "both left other bytes in the room than the request")
    }
}

/// Returns the document's packet, of 39 bytes; its sheet has 25.
fn document() -> Vec<u8> {
    draft(DOCUMENT).packet()
}

/// Returns a room of `size` bytes that begins with `bytes`, with the fill behind them.
fn filled(bytes: &[u8], size: usize) -> Vec<u8> {
    let mut room = bytes.to_vec();
    room.resize(size, FILL);
    room
}

/// Makes a case of calls to a fresh intake with a room of `size` bytes.
fn fresh(name: &'static str, size: usize, calls: Vec<Call>, held: &[u8]) -> IntakeDesk {
    IntakeDesk { name, start: FRESH, room: filled(&[], size), calls, held: filled(held, size) }
}

/// Returns the calls that deliver a packet at once into a room that holds it, and accept it.
fn accepted(packet: Vec<u8>) -> [Call; 2] {
    let length = packet.len() as u32;
    [Deliver(packet, gathering(length)), Complete(judged(length, 0, 0))]
}

/// Returns all desk cases of the intake.
pub fn cases() -> Vec<IntakeDesk> {
    let mut cases = vec![in_parts(), byte_by_byte(), in_a_row(), damaged(), long(), long_and_damaged()];
    cases.extend([nothing(), asked_early(), asked_late(), completed_twice(), cut_short()]);
    cases.extend(wild());
    cases
}

fn in_parts() -> IntakeDesk {
    let packet = document();
    let calls = vec![
        Deliver(packet[..10].to_vec(), gathering(10)),
        Deliver(Vec::new(), gathering(10)),
        Deliver(packet[10..38].to_vec(), gathering(38)),
        Deliver(packet[38..].to_vec(), gathering(39)),
        Complete(judged(39, 0, 0)),
        Ask(45, 30, Answer::success(25)),
        Ask(45, 30, Answer::success(25)),
    ];
    fresh("a packet in four deliveries, one of no bytes", 45, calls, &packet)
}

fn byte_by_byte() -> IntakeDesk {
    let packet = journey((1, 1, 0)).packet();
    let mut calls: Vec<_> = packet.iter().zip(1..).map(|(byte, length)| Deliver(vec![*byte], gathering(length))).collect();
    calls.extend([Complete(judged(42, 0, 0)), Ask(42, 64, Answer::success(64))]);
    fresh("a journey byte by byte, in a room of its size", 42, calls, &packet)
}

fn in_a_row() -> IntakeDesk {
    let (packet, other) = (document(), journey((1, 1, 0)).packet());
    let mut calls = Vec::new();
    calls.extend(accepted(other.clone()));
    calls.extend([Ask(42, 64, Answer::success(64)), Deliver(vec![0; 43], PASSED), Complete(LONG)]);
    calls.extend(accepted(packet.clone()));
    calls.push(Ask(42, 25, Answer::success(25)));
    fresh("a journey, a packet longer than the room, a segment", 42, calls, &[&packet, &other[39..]].concat())
}

fn damaged() -> IntakeDesk {
    let packet = [&document()[..38], &[0x24]].concat();
    let calls = vec![
        Deliver(packet[..20].to_vec(), gathering(20)),
        Deliver(packet[20..].to_vec(), gathering(39)),
        Complete(judged(39, 7, 306)),
        Ask(39, 25, Answer::refused(7, 306)),
        Ask(0, 0, Answer::refused(7, 306)),
        Deliver(packet[..14].to_vec(), gathering(14)),
        Complete(judged(14, 1, 0)),
        Ask(39, 25, Answer::refused(1, 0)),
    ];
    fresh("two padding bits, then a short packet", 39, calls, &packet)
}

fn long() -> IntakeDesk {
    let packet = document();
    let calls = vec![
        Deliver(packet[..20].to_vec(), gathering(20)),
        Deliver(packet[20..].to_vec(), PASSED),
        Deliver(vec![1], PASSED),
        Deliver(Vec::new(), PASSED),
        Ask(38, 25, EARLY),
        Complete(LONG),
        Ask(38, 25, Answer::refused(8, 0)),
        Deliver(Vec::new(), LONG),
        Deliver(vec![2, 3], gathering(2)),
    ];
    fresh("a room one byte short, then the next packet", 38, calls, &[&[2, 3], &packet[2..20]].concat())
}

fn long_and_damaged() -> IntakeDesk {
    let calls =
        vec![Deliver(vec![5; 14], gathering(14)), Deliver(vec![5], PASSED), Complete(LONG), Ask(0, 0, Answer::refused(8, 0))];
    fresh("another packet number, in a room that is too short", 14, calls, &[5; 14])
}

fn nothing() -> IntakeDesk {
    let calls = vec![
        Deliver(Vec::new(), FRESH),
        Complete(judged(0, 1, 0)),
        Ask(5, 5, Answer::refused(1, 0)),
        Deliver(Vec::new(), judged(0, 1, 0)),
        Deliver(vec![1; 6], PASSED),
    ];
    fresh("no bytes", 5, calls, &[])
}

fn asked_early() -> IntakeDesk {
    let [deliver, complete] = accepted(document());
    let calls = vec![Ask(39, 25, EARLY), deliver, Ask(39, 25, EARLY), complete, Ask(39, 25, Answer::success(25))];
    fresh("a sheet asked for before the completion", 39, calls, &document())
}

fn asked_late() -> IntakeDesk {
    let mut calls = Vec::from(accepted(document()));
    calls.extend([
        Deliver(Vec::new(), judged(39, 0, 0)),
        Ask(39, 25, Answer::success(25)),
        Deliver(vec![9], gathering(1)),
        Ask(39, 25, EARLY),
    ]);
    fresh("a sheet asked for after the next delivery", 39, calls, &[&[9], &document()[1..]].concat())
}

fn completed_twice() -> IntakeDesk {
    let mut calls = Vec::from(accepted(document()));
    calls.extend([Complete(judged(0, 1, 0)), Ask(39, 25, Answer::refused(1, 0)), Complete(judged(0, 1, 0))]);
    fresh("a completion after a verdict", 39, calls, &document())
}

fn cut_short() -> IntakeDesk {
    let mut calls = Vec::from(accepted(document()));
    calls.extend([
        Ask(38, 25, EARLY),
        Ask(0, 0, EARLY),
        Ask(39, 24, Answer::refused(8, 0)),
        Ask(39, 25, Answer::success(25)),
        Ask(44, 26, Answer::success(25)),
    ]);
    fresh("the room cut short, the packet's or the sheet's", 44, calls, &document())
}

/// Returns cases of states that no call returned, each with one call, in a room that begins with the document's packet and stays as it is.
fn wild() -> Vec<IntakeDesk> {
    let room = filled(&document(), 45);
    let one = |(start, call)| IntakeDesk {
        name: "a state that no call returned",
        start,
        room: room.clone(),
        calls: vec![call],
        held: room.clone(),
    };
    wild_calls().into_iter().map(one).chain(wild_and_written()).collect()
}

fn wild_calls() -> Vec<(Intake, Call)> {
    let state = |phase, length, refusal, place| Intake { phase, length, refusal, place };
    vec![
        (state(3, 39, 9, 9), Complete(judged(39, 0, 0))),
        (state(3, 38, 0, 0), Complete(judged(38, 3, 0))),
        (state(u32::MAX, 45, 0, 0), Complete(judged(45, 3, 0))),
        (state(0, 46, 0, 0), Complete(LONG)),
        (state(4, u32::MAX, 0, 0), Complete(LONG)),
        (state(1, 39, 0, 5), Complete(LONG)),
        (state(2, 39, 0, 0), Complete(judged(0, 1, 0))),
        (state(0, 39, 5, 5), Ask(45, 30, EARLY)),
        (state(1, 39, 5, 5), Ask(45, 30, EARLY)),
        (state(3, 39, 5, 5), Ask(45, 30, EARLY)),
        (state(2, 38, 0, 0), Ask(45, 25, Answer::refused(3, 0))),
        (state(2, 46, 0, 0), Ask(45, 30, EARLY)),
        (state(2, u32::MAX, 0, 0), Ask(45, 30, EARLY)),
        (state(2, 39, 0, 77), Ask(45, 25, EARLY)),
        (state(2, 39, 1, 1), Ask(45, 30, EARLY)),
        (state(2, 39, 2, 5), Ask(45, 30, EARLY)),
        (state(2, 39, 8, 39), Ask(45, 30, EARLY)),
        (state(2, 39, 9, 0), Ask(45, 30, EARLY)),
        (state(2, 39, 12, 0), Ask(45, 30, EARLY)),
        (state(2, 39, 77, 5), Ask(45, 30, EARLY)),
        (state(2, u32::MAX, 99, 7), Ask(0, 0, EARLY)),
        (state(2, 39, u32::MAX, u32::MAX), Ask(45, 30, EARLY)),
        (state(2, 39, 8, 0), Ask(45, 30, Answer::refused(8, 0))),
        (state(2, 39, 13, 305), Ask(45, 30, Answer::refused(13, 305))),
        (state(2, u32::MAX, 7, u32::MAX), Ask(0, 0, Answer::refused(7, u32::MAX))),
        (state(7, 8, 9, 10), Deliver(Vec::new(), state(7, 8, 9, 10))),
        (state(1, 8, 9, 10), Deliver(Vec::new(), state(1, 8, 9, 10))),
        (state(2, u32::MAX, 9, 10), Deliver(Vec::new(), state(2, u32::MAX, 9, 10))),
        (state(1, 8, 9, 10), Deliver(vec![1], PASSED)),
        (state(0, 45, 9, 10), Deliver(vec![1], PASSED)),
        (state(3, 44, 9, 10), Deliver(vec![1, 2], PASSED)),
        (state(0, u32::MAX, 0, 0), Deliver(vec![1], PASSED)),
    ]
}

/// Returns cases of states that no call returned, each with a delivery that is written into the room.
fn wild_and_written() -> Vec<IntakeDesk> {
    let cases = [(0, 43, 43), (3, 43, 43), (u32::MAX, 0, 0), (2, 43, 0), (2, u32::MAX, 0)];
    let one = |(phase, length, begin): (u32, u32, usize)| {
        let room = filled(&document(), 45);
        let held = [&room[..begin], &[1, 2], &room[begin + 2..]].concat();
        let start = Intake { phase, length, refusal: 9, place: 10 };
        let calls = vec![Deliver(vec![1, 2], gathering(begin as u32 + 2))];
        IntakeDesk { name: "a delivery to a state that no call returned", start, room, calls, held }
    };
    cases.into_iter().map(one).collect()
}

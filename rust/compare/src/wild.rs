//! Calls to an intake in any state, also in states that no call returns: any phase, length, refusal and place.

use crate::check::{require, LARGEST_SHEET};
use crate::event::Event;
use crate::intakes::Intakes;
use crate::program::{completion_gives, Answer, Intake, NO_REFUSAL};
use crate::random::Random;
use crate::rooms::Rooms;
use crate::tally::Tally;

/// The highest phase that a call returns.
const JUDGED: u32 = 2;

/// Makes one call of each kind, all in one state, with a room that begins with as much of the packet as it holds.
pub fn check(random: &mut Random, packet: &[u8], tally: &mut Tally) -> Result<(), String> {
    let room = room_with(random, packet);
    let size = random.pick(&[0, 1, 2, 9, 64]);
    let delivery = random.bytes(size);
    let state = any_state(random, &[packet.len(), packet.len(), room.len(), room.len().saturating_sub(size)]);
    delivered(&mut Intakes::new(random, state, &room), &delivery, tally)?;
    completed(&mut Intakes::new(random, state, &room), tally)?;
    let taken = if random.one_in(3) { random.place(room.len() + 1) } else { room.len() };
    let size = random.pick(&[0, 30, LARGEST_SHEET, LARGEST_SHEET]);
    let lent = Rooms::random(random, size);
    asked(&Intakes::new(random, state, &room), taken, lent, tally)
}

/// Draws a room's bytes: the packet cut, as it is, or with random bytes behind it.
fn room_with(random: &mut Random, packet: &[u8]) -> Vec<u8> {
    let behind = random.pick(&[0, 0, 1, 40]);
    let mut room = [packet, &random.bytes(behind)].concat();
    if random.one_in(6) {
        room.truncate(random.place(room.len() + 1));
    }
    room
}

/// Draws any state; its length is mostly near one of `lengths` or 0.
fn any_state(random: &mut Random, lengths: &[usize]) -> Intake {
    let near = if random.one_in(4) { 0 } else { random.pick(lengths) as u32 };
    let length = near.wrapping_add(random.pick(&[0, 0, 0, 1, u32::MAX]));
    Intake {
        phase: if random.one_in(6) { random.of_any_size() } else { random.pick(&[0, 1, JUDGED, JUDGED, 3, 4]) },
        length: if random.one_in(6) { random.of_any_size() } else { length },
        refusal: match random.between(0, 3) {
            0 | 1 => 0,
            2 => random.between(1, NO_REFUSAL),
            _ => random.of_any_size(),
        },
        place: if random.one_in(2) { 0 } else { random.of_any_size() },
    }
}

/// Returns whether a state gathers a packet of more bytes than the room has.
fn gathers_past(state: Intake, room: &[u8]) -> bool {
    (state.phase == 0 || state.phase > JUDGED) && state.length as usize > room.len()
}

fn delivered(intakes: &mut Intakes, delivery: &[u8], tally: &mut Tally) -> Result<(), String> {
    let state = intakes.state;
    let next = intakes.deliver(delivery)?;
    let bytes = !delivery.is_empty();
    tally.count_events(&[
        (Event::WildPhaseDelivered, bytes && state.phase > JUDGED && next.phase == 0),
        (Event::WildLengthDelivered, bytes && gathers_past(state, intakes.room())),
    ]);
    Ok(())
}

fn completed(intakes: &mut Intakes, tally: &mut Tally) -> Result<(), String> {
    let state = intakes.state;
    let next = intakes.complete()?;
    tally.count_events(&[
        (Event::WildPhaseAccepted, state.phase > JUDGED && next.refusal == 0),
        (Event::WildLengthCompleted, gathers_past(state, intakes.room())),
    ]);
    Ok(())
}

fn asked(intakes: &Intakes, taken: usize, mut lent: Rooms, tally: &mut Tally) -> Result<(), String> {
    let Intake { phase, length, refusal, place } = intakes.state;
    let answer = intakes.sheet(taken, &mut lent)?;
    let verdict = phase == JUDGED && completion_gives(refusal, place);
    let (early, again) = (answer == Answer::refused(14, 0), answer == Answer::refused(refusal, place));
    require(verdict || early, "both answered a question in a state without a verdict")?;
    require(!verdict || refusal == 0 || again, "both gave another refusal than the verdict's")?;
    let none = phase == JUDGED && !verdict;
    tally.count_events(&[
        (Event::WildPhaseAsked, phase > JUDGED),
        (Event::WildLengthAsked, verdict && refusal == 0 && length as usize > taken),
        (Event::WildRefusal, none && !completion_gives(refusal, 0)),
        (Event::WildPlace, none && completion_gives(refusal, 0)),
        (Event::WildVerdict, verdict && refusal > 0),
    ]);
    Ok(())
}

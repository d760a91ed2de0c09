//! An intake of each program, both in one state and called alike: their states, their answers and every byte of their rooms must be equal.

use crate::archive::Archive;
use crate::program::{Answer, Intake, Program};
use crate::random::Random;
use crate::rooms::Rooms;
use crate::second_program::Second;

pub struct Intakes {
    pub state: Intake,
    rooms: Rooms,
}

/// Makes the state after deliveries of `length` bytes that the room holds.
pub const fn gathering(length: u32) -> Intake {
    Intake { phase: 0, length, refusal: 0, place: 0 }
}

pub const PASSED: Intake = Intake { phase: 1, length: 0, refusal: 0, place: 0 };

/// Makes the state after a completion.
pub const fn judged(length: u32, refusal: u32, place: u32) -> Intake {
    Intake { phase: 2, length, refusal, place }
}

impl Intakes {
    /// Makes both intakes in one state, with rooms that hold these bytes.
    pub fn new(random: &mut Random, state: Intake, room: &[u8]) -> Intakes {
        Intakes { state, rooms: Rooms::holding(random, room) }
    }

    pub fn room(&self) -> &[u8] {
        self.rooms.bytes()
    }

    pub fn deliver(&mut self, delivery: &[u8]) -> Result<Intake, String> {
        let state = self.state;
        let next = self.rooms.lend(|room| Archive::deliver(state, delivery, room), |room| Second::deliver(state, delivery, room));
        self.next(&format!("a delivery of {} bytes", delivery.len()), next)
    }

    pub fn complete(&mut self) -> Result<Intake, String> {
        let state = self.state;
        let next = self.rooms.lend(|room| Archive::complete(state, room), |room| Second::complete(state, room));
        self.next("a completion", next)
    }

    /// Asks for the sheet with the first `taken` bytes of the room that took the packet.
    pub fn sheet(&self, taken: usize, lent: &mut Rooms) -> Result<Answer, String> {
        let (state, taken) = (self.state, &self.room()[..taken]);
        let answer = lent.lend(|room| Archive::sheet(state, taken, room), |room| Second::sheet(state, taken, room));
        answer.map_err(|why| self.told("a question", &why))
    }

    fn next(&mut self, call: &str, next: Result<Intake, String>) -> Result<Intake, String> {
        self.state = next.map_err(|why| self.told(call, &why))?;
        Ok(self.state)
    }

    fn told(&self, call: &str, why: &str) -> String {
        format!("{call} to {:?} in a room of {}: {why}", self.state, self.room().len())
    }
}

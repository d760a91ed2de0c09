//! Two rooms with equal bytes, one for each program, with guard bytes about them that no program may change.

use crate::random::Random;
use std::fmt::Debug;

/// How many guard bytes stand before and after a room.
const GUARD: usize = 16;

pub struct Rooms {
    archive: Vec<u8>,
    second: Vec<u8>,
}

impl Rooms {
    /// Makes rooms of `size` random bytes.
    pub fn random(random: &mut Random, size: usize) -> Rooms {
        Rooms::with_guards(random.bytes(GUARD + size + GUARD))
    }

    /// Makes rooms that hold these bytes.
    pub fn holding(random: &mut Random, bytes: &[u8]) -> Rooms {
        Rooms::with_guards([&random.bytes(GUARD), bytes, &random.bytes(GUARD)].concat())
    }

    fn with_guards(bytes: Vec<u8>) -> Rooms {
        Rooms { archive: bytes.clone(), second: bytes }
    }

    /// Returns the bytes that both rooms hold.
    pub fn bytes(&self) -> &[u8] {
        &self.archive[GUARD..self.archive.len() - GUARD]
    }

    /// Lends each program its room, and checks that the answers and every byte are equal.
    pub fn lend<T: Debug + PartialEq>(
        &mut self,
        archive: impl FnOnce(&mut [u8]) -> T,
        second: impl FnOnce(&mut [u8]) -> T,
    ) -> Result<T, String> {
        let answer = archive(within(&mut self.archive));
        let expected = second(within(&mut self.second));
        if answer != expected {
            return Err(format!("the archive gave {answer:?}, the second program {expected:?}"));
        }
        if self.archive == self.second {
            return Ok(answer);
        }
        let same = self.archive.iter().zip(&self.second).take_while(|(byte, expected)| byte == expected).count();
        Err(format!("the rooms differ, first at byte {}", same as i64 - GUARD as i64))
    }
}

fn within(room: &mut [u8]) -> &mut [u8] {
    let end = room.len() - GUARD;
    &mut room[GUARD..end]
}

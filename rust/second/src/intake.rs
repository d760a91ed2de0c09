//! Packets that arrive in several deliveries: gathered in a lent room, judged when they are complete, and then asked for their sheet.

use crate::packet_reading;
use crate::packet_to_sheet;
use crate::refusal::{Refusal, Refused};

const PASSED: u32 = 1;
const JUDGED: u32 = 2;

/// Refusals of a completion that come with a place.
const PLACED: [Refusal; 5] = [Refusal::Field, Refusal::Location, Refusal::Bits, Refusal::Padding, Refusal::Left];

/// Refusals of a completion whose place is 0.
const PLACELESS: [Refusal; 4] = [Refusal::Short, Refusal::Number, Refusal::Size, Refusal::Room];

/// State between two calls, which the caller keeps; any four numbers may be handed over.
#[derive(Clone, Copy, Debug, Default, PartialEq, Eq)]
pub struct Intake {
    pub phase: u32,
    pub length: u32,
    pub refusal: u32,
    pub place: u32,
}

/// Number and place of a refusal; a state that no call returned can have any place.
#[derive(Clone, Copy, Debug, PartialEq, Eq)]
pub struct Told {
    pub refusal: u32,
    pub place: u32,
}

/// The meaning of a state's four numbers.
enum Stage {
    /// This many bytes of a packet are in the room.
    Gathering(usize),
    /// The deliveries passed the room's end.
    Passed,
    /// A packet of this many bytes was accepted, or a packet was refused.
    Judged(Result<usize, Told>),
    /// Phase 2, with a refusal or a place that no completion gives.
    NoVerdict,
}

impl Intake {
    pub fn fresh() -> Intake {
        Intake::default()
    }

    /// Takes a delivery into the room after the bytes that are there, unless it passes the room's end. Returns the state after it.
    pub fn deliver(self, delivery: &[u8], room: &mut [u8]) -> Intake {
        if delivery.is_empty() {
            return self;
        }
        self.gathered().and_then(|begin| take(delivery, room, begin)).unwrap_or(Intake { phase: PASSED, ..Intake::fresh() })
    }

    /// Judges the bytes that were gathered and returns the state with the verdict; 8 comes before every refusal of a packet.
    pub fn complete(self, room: &[u8]) -> Intake {
        match self.gathered().and_then(|length| room.get(..length)) {
            Some(packet) => verdict(packet.len(), packet_reading::carried_in(packet).err()),
            None => verdict(0, Some(Refusal::Room.nowhere())),
        }
    }

    /// Writes the sheet of the packet that was judged, from the room `taken` that took it, and returns its length.
    pub fn sheet(self, taken: &[u8], room: &mut [u8]) -> Result<usize, Told> {
        let early = Err(told(Refusal::Early.nowhere()));
        match self.stage() {
            Stage::Judged(Ok(length)) => taken.get(..length).map_or(early, |packet| packet_to_sheet(packet, room).map_err(told)),
            Stage::Judged(Err(refused)) => Err(refused),
            Stage::Gathering(_) | Stage::Passed | Stage::NoVerdict => early,
        }
    }

    fn stage(self) -> Stage {
        match self.phase {
            PASSED => Stage::Passed,
            JUDGED => self.judged(),
            _ => Stage::Gathering(self.length as usize),
        }
    }

    /// Returns the stage of phase 2.
    fn judged(self) -> Stage {
        let Intake { length, refusal, place, .. } = self;
        let is = |given: &Refusal| *given as u32 == refusal;
        match place {
            0 if refusal == 0 => Stage::Judged(Ok(length as usize)),
            0 if PLACELESS.iter().any(is) => Stage::Judged(Err(Told { refusal, place })),
            _ if PLACED.iter().any(is) => Stage::Judged(Err(Told { refusal, place })),
            _ => Stage::NoVerdict,
        }
    }

    /// Returns how many bytes of the next packet are in the room: 0 in phase 2, nothing after the deliveries passed the room's end.
    fn gathered(self) -> Option<usize> {
        match self.stage() {
            Stage::Gathering(length) => Some(length),
            Stage::Passed => None,
            Stage::Judged(_) | Stage::NoVerdict => Some(0),
        }
    }
}

/// Copies a delivery to the byte `begin` of the room, if the room holds it and the state can count it.
fn take(delivery: &[u8], room: &mut [u8], begin: usize) -> Option<Intake> {
    let length = u32::try_from(begin + delivery.len()).ok()?;
    room.get_mut(begin..length as usize)?.copy_from_slice(delivery);
    Some(Intake { length, ..Intake::fresh() })
}

fn verdict(length: usize, refused: Option<Refused>) -> Intake {
    let Told { refusal, place } = refused.map_or(Told { refusal: 0, place: 0 }, told);
    Intake { phase: JUDGED, length: length as u32, refusal, place }
}

fn told(refused: Refused) -> Told {
    Told { refusal: refused.refusal as u32, place: refused.place as u32 }
}

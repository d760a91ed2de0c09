//! Packets that arrive in several deliveries: an intake that owns its room.
use crate::boundary::{self, State};
use crate::{answer, filled, Refused, Unit, LARGEST_JOURNEY_PACKET, LARGEST_JOURNEY_SHEET};
use alloc::{vec, vec::Vec};

/// Takes packets that arrive in several deliveries, one packet after the other. However a packet was cut, it gets the verdict and the sheet
/// that its bytes get when they are given at once.
///
/// ```
/// use seglink::{Intake, Refusal, Refused};
///
/// let sheet = [6, 0xC5, 0xC6, 4, 1, 0, 0, 7, 0, 0, 0, 0, 1, 0, 0, 0, 80, 0, 0, 0, 0, 0, 0, 0, 0];
/// let packet = seglink::packet_of(&sheet)?;
///
/// let mut intake = Intake::default(); // for any packet
/// for delivery in [&packet[..10], &[], &packet[10..]] {
///     intake.deliver(delivery);
/// }
/// assert_eq!(intake.sheet().unwrap_err().refusal, Refusal::TooEarly);
/// assert_eq!(intake.complete()?, packet);
/// assert_eq!(intake.sheet()?, sheet);
///
/// intake.deliver(&packet[..38]);
/// assert_eq!(intake.complete().unwrap_err().refusal, Refusal::PacketLength);
/// assert_eq!(intake.sheet().unwrap_err().refusal, Refusal::PacketLength);
/// # Ok::<(), Refused>(())
/// ```
///
/// With the feature `std` it is written to as well: `std::io::copy(&mut radio, &mut intake)?`. What is written is a delivery.
#[derive(Clone, Debug)]
#[must_use]
pub struct Intake {
    state: State,
    room: Vec<u8>,
}

impl Intake {
    /// Makes an intake that has taken nothing, for packets of at most `capacity` bytes:
    /// [`LARGEST_JOURNEY_PACKET`](crate::LARGEST_JOURNEY_PACKET) is enough for any packet.
    pub fn new(capacity: usize) -> Intake {
        Intake { state: boundary::intake_fresh(), room: vec![0; capacity] }
    }

    /// Takes the next bytes of a packet, if there are any; after a verdict they are the first bytes of the next packet. Nothing is judged yet.
    pub fn deliver(&mut self, delivery: &[u8]) {
        self.state = boundary::intake_deliver(self.state, delivery, &mut self.room);
    }

    /// Judges the bytes delivered since the last verdict, and returns them if they are a packet. The next packet starts afresh.
    ///
    /// # Errors
    ///
    /// Refused with [`ShortRoom`](crate::Refusal::ShortRoom), before all other refusals, if the bytes exceed the capacity; else as the packet is.
    pub fn complete(&mut self) -> Result<&[u8], Refused> {
        self.state = boundary::intake_complete(self.state, &self.room);
        let State { length, refusal, place, .. } = self.state;
        answer(refusal, place, Unit::Bit, &self.room[..length as usize])
    }

    /// Returns the sheet of the packet that was judged, until the next delivery that has bytes or the next completion.
    ///
    /// # Errors
    ///
    /// Refused as the packet was; at any other time with [`TooEarly`](crate::Refusal::TooEarly).
    pub fn sheet(&self) -> Result<Vec<u8>, Refused> {
        filled(LARGEST_JOURNEY_SHEET, |room| {
            let converted = boundary::intake_sheet(self.state, &self.room, room);
            answer(converted.refusal, converted.place, Unit::Bit, converted.length as usize)
        })
    }
}

/// An intake that has taken nothing, for any packet.
impl Default for Intake {
    fn default() -> Intake {
        Intake::new(LARGEST_JOURNEY_PACKET)
    }
}

/// Takes what is written as a delivery. All of it is taken, and nothing fails here: if the bytes exceed the capacity, [`complete`](Intake::complete)
/// refuses them.
#[cfg(feature = "std")]
impl std::io::Write for Intake {
    fn write(&mut self, delivery: &[u8]) -> std::io::Result<usize> {
        self.deliver(delivery);
        Ok(delivery.len())
    }

    fn flush(&mut self) -> std::io::Result<()> {
        Ok(())
    }
}

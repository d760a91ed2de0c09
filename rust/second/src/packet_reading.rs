//! Reading a packet: the frame, then field by field down into a segment or a journey.

use crate::bits::{bits_of, Reader};
use crate::carried::Carried;
use crate::journey::*;
use crate::refusal::{Refusal, Refused};
use crate::segment::*;

const HEADER_BYTES: usize = 15;
/// First bit after the packet number and L_PACKET_ATO.
const OPERATIONAL: usize = 24;

/// Returns the segment or journey in a packet, or the refusal that comes first in the document's order.
pub fn carried_in(packet: &[u8]) -> Result<Carried, Refused> {
    match number_of(packet)? {
        SEGMENT_NUMBER => Ok(Carried::Segment(read(packet, Fields::segment)?)),
        JOURNEY_NUMBER => Ok(Carried::Journey(read(packet, Fields::journey)?)),
        _ => Err(Refusal::Number.nowhere()),
    }
}

/// Returns the segment in a packet; refuses any other packet number than a segment's.
pub fn segment_of(packet: &[u8]) -> Result<Segment, Refused> {
    match number_of(packet)? {
        SEGMENT_NUMBER => read(packet, Fields::segment),
        _ => Err(Refusal::Number.nowhere()),
    }
}

/// Returns the journey in a packet; refuses any other packet number than a journey's.
pub fn journey_of(packet: &[u8]) -> Result<Journey, Refused> {
    match number_of(packet)? {
        JOURNEY_NUMBER => read(packet, Fields::journey),
        _ => Err(Refusal::Number.nowhere()),
    }
}

/// Returns the packet number; refuses a packet that is too short for a header.
fn number_of(packet: &[u8]) -> Result<u32, Refused> {
    if packet.len() < HEADER_BYTES {
        return Err(Refusal::Short.nowhere());
    }
    Ok(packet[0].into())
}

/// Reads the rest of the header, and the body by `rules`.
fn read<T>(packet: &[u8], rules: fn(&mut Fields, Header) -> Result<T, Refused>) -> Result<T, Refused> {
    let end = HEADER_BYTES * 8 + usize::from(u16::from_be_bytes([packet[1], packet[2]]));
    if packet.len() != end / 8 + usize::from(end % 8 > 0) {
        return Err(Refusal::Size.nowhere());
    }
    let mut bits = bits_of(packet);
    let padding = bits.split_off(end);
    let mut fields = Fields(Reader::new(bits, OPERATIONAL));
    let header = fields.header()?;
    let content = rules(&mut fields, header)?;
    if !fields.0.is_empty() {
        return Err(Refusal::Left.at(fields.0.place()));
    }
    match padding.iter().position(|bit| *bit) {
        Some(first) => Err(Refusal::Padding.at(end + first)),
        None => Ok(content),
    }
}

/// Fields of a packet, read in order, each refused at its first bit.
struct Fields(Reader);

impl Fields {
    /// Reads a field: first it must fit in the bits that are left, then its value must be allowed.
    fn judged(&mut self, width: usize, allowed: impl Fn(u32) -> bool, otherwise: Refusal) -> Result<u32, Refused> {
        let place = self.0.place();
        let value = self.0.take(width).ok_or_else(|| Refusal::Bits.at(place))?;
        if allowed(value) {
            Ok(value)
        } else {
            Err(otherwise.at(place))
        }
    }

    fn field(&mut self, width: usize, allowed: impl Fn(u32) -> bool) -> Result<u32, Refused> {
        self.judged(width, allowed, Refusal::Field)
    }

    fn up_to(&mut self, width: usize, largest: u32) -> Result<u32, Refused> {
        self.field(width, |value| value <= largest)
    }

    /// Reads a field of which every value is allowed.
    fn any(&mut self, width: usize) -> Result<u32, Refused> {
        self.field(width, |_| true)
    }

    fn header(&mut self) -> Result<Header, Refused> {
        Ok(Header {
            operational: self.field(32, is_operational)?,
            engine: self.any(24)?,
            date: self.any(15)?,
            seconds: self.up_to(17, 86_399)?,
            counter: self.any(8)?,
        })
    }

    // The fields of a structure are read in the order in which they are written here, which is the packet's.
    fn segment(&mut self, header: Header) -> Result<Segment, Refused> {
        let identity = self.identity()?;
        let length = self.field(24, |length| length > 0)?;
        Ok(Segment {
            header,
            identity,
            length,
            eoa_offset: self.any(24)?,
            utc_offset: self.up_to(7, 112)?,
            altitude: self.any(20)? as i32 - ALTITUDE_ADDED,
            elements: self.elements(length)?,
            voltages: self.voltages(length)?,
            currents: self.currents(length)?,
        })
    }

    fn identity(&mut self) -> Result<Identity, Refused> {
        Ok(Identity { country: self.any(10)?, number: self.any(32)?, version: [self.any(8)?, self.any(8)?] })
    }

    /// Reads a change's location: past the one before it, and before the segment's end.
    fn location(&mut self, before: u32, end: u32) -> Result<u32, Refused> {
        self.judged(24, |location| before < location && location < end, Refusal::Location)
    }

    fn elements(&mut self, end: u32) -> Result<Vec<Element>, Refused> {
        let mut start = 0;
        let mut elements = vec![self.element(start)?];
        for _ in 0..self.any(5)? {
            start = self.location(start, end)?;
            elements.push(self.element(start)?);
        }
        Ok(elements)
    }

    fn element(&mut self, start: u32) -> Result<Element, Refused> {
        let speed = self.speed()?;
        let front = self.any(1)? == 1;
        let count = self.any(5)?;
        let entries = (0..count).map(|_| self.entry()).collect::<Result<_, _>>()?;
        Ok(Element { start, speed, front, entries })
    }

    fn speed(&mut self) -> Result<u32, Refused> {
        Ok(self.up_to(7, 120)? * 5)
    }

    fn entry(&mut self) -> Result<Entry, Refused> {
        let class = match self.up_to(2, 2)? {
            0 => Class::Cant(CANTS[self.up_to(4, 10)? as usize]),
            1 => Class::Instead(self.up_to(4, 2)?),
            _ => Class::Lower(self.up_to(4, 2)?),
        };
        Ok(Entry { class, speed: self.speed()? })
    }

    fn voltages(&mut self, end: u32) -> Result<Vec<VoltageChange>, Refused> {
        let mut location = 0;
        let mut voltages = vec![self.voltage(location)?];
        for _ in 0..self.any(5)? {
            location = self.location(location, end)?;
            voltages.push(self.voltage(location)?);
        }
        Ok(voltages)
    }

    fn voltage(&mut self, location: u32) -> Result<VoltageChange, Refused> {
        let volts = VOLTAGES[self.up_to(4, 5)? as usize];
        let traction = self.field(10, |traction| traction == 0 || volts > 0)?;
        Ok(VoltageChange { location, volts, traction })
    }

    fn currents(&mut self, end: u32) -> Result<Vec<CurrentChange>, Refused> {
        let mut location = 0;
        let mut currents = vec![self.current(location)?];
        for _ in 0..self.any(5)? {
            location = self.location(location, end)?;
            currents.push(self.current(location)?);
        }
        Ok(currents)
    }

    fn current(&mut self, location: u32) -> Result<CurrentChange, Refused> {
        let tens = self.field(10, |tens| tens <= 1_000 || tens == NO_LIMIT)?;
        Ok(CurrentChange { location, amperes: (tens != NO_LIMIT).then_some(tens * 10) })
    }
}

impl Fields {
    fn journey(&mut self, header: Header) -> Result<Journey, Refused> {
        let status = self.up_to(3, 4)?;
        let count = self.any(8)?;
        let legs = (0..count).map(|_| self.leg()).collect::<Result<_, _>>()?;
        Ok(Journey { header, status, legs })
    }

    fn leg(&mut self) -> Result<Leg, Refused> {
        let identity = self.identity()?;
        let nominal = self.flag()?;
        let count = self.any(5)?;
        let points = (0..count).map(|_| self.timing_point()).collect::<Result<_, _>>()?;
        let count = self.any(5)?;
        let constraints = (0..count).map(|_| self.constraint()).collect::<Result<_, _>>()?;
        Ok(Leg { identity, nominal, points, constraints })
    }

    fn timing_point(&mut self) -> Result<TimingPoint, Refused> {
        let number = self.any(32)?;
        let latest_arrival = self.moment(86_400)?;
        let window = self.any(10)?;
        let alignment = self.up_to(2, 2)?;
        let kind = self.up_to(2, 2)?;
        let ends_journey = self.up_to(2, 1)? == 1;
        let daylight_saving = self.flag()?;
        let stop = match kind {
            0 => Stop::Stopping(self.halt()?),
            1 => Stop::Skipped(self.halt()?),
            _ => self.passing()?,
        };
        Ok(TimingPoint { number, latest_arrival, window, alignment, stop, ends_journey, daylight_saving })
    }

    fn halt(&mut self) -> Result<Halt, Refused> {
        Ok(Halt {
            door_side: self.any(2)?,
            centralised_opening: self.flag()?,
            relaxed_coupler: self.flag()?,
            train_hold: self.flag()?,
            departure: self.moment(86_399)?,
            dwell: self.any(10)?,
            automatic_closing: self.flag()?,
        })
    }

    fn passing(&mut self) -> Result<Stop, Refused> {
        for width in HALT_WIDTHS {
            self.zero(width as usize)?;
        }
        Ok(Stop::Passing)
    }

    fn moment(&mut self, last: u32) -> Result<Moment, Refused> {
        Ok(Moment { date: self.any(15)?, seconds: self.up_to(17, last)? })
    }

    fn constraint(&mut self) -> Result<Constraint, Refused> {
        let number = self.any(2)?;
        let range = self.range()?;
        let kind = self.constraint_type(number)?;
        // no type of two bits uses the current
        self.field(10, |tens| tens == NO_LIMIT)?;
        Ok(Constraint { kind, range })
    }

    fn range(&mut self) -> Result<Range, Refused> {
        Ok(match self.any(2)? {
            0 => {
                let start = self.any(24)?;
                self.zero(24)?;
                Range::Starts(start)
            }
            1 => {
                self.zero(24)?;
                Range::Ends(self.any(24)?)
            }
            2 => {
                let start = self.any(24)?;
                Range::Both(start, self.judged(24, |end| start < end, Refusal::Location)?)
            }
            _ => {
                self.zero(24)?;
                self.zero(24)?;
                Range::Whole
            }
        })
    }

    /// Reads the fields from Q_FRONT to Q_Low_Adhesion_Rate; a field that the type does not use must be 0.
    fn constraint_type(&mut self, number: u32) -> Result<ConstraintType, Refused> {
        let (speed, adhesion) = (number == 0, number == 1);
        let front = self.up_to(1, if speed { 1 } else { 0 })? == 1;
        let kmh = self.up_to(7, if speed { 120 } else { 0 })? * 5;
        let rate = self.up_to(3, if adhesion { 5 } else { 0 })?;
        Ok(ConstraintType::of(number, front, kmh, rate))
    }

    fn flag(&mut self) -> Result<bool, Refused> {
        Ok(self.any(1)? == 1)
    }

    /// Reads a field that is not used: it must be 0.
    fn zero(&mut self, width: usize) -> Result<(), Refused> {
        self.up_to(width, 0).map(|_| ())
    }
}

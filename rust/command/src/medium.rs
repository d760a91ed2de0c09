//! The two media, packets and sheets, and the values read from their bytes. Nothing is judged here.
use crate::field::{Field, Side};
use seglink::Refused;

/// Bits of a packet before its body.
const HEADER_BITS: usize = 120;
/// Most groups of a number that is read: what is longer fits in no 64 bits.
const MOST_GROUPS: usize = 9;

/// In what the fields are written.
#[derive(Clone, Copy, Debug, PartialEq, Eq)]
pub enum Medium {
    Packet,
    Sheet,
}

impl Medium {
    /// Returns how the medium is named in answers and by its option.
    pub fn name(self) -> &'static str {
        match self {
            Medium::Packet => "packet",
            Medium::Sheet => "sheet",
        }
    }

    /// Returns the unit of a place.
    pub fn unit(self) -> &'static str {
        match self {
            Medium::Packet => "bit",
            Medium::Sheet => "byte",
        }
    }

    /// Returns what the table says of a field in this medium.
    pub fn side(self, field: &Field) -> &Side {
        match self {
            Medium::Packet => &field.packet,
            Medium::Sheet => &field.sheet,
        }
    }

    /// Asks the archive for the other medium's bytes: a packet's sheet, or a sheet's packet.
    pub fn other(self, bytes: &[u8]) -> Result<Vec<u8>, Refused> {
        match self {
            Medium::Packet => seglink::sheet_of(bytes),
            Medium::Sheet => seglink::packet_of(bytes),
        }
    }

    /// Returns how many bits or bytes there are to read: of a packet the header and L_PACKET_ATO bits, if the bytes are there.
    pub fn end(self, bytes: &[u8]) -> usize {
        match (self, bytes) {
            (Medium::Packet, [_, high, low, ..]) => {
                (HEADER_BITS + usize::from(*high) * 256 + usize::from(*low)).min(bytes.len() * 8)
            }
            (Medium::Packet, _) => bytes.len() * 8,
            (Medium::Sheet, _) => bytes.len(),
        }
    }

    /// Reads the value at a place and returns it with its size in bits or bytes; none where it does not end before the end.
    pub fn read(self, bytes: &[u8], at: usize, field: &Field) -> Option<(u64, usize)> {
        match self {
            Medium::Packet => {
                let width = field.width as usize;
                (at + width <= self.end(bytes)).then(|| (bits(bytes, at, width), width))
            }
            Medium::Sheet => number(&bytes[at..]),
        }
    }
}

/// Returns the value of at most 32 bits, the most significant first: of the bytes that hold them, without the bits before and after.
fn bits(bytes: &[u8], at: usize, width: usize) -> u64 {
    let end = at + width;
    let held = bytes[at / 8..(end + 7) / 8].iter().fold(0, |held, byte| held << 8 | u64::from(*byte));
    held >> ((8 - end % 8) % 8) & ((1 << width) - 1)
}

/// Returns the number at the start of bytes, in groups of seven bits, the lowest first, and how many bytes it has.
fn number(bytes: &[u8]) -> Option<(u64, usize)> {
    let groups = 1 + bytes.iter().take(MOST_GROUPS).position(|byte| *byte < 0x80)?;
    let value = bytes[..groups].iter().rev().fold(0, |value, byte| value << 7 | u64::from(byte & 0x7F));
    Some((value, groups))
}

/// Writes a number in its shortest form, in groups of seven bits, the lowest first.
pub fn put_number(sheet: &mut Vec<u8>, number: u64) {
    let mut left = number;
    while left > 0x7F {
        sheet.push(left as u8 | 0x80);
        left >>= 7;
    }
    sheet.push(left as u8);
}

/// Returns the numbers that stand one after the other in bytes; none where the last one does not end.
pub fn numbers_of(bytes: &[u8]) -> Option<Vec<u64>> {
    let (mut numbers, mut left) = (Vec::new(), bytes);
    while !left.is_empty() {
        let (value, groups) = number(left)?;
        numbers.push(value);
        left = &left[groups..];
    }
    Some(numbers)
}

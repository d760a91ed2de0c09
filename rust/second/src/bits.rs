//! Bits as a growing list of truth values, the top bit of each byte first.

/// Returns the bits of bytes.
pub fn bits_of(bytes: &[u8]) -> Vec<bool> {
    let mut bits = Vec::new();
    for byte in bytes {
        push(&mut bits, 8, u32::from(*byte));
    }
    bits
}

/// Returns the bytes of bits; zero bits fill the last byte.
pub fn bytes_of(bits: &[bool]) -> Vec<u8> {
    bits.chunks(8).map(byte_of).collect()
}

fn byte_of(chunk: &[bool]) -> u8 {
    let mut byte = 0;
    for (place, bit) in chunk.iter().enumerate() {
        if *bit {
            byte += 128 >> place;
        }
    }
    byte
}

/// Adds a field, most significant bit first.
pub fn push(bits: &mut Vec<bool>, width: u32, value: u32) {
    for place in (0..width).rev() {
        bits.push(value >> place & 1 == 1);
    }
}

/// Bits that are read in order, field by field.
pub struct Reader {
    bits: Vec<bool>,
    at: usize,
}

impl Reader {
    /// Makes a reader of the bits from `at` on.
    pub fn new(bits: Vec<bool>, at: usize) -> Reader {
        Reader { bits, at }
    }

    /// Returns the first bit that is not yet read.
    pub fn place(&self) -> usize {
        self.at
    }

    /// Reads the next field, or nothing if it does not fit in the bits that are left.
    pub fn take(&mut self, width: usize) -> Option<u32> {
        let field = self.bits.get(self.at..self.at + width)?;
        self.at += width;
        Some(field.iter().fold(0, |value, bit| value * 2 + u32::from(*bit)))
    }

    pub fn is_empty(&self) -> bool {
        self.at == self.bits.len()
    }
}

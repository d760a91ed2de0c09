//! A sheet's numbers: groups of seven bits, lowest group first; only the shortest form is allowed.

/// A sheet whose numbers are read in order.
pub struct Numbers<'a> {
    sheet: &'a [u8],
    at: usize,
}

impl<'a> Numbers<'a> {
    pub fn new(sheet: &'a [u8]) -> Numbers<'a> {
        Numbers { sheet, at: 0 }
    }

    /// Returns the first byte that is not yet read.
    pub fn place(&self) -> usize {
        self.at
    }

    /// Reads the next number, or nothing if it is not there or not well formed.
    pub fn take(&mut self) -> Option<u32> {
        let left = &self.sheet[self.at..];
        let groups = 1 + left.iter().position(|byte| *byte < 128)?;
        self.at += groups;
        number_of(&left[..groups])
    }

    pub fn is_empty(&self) -> bool {
        self.at == self.sheet.len()
    }
}

/// Returns the number that groups spell, if they are its shortest form and it is below 4,294,967,296.
fn number_of(groups: &[u8]) -> Option<u32> {
    if groups.len() > 5 || (groups.len() > 1 && groups.ends_with(&[0])) {
        return None;
    }
    let number = groups.iter().rev().fold(0u64, |number, group| number * 128 + u64::from(group % 128));
    u32::try_from(number).ok()
}

/// Adds a number in its shortest form.
pub fn push(sheet: &mut Vec<u8>, number: u32) {
    if number < 128 {
        sheet.push(number as u8);
    } else {
        sheet.push((number % 128) as u8 + 128);
        push(sheet, number / 128);
    }
}

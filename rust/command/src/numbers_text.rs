//! `.numbers` text: the numbers of a sheet, one at the start of each line, then what it is. Empty lines and lines that start with `#` say nothing.
use crate::medium::{put_number, Medium};
use crate::walk::Walk;

/// How the first line says of what the numbers are.
const HEADS: [(Medium, &str); 2] =
    [(Medium::Packet, "# seglink numbers of a packet"), (Medium::Sheet, "# seglink numbers of a sheet")];
const HEAD_ENDS: &str = ": a number starts each line, then its field and what it says. 'seglink pack' makes the bytes again.";

/// Where a line has its field's name, and where what the number says: the same in every text, so that texts can be compared.
const NAME_COLUMN: usize = 12;
const MEANING_COLUMN: usize = 43;
/// As many blanks as a column is wide.
const BLANKS: &str = "                                           ";

/// A line that has a number.
pub struct Line {
    /// Counted from 1.
    pub nth: usize,
    /// The number's first byte in the sheet.
    pub byte: usize,
}

impl Line {
    /// Returns the line of the text.
    pub fn of<'a>(&self, text: &'a str) -> &'a str {
        text.lines().nth(self.nth - 1).unwrap_or("").trim()
    }
}

/// What a text says.
pub struct Numbers {
    /// Of what the numbers are, if the first line says so.
    pub of: Option<Medium>,
    /// The sheet of the numbers.
    pub sheet: Vec<u8>,
    pub lines: Vec<Line>,
}

/// Reads a text, or returns what is wrong with it. A number is decimal, or hexadecimal after `0x`; any number of 64 bits is put into the sheet.
pub fn read(text: &str) -> Result<Numbers, String> {
    let head = text.lines().next().unwrap_or("");
    let of = HEADS.iter().find(|(_, words)| head.starts_with(words)).map(|(medium, _)| *medium);
    let mut numbers = Numbers { of, sheet: Vec::new(), lines: Vec::new() };
    for (before, line) in text.lines().enumerate() {
        let first = line.split_ascii_whitespace().next().unwrap_or("#");
        if !first.starts_with('#') {
            let number = number(first).ok_or_else(|| format!("line {} starts with no number: {line}", before + 1))?;
            numbers.lines.push(Line { nth: before + 1, byte: numbers.sheet.len() });
            put_number(&mut numbers.sheet, number);
        }
    }
    Ok(numbers)
}

/// Reads a number. A decimal number with a 0 before it is none, since other programs take it as octal.
fn number(word: &str) -> Option<u64> {
    let digits = word.strip_prefix("0x").unwrap_or(word);
    let base = if digits.len() < word.len() { 16 } else { 10 };
    let plain = digits.bytes().all(|digit| char::from(digit).is_digit(base));
    let octal = base == 10 && digits.len() > 1 && digits.starts_with('0');
    u64::from_str_radix(digits, base).ok().filter(|_| plain && !octal)
}

/// Writes the numbers of an accepted sheet, with the names of their fields.
pub fn write(of: Medium, walk: &Walk) -> String {
    let head = HEADS.iter().find(|(medium, _)| *medium == of).expect("each medium has its head").1;
    let mut text = format!("{head}{HEAD_ENDS}\n");
    for found in &walk.found {
        let number = found.value().and_then(|value| u32::try_from(value).ok()).unwrap_or(0);
        let (start, meaning) = (text.len(), found.meaning(number));
        text += &found.field.written(number);
        blanks(&mut text, start + NAME_COLUMN);
        found.put_path(&mut text);
        if !meaning.is_empty() {
            blanks(&mut text, start + MEANING_COLUMN);
            text += &meaning;
        }
        text += "\n";
    }
    text
}

/// Writes blanks up to a place of the text, at least one.
fn blanks(text: &mut String, to: usize) {
    let count = to.saturating_sub(text.len()).clamp(1, BLANKS.len());
    *text += &BLANKS[..count];
}

#[cfg(test)]
mod tests {
    use super::{number, read};

    #[test]
    fn a_number_is_decimal_or_hexadecimal() {
        for (word, value) in [("0", 0), ("300", 300), ("0x00012345", 0x12345), ("0xfF", 255), ("18446744073709551615", u64::MAX)]
        {
            assert_eq!(number(word), Some(value));
        }
        for word in ["", "-1", "+1", "010", "0x", "0x+1", "1a", "18446744073709551616", "60,"] {
            assert_eq!(number(word), None, "{word}");
        }
    }

    #[test]
    fn lines_know_their_bytes() {
        let numbers = read("# a comment\n\n  300 first\n7\n").unwrap_or_else(|why| panic!("{why}"));
        assert_eq!(numbers.sheet, [0xAC, 2, 7]);
        assert!(numbers.of.is_none());
        let lines: Vec<_> = numbers.lines.iter().map(|line| (line.nth, line.byte)).collect();
        assert_eq!(lines, [(3, 0), (4, 2)]);
        assert!(read("6\nsix").is_err());
    }
}

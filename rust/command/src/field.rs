//! A field: its name, its width, its unit and what is allowed, in a packet and in a sheet.
use std::fmt;

/// A field of packets and sheets, as the documents name it.
pub struct Field {
    pub name: &'static str,
    /// Bits in a packet.
    pub width: u32,
    pub packet: Side,
    pub sheet: Side,
    /// What is asked beside the range or set; empty where nothing is.
    pub rule: &'static str,
    /// The field before it, and the values of that one, with which it is used; none where it is always used.
    pub used: Option<(&'static str, &'static [u64])>,
    /// What a sheet's number says.
    pub words: Words,
}

/// A field in one medium.
#[derive(Clone, Copy)]
pub struct Side {
    /// Unit of the value; empty where there is none.
    pub unit: &'static str,
    pub allowed: Allowed,
}

/// The values that a field may have, whatever the other fields are.
#[derive(Clone, Copy)]
pub enum Allowed {
    From(u32, u32),
    /// A range, or one value more.
    FromOr(u32, u32, u32),
    OneOf(&'static [u32]),
}

impl fmt::Display for Allowed {
    fn fmt(&self, f: &mut fmt::Formatter) -> fmt::Result {
        match self {
            Allowed::From(least, greatest) => write!(f, "{least} to {greatest}"),
            Allowed::FromOr(least, greatest, other) => write!(f, "{least} to {greatest} or {other}"),
            Allowed::OneOf(values) => {
                let (last, before) = values.split_last().expect("a set has values");
                before.iter().enumerate().try_for_each(|(nth, value)| write!(f, "{}{value}", if nth > 0 { ", " } else { "" }))?;
                write!(f, "{}{last}", if before.is_empty() { "" } else { " or " })
            }
        }
    }
}

/// What the number of a sheet says, beside itself.
pub enum Words {
    /// Nothing more.
    None,
    /// A count of its unit.
    Unit,
    /// A word for each number from 0 on.
    Named(&'static [&'static str]),
    /// Eight hexadecimal digits.
    Digits,
    /// Days since 2010-01-01.
    Date,
    /// Seconds of the day.
    Time,
    /// Volts, or 0 for none.
    Volts,
    /// 0 for no limit, else amperes + 1.
    Current,
    /// Centimetres + 100,000.
    Altitude,
}

impl Field {
    /// Says what a sheet's number means; empty where the number says all.
    pub fn meaning(&self, number: u32) -> String {
        match self.words {
            Words::None => String::new(),
            Words::Unit => format!("{number} {}", self.sheet.unit),
            Words::Named(words) => words.get(number as usize).map_or(String::new(), |word| word.to_string()),
            Words::Digits => format!("digits {number:08X}"),
            Words::Date => date(number),
            Words::Time => format!("{:02}:{:02}:{:02}", number / 3_600, number / 60 % 60, number % 60),
            Words::Volts if number == 0 => "no voltage".into(),
            Words::Volts => format!("{number} V"),
            Words::Current => number.checked_sub(1).map_or("no limit".into(), |amperes| format!("{amperes} A")),
            Words::Altitude => format!("{} cm", i64::from(number) - 100_000),
        }
    }

    /// Writes a sheet's number as `.numbers` text has it: digits that are read as digits stay so.
    pub fn written(&self, number: u32) -> String {
        match self.words {
            Words::Digits => format!("{number:#010X}").replace("0X", "0x"),
            _ => number.to_string(),
        }
    }
}

/// Returns the calendar date of a count of days since 2010-01-01.
fn date(days: u32) -> String {
    let leap = |year: u32| year % 4 == 0 && (year % 100 != 0 || year % 400 == 0);
    let (mut year, mut left) = (2010, days);
    while left >= 365 + u32::from(leap(year)) {
        left -= 365 + u32::from(leap(year));
        year += 1;
    }
    let mut month = 0;
    let lengths = [31, 28 + u32::from(leap(year)), 31, 30, 31, 30, 31, 31, 30, 31, 30, 31];
    while left >= lengths[month] {
        left -= lengths[month];
        month += 1;
    }
    format!("{year}-{:02}-{:02}", month + 1, left + 1)
}

#[cfg(test)]
mod tests {
    use super::date;

    #[test]
    fn a_date_is_a_count_of_days() {
        // the first and the last date are document 002's
        for (days, words) in [(0, "2010-01-01"), (789, "2012-02-29"), (790, "2012-03-01"), (32_767, "2099-09-18")] {
            assert_eq!(date(days), words);
        }
    }
}

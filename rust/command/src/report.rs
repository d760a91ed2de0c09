//! What is said of a refused packet or sheet: the archive's refusal and place, the field that starts there, those before it, and the bytes.
use crate::input::Input;
use crate::json::Json;
use crate::medium::Medium;
use crate::numbers_text::Line;
use crate::told::Told;
use crate::walk::{Found, Walk};

/// How many fields before the place are shown.
const SHOWN: usize = 3;
/// Bytes of a line of the dump.
const ROW: usize = 16;

/// A refusal of the archive, and what the walk finds at its place.
pub struct Report<'a> {
    input: &'a Input,
    told: Told,
    walk: Walk<'a>,
    /// Which field of the walk starts at the place.
    at: Option<usize>,
}

impl<'a> Report<'a> {
    /// Walks over a refused input and looks for the field at the refusal's place.
    pub fn new(input: &'a Input, told: Told) -> Report<'a> {
        let walk = Walk::over(input.medium, &input.bytes);
        let at = told.place.and_then(|place| walk.at(place));
        Report { input, told, walk, at }
    }

    /// Returns the field at the place.
    fn field(&self) -> Option<&Found> {
        self.at.map(|at| &self.walk.found[at])
    }

    /// Returns the fields before the place; of a refusal of the packet number or length, the fields that say them.
    fn before(&self) -> &[Found] {
        let found = &self.walk.found;
        match self.told.place {
            Some(_) => {
                let whole = found.iter().filter(|found| found.read.is_some()).count();
                let end = self.at.unwrap_or(whole);
                &found[end.saturating_sub(SHOWN)..end]
            }
            None if self.input.medium == Medium::Packet => &found[..found.len().min(2)],
            None => &[],
        }
    }

    /// Returns the fields further back on which the field at the place depends: the counts of the lists in which it stands, and the fields that its
    /// rule names, the nearest of each name in its list or in none.
    fn deciding(&self) -> Vec<&Found> {
        let (at, found) = match (self.at, self.field()) {
            (Some(at), Some(found)) => (at, found),
            _ => return Vec::new(),
        };
        let mut named = Vec::new();
        let mut deciding: Vec<&Found> = self.walk.found[..at]
            .iter()
            .rev()
            .filter(|before| {
                let nearest = found.rule_names(before) && !named.contains(&before.field.name);
                if nearest {
                    named.push(before.field.name);
                }
                nearest || found.is_counted_by(before)
            })
            .collect();
        deciding.retain(|one| !self.before().iter().any(|shown| shown.place == one.place));
        deciding.reverse();
        deciding
    }

    /// Returns what is wrong between the archive's place and the command's names; nothing where they agree.
    fn disagreement(&self) -> Option<String> {
        let (place, unit) = (self.told.place?, self.input.medium.unit());
        let agrees = match (self.told.number, self.field()) {
            (4 | 5, field) => field.map_or(false, |found| found.read.is_some()),
            (6, field) => field.map_or(false, |found| found.read.is_none()),
            // a number's first byte, or the first byte that is left
            (9, field) => field.is_some() || place == self.walk.end,
            _ => true,
        };
        (!agrees).then(|| format!("the command's names and the archive disagree about {unit} {place}: please report this"))
    }

    /// Returns the line of `.numbers` text at the place.
    fn line(&self) -> Option<&Line> {
        let place = self.told.place?;
        self.input.lines.iter().find(|line| line.byte == place)
    }

    /// Returns the members of the JSON answer.
    pub fn json(&self) -> Vec<(&'static str, Json)> {
        let medium = self.input.medium;
        let mut members = self.told.json();
        members.extend([
            ("field", Json::of(self.field(), |found| field_json(medium, found))),
            ("before", Json::List(self.before().iter().map(|found| field_json(medium, found)).collect())),
            ("deciding", Json::List(self.deciding().into_iter().map(|found| field_json(medium, found)).collect())),
            ("line", Json::of(self.line(), |line| Json::number(line.nth as u64))),
            ("disagreement", Json::of(self.disagreement(), Json::text)),
        ]);
        members
    }

    /// Returns the text of the answer.
    pub fn text(&self) -> String {
        let Input { name, medium, bytes, guessed, .. } = self.input;
        let guess = if *guessed { " (--sheet takes it as a sheet)" } else { "" };
        let guess = if *medium == Medium::Packet { guess } else { "" };
        let mut text = format!("{name}: a {} of {} bytes, refused{guess}\n", medium.name(), bytes.len());
        text += &format!("{}\n", self.told);
        if let Some(line) = self.line() {
            text += &format!("line {}: {}\n", line.nth, line.of(&self.input.text));
        }
        text += &self.field_text();
        if !self.before().is_empty() {
            text += if self.told.place.is_some() { "\nBefore it:\n" } else { "\nIts start:\n" };
            text += &lines(*medium, self.before().iter());
        }
        if !self.deciding().is_empty() {
            text += "\nFurther back, what it depends on:\n";
            text += &lines(*medium, self.deciding().into_iter());
        }
        if let Some(place) = self.told.place.filter(|_| !bytes.is_empty()) {
            text += &self.dump(place);
        }
        text
    }

    /// Returns what is said of the field at the place.
    fn field_text(&self) -> String {
        let mut text = String::from("\n");
        if let Some(found) = self.field() {
            let side = self.input.medium.side(found.field);
            let rule = if found.field.rule.is_empty() { String::new() } else { format!("; {}", found.field.rule) };
            text += &format!("field    {}\nvalue    {}\nallowed  {}{rule}\n", found.path(), self.value(found), side.allowed);
        } else if let (Some(place), Some(last)) =
            (self.told.place.filter(|place| *place >= self.walk.end), self.walk.found.last())
        {
            text += &format!("{} {place} is after the last field, {}\n", self.input.medium.unit(), last.path());
        }
        if let Some(disagreement) = self.disagreement() {
            text += &format!("{disagreement}\n");
        }
        if text.len() > 1 {
            text
        } else {
            String::new()
        }
    }

    /// Says a field's value, or why it has none.
    fn value(&self, found: &Found) -> String {
        let Input { medium, bytes, .. } = self.input;
        match found.value() {
            Some(value) => with_unit(value, medium.side(found.field).unit),
            None => {
                let (needed, left) = (found.field.width, medium.end(bytes) - found.place);
                match medium {
                    Medium::Packet => format!("none: it has {needed} bits, and {left} are left"),
                    Medium::Sheet => format!("none: {left} bytes are left, and no number ends there"),
                }
            }
        }
    }

    /// Returns the lines of bytes about a place, with a mark below the bytes of its field.
    fn dump(&self, place: usize) -> String {
        let (each, bytes) = (if self.input.medium == Medium::Packet { 8 } else { 1 }, &self.input.bytes);
        let size = self.field().and_then(|found| found.read).map_or(1, |(_, size)| size);
        let (first, last) = (place / each, (place + size - 1) / each);
        let rows = (first / ROW).saturating_sub(1)..(last / ROW + 2).min((bytes.len().max(first + 1) + ROW - 1) / ROW);
        let mut text = String::from("\nThe bytes:\n");
        for row in rows {
            let shown = &bytes[(row * ROW).min(bytes.len())..(row * ROW + ROW).min(bytes.len())];
            let line = shown.iter().fold(format!("{:>7} ", row * ROW), |line, byte| format!("{line} {byte:02X}"));
            text += &format!("{}\n", line.trim_end());
            if (first / ROW..=last / ROW).contains(&row) {
                let marks = (row * ROW..=last.min(row * ROW + ROW - 1)).map(|byte| if byte < first { "   " } else { " ^^" });
                text += &format!("{:8}{}\n", "", marks.collect::<String>());
            }
        }
        text
    }
}

/// Says a value with its unit, if it has one.
fn with_unit(value: u64, unit: &str) -> String {
    if unit.is_empty() {
        value.to_string()
    } else {
        format!("{value} ({unit})")
    }
}

/// Returns a line for each field: its place, its path and its value.
fn lines<'a>(medium: Medium, fields: impl Iterator<Item = &'a Found> + Clone) -> String {
    let width = fields.clone().map(|found| found.path().len()).max().unwrap_or(0);
    let places = fields.clone().map(|found| found.place.to_string().len()).max().unwrap_or(0);
    let value = |found: &Found| found.value().map_or("none".into(), |value| with_unit(value, medium.side(found.field).unit));
    let line =
        |found: &Found| format!("  {} {:>places$}  {:width$}  {}\n", medium.unit(), found.place, found.path(), value(found));
    fields.map(line).collect()
}

/// Returns a field with its value, unit and allowed values.
fn field_json(medium: Medium, found: &Found) -> Json {
    let side = medium.side(found.field);
    Json::Object(vec![
        ("path", Json::text(found.path())),
        ("name", Json::text(found.field.name)),
        ("place", Json::number(found.place as u64)),
        ("value", Json::of(found.value(), Json::number)),
        ("unit", Json::text(side.unit)),
        ("allowed", Json::text(side.allowed.to_string())),
        ("rule", Json::text(found.field.rule)),
    ])
}

#[cfg(test)]
mod tests {
    use super::{Input, Medium, Report, Told};

    /// The build definition's sample sheet.
    const SHEET: [u8; 25] = [6, 0xC5, 0xC6, 4, 1, 0, 0, 7, 0, 0, 0, 0, 1, 0, 0, 0, 80, 0, 0, 0, 0, 0, 0, 0, 0];

    /// Returns whether the names agree with a refusal of the sample at a place.
    fn agrees(medium: Medium, bytes: &[u8], number: u32, place: usize) -> bool {
        let input = Input::of_bytes("sample", medium, bytes.to_vec());
        let told = Told { number, place: Some(place), unit: medium.unit(), ground: "a test".into() };
        let report = Report::new(&input, told);
        let said = report.text().contains("disagree about");
        assert_eq!(said, report.disagreement().is_some());
        !said
    }

    #[test]
    fn a_place_where_no_field_starts_is_told() {
        let packet = seglink::packet_of(&SHEET).unwrap();
        for (number, place, so) in
            [(4, 253, true), (4, 254, false), (5, 120, true), (5, 121, false), (4, 305, false), (13, 305, true)]
        {
            assert_eq!(agrees(Medium::Packet, &packet, number, place), so, "{number} at {place}");
        }
        for (number, place, so) in [(4, 16, true), (4, 2, false), (9, 2, false), (9, 25, true), (9, 26, false)] {
            assert_eq!(agrees(Medium::Sheet, &SHEET, number, place), so, "{number} at {place}");
        }
    }

    #[test]
    fn a_field_fits_exactly_if_it_is_not_refused_with_6() {
        let mut packet = seglink::packet_of(&SHEET).unwrap();
        assert!(!agrees(Medium::Packet, &packet, 6, 253));
        // L_PACKET_ATO ends the body before V_STATIC does
        packet[2] = 253 - 120 + 6;
        assert!(agrees(Medium::Packet, &packet, 6, 253));
        assert!(!agrees(Medium::Packet, &packet, 4, 253));
    }
}

//! Files, read and written: raw bytes, hexadecimal digits, or `.numbers` text.
use crate::arguments::Arguments;
use crate::json::Json;
use crate::medium::Medium;
use crate::numbers_text::{self, Line, Numbers};
use crate::outcome::{Failure, Outcome, Streams};
use crate::told::Told;
use std::fs;

/// The name of standard input.
const STANDARD: &str = "-";

/// A packet or a sheet that was read.
pub struct Input {
    pub name: String,
    pub medium: Medium,
    pub bytes: Vec<u8>,
    /// `.numbers` text, and its lines that have numbers; none for bytes.
    pub text: String,
    pub lines: Vec<Line>,
    /// Whether neither an option nor the name said which medium it is.
    pub guessed: bool,
}

impl Input {
    /// Reads a packet, a sheet or `.numbers` text, which is the sheet of its numbers. Options say which it is, or else the end of the name; or
    /// else it is a sheet if the archive takes it as a sheet and not as a packet.
    pub fn read(name: &str, arguments: &Arguments, streams: &mut Streams) -> Result<Input, Failure> {
        arguments.at_most_one(&["--packet", "--sheet", "--numbers"])?;
        arguments.at_most_one(&["--hex", "--numbers"])?;
        let unsaid = !["--packet", "--sheet", "--hex"].iter().any(|option| arguments.has(option));
        if arguments.has("--numbers") || unsaid && name.ends_with(".numbers") {
            return Ok(Input::numbers(name, streams)?.0);
        }
        let bytes = bytes(name, arguments, streams)?;
        let (medium, guessed) = medium(name, &bytes, arguments);
        Ok(Input { guessed, ..Input::of_bytes(name, medium, bytes) })
    }

    /// Makes an input of bytes whose medium was said.
    pub fn of_bytes(name: &str, medium: Medium, bytes: Vec<u8>) -> Input {
        Input { name: title(name), medium, bytes, text: String::new(), lines: Vec::new(), guessed: false }
    }

    /// Reads `.numbers` text, with what its first line says that the numbers are of.
    pub fn numbers(name: &str, streams: &mut Streams) -> Result<(Input, Option<Medium>), Failure> {
        let text = text(name, streams)?;
        let read = numbers_text::read(&text).map_err(|why| Failure::File(format!("{}: {why}", title(name))));
        let Numbers { of, sheet, lines } = read?;
        Ok((Input { text, lines, ..Input::of_bytes(name, Medium::Sheet, sheet) }, of))
    }

    /// Asks the archive for the other medium's bytes: whether it accepts these.
    pub fn other(&self) -> Result<Vec<u8>, Told> {
        self.medium.other(&self.bytes).map_err(|refused| Told::link(&refused))
    }

    /// Returns the members of a JSON answer about this packet or sheet, with more after them.
    pub fn json(&self, more: Vec<(&'static str, Json)>) -> Vec<(&'static str, Json)> {
        let medium = Json::text(self.medium.name());
        let mut members =
            vec![("file", Json::text(&self.name)), ("medium", medium), ("bytes", Json::number(self.bytes.len() as u64))];
        members.extend(more);
        members
    }

    /// Reads bytes that the verb takes as one medium.
    pub fn of(medium: Medium, name: &str, arguments: &Arguments, streams: &mut Streams) -> Result<Input, Failure> {
        Ok(Input::of_bytes(name, medium, bytes(name, arguments, streams)?))
    }

    /// Reads a sheet: bytes, or `.numbers` text.
    pub fn sheet(name: &str, arguments: &Arguments, streams: &mut Streams) -> Result<Input, Failure> {
        if arguments.has("--numbers") || !arguments.has("--hex") && name.ends_with(".numbers") {
            return Input::read(name, arguments, streams);
        }
        Input::of(Medium::Sheet, name, arguments, streams)
    }
}

/// Says which medium bytes are, and whether that is a guess.
fn medium(name: &str, bytes: &[u8], arguments: &Arguments) -> (Medium, bool) {
    match (arguments.has("--packet"), arguments.has("--sheet")) {
        (true, _) => (Medium::Packet, false),
        (_, true) => (Medium::Sheet, false),
        _ if name.ends_with(".packet") => (Medium::Packet, false),
        _ if name.ends_with(".sheet") => (Medium::Sheet, false),
        _ if Medium::Packet.other(bytes).is_err() && Medium::Sheet.other(bytes).is_ok() => (Medium::Sheet, true),
        _ => (Medium::Packet, true),
    }
}

/// Reads bytes: as they are, or as hexadecimal digits with `--hex`.
pub fn bytes(name: &str, arguments: &Arguments, streams: &mut Streams) -> Result<Vec<u8>, Failure> {
    if !arguments.has("--hex") {
        return raw(name, streams);
    }
    let text = text(name, streams)?;
    let digits: Option<Vec<u8>> =
        text.chars().filter(|one| !one.is_whitespace()).map(|one| one.to_digit(16).map(|digit| digit as u8)).collect();
    let digits = digits.filter(|digits| digits.len() % 2 == 0);
    let digits = digits.ok_or_else(|| Failure::File(format!("{} is not pairs of hexadecimal digits", title(name))))?;
    Ok(digits.chunks(2).map(|pair| pair[0] << 4 | pair[1]).collect())
}

/// Reads text.
pub fn text(name: &str, streams: &mut Streams) -> Result<String, Failure> {
    String::from_utf8(raw(name, streams)?).map_err(|_| Failure::File(format!("{} is no text", title(name))))
}

/// Reads a file, or standard input for `-`.
pub fn raw(name: &str, streams: &mut Streams) -> Result<Vec<u8>, Failure> {
    let mut bytes = Vec::new();
    let read = match name {
        STANDARD => streams.input.read_to_end(&mut bytes).map(|_| bytes),
        _ => fs::read(name),
    };
    read.map_err(|why| Failure::File(format!("{} cannot be read: {why}", title(name))))
}

/// Writes bytes to the file that `--output` names, else to the answer: as they are, or as hexadecimal digits with `--to-hex`.
pub fn write(bytes: &[u8], arguments: &Arguments, streams: &mut Streams) -> Outcome {
    if arguments.has("--to-hex") {
        return write_text(&hexadecimal(bytes), arguments, streams);
    }
    put(bytes, arguments, streams)
}

/// Writes text to the file that `--output` names, else to the answer.
pub fn write_text(text: &str, arguments: &Arguments, streams: &mut Streams) -> Outcome {
    put(text.as_bytes(), arguments, streams)
}

/// Writes bytes as they are to the file that `--output` names, else to the answer.
fn put(bytes: &[u8], arguments: &Arguments, streams: &mut Streams) -> Outcome {
    match arguments.value("--output") {
        Some(name) if name != STANDARD => {
            fs::write(name, bytes).map_err(|why| Failure::File(format!("{name} cannot be written: {why}")))
        }
        _ => streams.answer(bytes),
    }
}

/// Writes bytes as hexadecimal digits, sixteen bytes a line.
fn hexadecimal(bytes: &[u8]) -> String {
    let line = |row: &[u8]| row.iter().map(|byte| format!("{byte:02X}")).collect::<Vec<_>>().join(" ") + "\n";
    bytes.chunks(16).map(line).collect()
}

/// Returns how a file is named in an answer.
fn title(name: &str) -> String {
    if name == STANDARD { "standard input" } else { name }.into()
}

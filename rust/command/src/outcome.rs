//! How a verb ends, and the streams that it reads and writes.
use std::io::{Read, Write};

/// Why a verb did not end with success.
pub enum Failure {
    /// The archive refused, and that was said.
    Refused,
    /// The arguments make no question.
    Usage(String),
    /// A file cannot be read or written, or is no text of its form.
    File(String),
}

impl Failure {
    /// Returns the exit status.
    pub fn status(&self) -> i32 {
        match self {
            Failure::Refused => 1,
            Failure::Usage(_) => 2,
            Failure::File(_) => 3,
        }
    }
}

pub type Outcome = Result<(), Failure>;

/// What a verb reads where `-` is named, and where it writes its answer and its complaints.
pub struct Streams<'a> {
    pub input: &'a mut dyn Read,
    pub output: &'a mut dyn Write,
    pub errors: &'a mut dyn Write,
}

impl Streams<'_> {
    /// Writes bytes to the answer.
    pub fn answer(&mut self, bytes: &[u8]) -> Outcome {
        self.output.write_all(bytes).map_err(|why| Failure::File(format!("the answer cannot be written: {why}")))
    }

    /// Writes a text and ends its line.
    pub fn say(&mut self, text: impl std::fmt::Display) -> Outcome {
        self.answer(format!("{text}\n").as_bytes())
    }

    /// Writes a complaint and ends its line. Where it cannot be written, the exit status still says so.
    pub fn complain(&mut self, text: impl std::fmt::Display) {
        drop(writeln!(self.errors, "{text}"));
    }
}

//! The command `seglink`: packets and sheets explained, shown, packed and asked about. It names fields; the archive judges them and works out
//! every speed.
#![deny(unsafe_code)]

mod arguments;
mod ask;
mod board;
mod convert;
mod explain;
mod field;
mod input;
mod json;
mod medium;
mod numbers_text;
mod outcome;
mod report;
mod shelf;
mod table;
mod told;
mod verbs;
mod walk;

pub use field::{Allowed, Field, Side};
pub use medium::Medium;
pub use outcome::Streams;
pub use walk::{Found, Walk};

use arguments::Arguments;
use outcome::{Failure, Outcome};
use verbs::{help, help_of, Verb, VERBS};

/// Runs the command with its arguments, and returns the exit status: 0 accepted, 1 refused, 2 wrong use, 3 a file.
pub fn run(arguments: &[String], streams: &mut Streams) -> i32 {
    match answered(arguments, streams) {
        Ok(()) => 0,
        Err(failure) => {
            if let Failure::Usage(what) | Failure::File(what) = &failure {
                streams.complain(format!("seglink: {what}"));
            }
            failure.status()
        }
    }
}

/// Answers a verb, or what is asked of the command itself.
fn answered(arguments: &[String], streams: &mut Streams) -> Outcome {
    let words: Vec<&str> = arguments.iter().map(|word| &word[..]).collect();
    match words[..] {
        ["--help" | "-h"] => streams.answer(help().as_bytes()),
        ["--version" | "-V"] => streams.say(version()),
        ["shelf", "--help" | "-h"] => streams.answer(shelf_help().as_bytes()),
        _ => {
            let (verb, left) = verb_of(&words).ok_or_else(|| unknown(&words))?;
            let read = Arguments::read(verb, &arguments[left..])?;
            if read.has("--help") {
                return streams.answer(help_of(verb).as_bytes());
            }
            (verb.run)(&read.counted()?, streams)
        }
    }
}

/// Finds the verb that the first word names, or the first two, and how many words that are.
fn verb_of(words: &[&str]) -> Option<(&'static Verb, usize)> {
    let named = |count: usize| {
        let name = words.get(..count)?.join(" ");
        VERBS.iter().find(|verb| verb.name == name).map(|verb| (verb, count))
    };
    named(1).or_else(|| named(2))
}

/// Complains of words that name no verb.
fn unknown(words: &[&str]) -> Failure {
    let what = match words {
        [] => "a verb is missing".into(),
        ["shelf", ..] => "shelf is followed by add, remove, lookup or list".into(),
        [word, ..] => format!("there is no verb {word}"),
    };
    Failure::Usage(format!("{what}; see 'seglink --help'"))
}

/// Returns the help of all verbs of a shelf.
fn shelf_help() -> String {
    VERBS.iter().filter(|verb| verb.name.starts_with("shelf ")).map(help_of).collect::<Vec<_>>().join("\n")
}

fn version() -> String {
    format!("seglink {}, interface {}", env!("CARGO_PKG_VERSION"), seglink::version())
}

//! The verbs: what each takes, what it says of itself, and what it does. The help is written from this table.
use crate::arguments::{Arguments, Choice};
use crate::outcome::{Outcome, Streams};
use crate::{ask, board, convert, explain, shelf};

/// A verb of the command.
pub struct Verb {
    pub name: &'static str,
    pub operands: &'static str,
    /// How many operands it takes, at least and at most.
    pub count: (usize, usize),
    /// One sentence, for the list of verbs.
    pub about: &'static str,
    /// What else is to be known.
    pub more: &'static str,
    pub options: &'static [&'static [Choice]],
    pub run: fn(&Arguments, &mut Streams) -> Outcome,
}

impl Verb {
    pub fn choices(&self) -> impl Iterator<Item = &'static Choice> {
        self.options.iter().copied().chain([HELP]).flatten()
    }
}

const fn choice(name: &'static str, value: &'static str, about: &'static str) -> Choice {
    Choice { name, value, about }
}

const HELP: &[Choice] = &[choice("--help", "", "say this")];
const HEX: &[Choice] = &[choice("--hex", "", "what is read is hexadecimal digits")];
const TO_HEX: &[Choice] = &[choice("--to-hex", "", "write hexadecimal digits")];
const JSON: &[Choice] = &[choice("--json", "", "answer as JSON, a refusal too")];
const MEDIUM: &[Choice] = &[choice("--packet", "", "FILE is a packet"), choice("--sheet", "", "FILE is a sheet")];
const TEXT: &[Choice] = &[choice("--numbers", "", "FILE is .numbers text")];
const OUTPUT: &[Choice] = &[choice("--output", "FILE", "write there and not to standard output; also -o")];
const MADE: &[Choice] = &[choice("--packet", "", "make a packet"), choice("--sheet", "", "make a sheet")];
const AT: &[Choice] = &[choice("--at", "CM", "location in cm from the start of the last segment")];
const JOURNEY: &[Choice] = &[
    choice("--journey", "FILE", "answer the restricted speed on this journey, and the permitted speed beside it"),
    choice("--leg", "N", "number of the journey's segment in which the train's front is, counted from 0"),
];
const TRAIN: &[Choice] = &[
    choice("--length", "CM", "the train's length in cm, 1 to 150000"),
    choice("--cant", "MM", "its cant deficiency in mm: 80, 100, 130, 150, 165, 180, 210, 225, 245, 275 or 300"),
    choice("--maximum", "KMH", "its own top speed in km/h, 1 to 600"),
    choice("--freight-p", "", "it is freight in P position"),
    choice("--freight-g", "", "it is freight in G position"),
    choice("--passenger", "", "it is a passenger train"),
    choice("--no-category", "", "it is none of these; a train without a category must say so"),
];
const KEY: &[Choice] = &[
    choice("--nid-c", "N", "NID_C of the segment"),
    choice("--nid-sp", "N", "NID_SP of the segment"),
    choice("--major", "N", "first number of its version"),
    choice("--minor", "N", "second number of its version"),
];
const MOVE: &[Choice] =
    &[choice("--card", "N", "move this card first, counted from 0"), choice("--at", "CM", "to this location in cm")];

/// What stands for how FILE is read.
const FORMS: &str = "FILE is a packet or a sheet: raw bytes, hexadecimal digits with --hex, or .numbers text, which is the sheet of its numbers.
Without an option the end of its name says which: .packet, .sheet or .numbers. Else it is a sheet if the archive takes it as a sheet and
not as a packet. FILE - is standard input.";

pub static VERBS: &[Verb] = &[
    Verb {
        name: "explain",
        operands: "FILE",
        count: (1, 1),
        about: "says whether a packet or sheet is accepted, or why not and at which field",
        more: "A refusal comes with its place, the field that starts there, its value and what is allowed, the three fields before it (the
guilty count often stands earlier), and the bytes with a mark; of .numbers text with the line.",
        options: &[MEDIUM, TEXT, HEX, JSON],
        run: explain::explain,
    },
    Verb {
        name: "show",
        operands: "FILE",
        count: (1, 1),
        about: "shows every field of an accepted packet or sheet: place, name, value and unit",
        more: "In speed[2].D_Location, speed[0] holds from the start on and speed[2] from the second change on.",
        options: &[MEDIUM, TEXT, HEX, JSON],
        run: explain::show,
    },
    Verb {
        name: "numbers",
        operands: "FILE",
        count: (1, 1),
        about: "writes an accepted packet or sheet as .numbers text",
        more: "A line has a number of the sheet, its field and what it says. 'seglink pack' makes the same bytes of the text again.",
        options: &[MEDIUM, TEXT, HEX, OUTPUT],
        run: convert::numbers,
    },
    Verb {
        name: "pack",
        operands: "FILE",
        count: (1, 1),
        about: "makes the packet or the sheet of .numbers text",
        more: "FILE is .numbers text, - is standard input. A number stands at the start of each line, decimal or hexadecimal after 0x; what
follows it, empty lines and lines that start with # say nothing. The first line of what 'seglink numbers' wrote says whether a packet
or a sheet is made; other text makes a packet.",
        options: &[MADE, TO_HEX, OUTPUT],
        run: convert::pack,
    },
    Verb {
        name: "to-sheet",
        operands: "PACKET",
        count: (1, 1),
        about: "makes the sheet of a packet",
        more: "PACKET - is standard input.",
        options: &[HEX, TO_HEX, OUTPUT],
        run: convert::to_sheet,
    },
    Verb {
        name: "to-packet",
        operands: "SHEET",
        count: (1, 1),
        about: "makes the packet of a sheet",
        more: "SHEET is bytes, or .numbers text if its name ends so. SHEET - is standard input. Speeds are lowered to multiples of 5 km/h,
currents to multiples of 10 A.",
        options: &[TEXT, HEX, TO_HEX, OUTPUT],
        run: convert::to_packet,
    },
    Verb {
        name: "speed",
        operands: "FILE..",
        count: (1, usize::MAX),
        about: "says the permitted speed of a train on a segment, or on the last of a run; on a journey the restricted speed",
        more: "The files are 1 to 4 segments in order of travel, all packets or all sheets. Those on which the train's tail may still stand
are to be named too. The permitted speed knows nothing of a journey's speed restrictions: where there is a journey, give --journey and
--leg, which stand together. The journey is of the segments' kind, and they are its segments up to the leg.",
        options: &[AT, JOURNEY, TRAIN, MEDIUM, TEXT, HEX, JSON],
        run: ask::speed,
    },
    Verb {
        name: "steps",
        operands: "LIST FILE..",
        count: (2, usize::MAX),
        about: "checks a supplier's speed steps against a segment and a train",
        more: "A line of LIST is a start in cm and a speed in km/h. An empty line ends a list; the text after # is the name of the list below it.
The files are 1 to 4 segments in order of travel, all packets or all sheets; starts count from the start of the last.",
        options: &[TRAIN, MEDIUM, TEXT, HEX, JSON],
        run: ask::steps,
    },
    Verb {
        name: "shelf add",
        operands: "STORE SHEET..",
        count: (2, usize::MAX),
        about: "keeps sheets of segments in a store, a file that is made if it is not there",
        more: "A kept sheet of the same NID_C, NID_SP and version goes. If one sheet is refused, the store stays as it was.",
        options: &[TEXT, HEX, JSON],
        run: shelf::add,
    },
    Verb {
        name: "shelf remove",
        operands: "STORE",
        count: (1, 1),
        about: "removes the sheet of a key from a store",
        more: "",
        options: &[KEY, JSON],
        run: shelf::remove,
    },
    Verb {
        name: "shelf lookup",
        operands: "YARD [DEFAULT]",
        count: (1, 2),
        about: "writes the sheet of a key, from the yard's store or else from the default store",
        more: "",
        options: &[KEY, TO_HEX, OUTPUT],
        run: shelf::lookup,
    },
    Verb {
        name: "shelf list",
        operands: "STORE",
        count: (1, 1),
        about: "lists the keys of a store's sheets",
        more: "",
        options: &[JSON],
        run: shelf::list,
    },
    Verb {
        name: "board",
        operands: "CARDS PACKET",
        count: (2, 2),
        about: "says which of up to 64 trains on a packet's segment has the lowest permitted speed",
        more: "CARDS has seven numbers a card, in a sheet's form or as .numbers text if its name ends so: length, cant deficiency, freight P,
freight G and passenger (0 or 1), maximum, location. It is the file that the wall screen reads. It is not changed.
The command reads it itself, and has not the refusals 9 and 4 that the wall screen prints with their place: a number that does not end,
is not in its shortest form or fits no card, or a card that is not whole, is exit status 3.",
        options: &[MOVE, HEX, JSON],
        run: board::board,
    },
];

/// Returns the help of the command.
pub fn help() -> String {
    let mut text = String::from("seglink: packets and sheets of segments and journeys, explained and asked about\n\n");
    text += "Usage: seglink VERB [OPTION..] [FILE..]\n\nVerbs:\n";
    let width = VERBS.iter().map(|verb| verb.name.len()).max().unwrap_or(0);
    for verb in VERBS {
        text += &format!("  {:width$}  {}\n", verb.name, verb.about);
    }
    text += "\n'seglink VERB --help' says more of a verb; 'seglink --version' says the version, and the number of the archive's interface.\n";
    text + "Exit status: 0 accepted, 1 refused, 2 wrong use, 3 a file that cannot be read or written.\n"
}

/// Returns the help of a verb.
pub fn help_of(verb: &Verb) -> String {
    let mut text = format!("Usage: seglink {} [OPTION..] {}\n\nThe verb {}.\n", verb.name, verb.operands, verb.about);
    if !verb.more.is_empty() {
        text += &format!("{}\n", verb.more);
    }
    if verb.operands.contains("FILE") && verb.choices().any(|choice| choice.about == TEXT[0].about) {
        text += &format!("{FORMS}\n");
    }
    text += "\nOptions:\n";
    for Choice { name, value, about } in verb.choices() {
        text += &format!("  {:<16}  {about}\n", format!("{name} {value}").trim_end());
    }
    text
}

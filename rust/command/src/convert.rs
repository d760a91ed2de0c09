//! The verbs that make one form of another: numbers, pack, to-sheet and to-packet.
use crate::arguments::Arguments;
use crate::explain::{fields, sheet_of};
use crate::input::{self, Input};
use crate::medium::Medium;
use crate::numbers_text;
use crate::outcome::{Outcome, Streams};

/// Writes an accepted packet or sheet as `.numbers` text.
pub fn numbers(arguments: &Arguments, streams: &mut Streams) -> Outcome {
    let input = Input::read(&arguments.operands[0], arguments, streams)?;
    let sheet = sheet_of(&input, false, streams)?;
    let text = numbers_text::write(input.medium, &fields(&input, Medium::Sheet, &sheet, streams));
    input::write_text(&text, arguments, streams)
}

/// Makes the packet or the sheet of `.numbers` text.
pub fn pack(arguments: &Arguments, streams: &mut Streams) -> Outcome {
    arguments.at_most_one(&["--packet", "--sheet"])?;
    let (input, head) = Input::numbers(&arguments.operands[0], streams)?;
    let asked = match (arguments.has("--packet"), arguments.has("--sheet")) {
        (true, _) => Medium::Packet,
        (_, true) => Medium::Sheet,
        _ => head.unwrap_or(Medium::Packet),
    };
    converted(&input, asked, arguments, streams)
}

/// Makes the sheet of a packet.
pub fn to_sheet(arguments: &Arguments, streams: &mut Streams) -> Outcome {
    let input = Input::of(Medium::Packet, &arguments.operands[0], arguments, streams)?;
    converted(&input, Medium::Sheet, arguments, streams)
}

/// Makes the packet of a sheet.
pub fn to_packet(arguments: &Arguments, streams: &mut Streams) -> Outcome {
    let input = Input::sheet(&arguments.operands[0], arguments, streams)?;
    converted(&input, Medium::Packet, arguments, streams)
}

/// Writes an accepted packet or sheet in the medium that is asked for. The archive judges it in any case.
fn converted(input: &Input, asked: Medium, arguments: &Arguments, streams: &mut Streams) -> Outcome {
    match input.other() {
        Ok(_) if asked == input.medium => input::write(&input.bytes, arguments, streams),
        Ok(other) => input::write(&other, arguments, streams),
        Err(told) => Err(told.of_input(input, false, streams)),
    }
}

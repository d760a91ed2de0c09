//! The verbs that say what is in a packet or sheet: explain and show.
use crate::arguments::Arguments;
use crate::input::Input;
use crate::json::Json;
use crate::medium::Medium;
use crate::outcome::{Failure, Outcome, Streams};
use crate::report::Report;
use crate::walk::{Found, Walk};

/// Says whether the archive accepts a packet or sheet, or why not, and where. A refusal is the answer, and no complaint.
pub fn explain(arguments: &Arguments, streams: &mut Streams) -> Outcome {
    let input = Input::read(&arguments.operands[0], arguments, streams)?;
    let json = arguments.has("--json");
    match input.other() {
        Ok(_) if json => {
            let of = ("of", Json::text(of(&Walk::over(input.medium, &input.bytes))));
            streams.say(Json::Object(input.json(vec![("accepted", Json::Bool(true)), ("refusal", Json::number(0)), of])))
        }
        Ok(_) => streams.say(format!("{}, accepted", headline(&input, &Walk::over(input.medium, &input.bytes)))),
        Err(told) => {
            let report = Report::new(&input, told);
            match json {
                true => streams.say(Json::Object(input.json(report.json())))?,
                false => streams.say(report.text().trim_end())?,
            }
            Err(Failure::Refused)
        }
    }
}

/// Shows every field of an accepted packet or sheet.
pub fn show(arguments: &Arguments, streams: &mut Streams) -> Outcome {
    let input = Input::read(&arguments.operands[0], arguments, streams)?;
    let json = arguments.has("--json");
    let sheet = sheet_of(&input, json, streams)?;
    let numbers = fields(&input, Medium::Sheet, &sheet, streams);
    let fields = fields(&input, input.medium, &input.bytes, streams);
    let shown = shown(&fields, &numbers);
    if json {
        let shown = shown.iter().map(|(found, number)| field_json(&input, found, *number)).collect();
        let more = vec![("accepted", Json::Bool(true)), ("of", Json::text(of(&fields))), ("fields", Json::List(shown))];
        return streams.say(Json::Object(input.json(more)));
    }
    streams.say(headline(&input, &fields))?;
    streams.answer(lines(&input, &shown).as_bytes())
}

/// Asks the archive for the sheet of a packet, or whether it accepts a sheet, and returns the sheet.
pub fn sheet_of(input: &Input, json: bool, streams: &mut Streams) -> Result<Vec<u8>, Failure> {
    match input.other() {
        Ok(sheet) if input.medium == Medium::Packet => Ok(sheet),
        Ok(_) => Ok(input.bytes.clone()),
        Err(told) => Err(told.of_input(input, json, streams)),
    }
}

/// Walks over accepted bytes of an input. Where the walk does not end with them, the command says so.
pub fn fields<'a>(input: &Input, medium: Medium, bytes: &'a [u8], streams: &mut Streams) -> Walk<'a> {
    let fields = Walk::over(medium, bytes);
    if !fields.is_whole() {
        streams.complain(format!(
            "{}: the command's names and the archive disagree about the fields: please report this",
            input.name
        ));
    }
    fields
}

/// A field with its number in the sheet; none for a field that a sheet has not.
type Shown<'a> = (&'a Found, Option<u32>);

/// Puts each field beside its number in the sheet, which has the same fields in the same order.
fn shown<'a>(fields: &'a Walk, numbers: &Walk) -> Vec<Shown<'a>> {
    let mut left = numbers.found.iter().peekable();
    let number = |found: &Found| {
        let same = left.next_if(|number| number.path() == found.path())?;
        u32::try_from(same.value()?).ok()
    };
    fields.found.iter().zip(fields.found.iter().map(number)).collect()
}

/// Says what a number means; of a field that the sheet has not, what its value in the packet is.
fn meaning((found, number): &Shown) -> String {
    let value = || u32::try_from(found.value()?).ok();
    number.or_else(value).map_or(String::new(), |number| found.meaning(number))
}

/// Returns a line for each field: its place, path, value and meaning.
fn lines(input: &Input, shown: &[Shown]) -> String {
    let width = shown.iter().map(|(found, _)| found.path().len()).max().unwrap_or(0);
    let mut text = format!("{:>7}  {:width$}  {:>10}\n", input.medium.unit(), "field", "value");
    for one in shown {
        let found = one.0;
        let value = found.value().map_or("none".into(), |value| value.to_string());
        let line = format!("{:>7}  {:width$}  {value:>10}  {}", found.place, found.path(), meaning(one));
        text += line.trim_end();
        text.push('\n');
    }
    text
}

/// Returns a field with its value and its number in the sheet, as JSON.
fn field_json(input: &Input, found: &Found, number: Option<u32>) -> Json {
    Json::Object(vec![
        ("path", Json::text(found.path())),
        ("name", Json::text(found.field.name)),
        ("place", Json::number(found.place as u64)),
        ("value", Json::of(found.value(), Json::number)),
        ("unit", Json::text(input.medium.side(found.field).unit)),
        ("number", Json::of(number, Json::number)),
        ("meaning", Json::text(meaning(&(found, number)))),
    ])
}

/// Says what a packet or sheet is of.
fn of(walk: &Walk) -> &'static str {
    if walk.is_journey() {
        "journey"
    } else {
        "segment"
    }
}

fn headline(input: &Input, walk: &Walk) -> String {
    format!("{}: the {} of a {}, {} bytes", input.name, input.medium.name(), of(walk), input.bytes.len())
}

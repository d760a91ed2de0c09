//! The verbs of a shelf that is a file: the used part of a store, as the archive lays it out.
use crate::arguments::Arguments;
use crate::input::{self, Input};
use crate::json::Json;
use crate::medium::Medium;
use crate::outcome::{Failure, Outcome, Streams};
use crate::told::Told;
use crate::walk::{Found, Walk};
use seglink::{Key, Shelf};
use std::fs;
use std::io::ErrorKind;

/// Bytes that give a kept sheet's length, most significant first.
const LENGTH_BYTES: usize = 4;

/// Keeps sheets of segments in a store, which is made if there is none. Either all are kept or the file stays as it was.
pub fn add(arguments: &Arguments, streams: &mut Streams) -> Outcome {
    let (name, sheets) = arguments.operands.split_first().expect("a store and a sheet are given");
    let json = arguments.has("--json");
    let mut shelf = load(name, true)?;
    for sheet in sheets {
        let input = Input::sheet(sheet, arguments, streams)?;
        if let Err(told) = shelf.add(&input.bytes).map_err(|refused| Told::link(&refused)) {
            return Err(match told.number {
                2 | 4 | 5 | 9 => told.of_input(&input, json, streams),
                _ => told.of_question(json, streams),
            });
        }
    }
    save(name, &shelf)?;
    changed(name, &shelf, json, streams)
}

/// Removes the sheet of a key from a store.
pub fn remove(arguments: &Arguments, streams: &mut Streams) -> Outcome {
    let (name, json) = (&arguments.operands[0], arguments.has("--json"));
    let key = key(arguments)?;
    let mut shelf = load(name, false)?;
    shelf.remove(key).map_err(|refused| Told::link(&refused).of_question(json, streams))?;
    save(name, &shelf)?;
    changed(name, &shelf, json, streams)
}

/// Writes the sheet of a key: the yard's store is asked first, then the default store, if one is named.
pub fn lookup(arguments: &Arguments, streams: &mut Streams) -> Outcome {
    let key = key(arguments)?;
    let yard = load(&arguments.operands[0], false)?;
    let standard = arguments.operands.get(1).map_or(Ok(Shelf::new(0)), |name| load(name, false))?;
    match Shelf::lookup(&yard, &standard, key) {
        Ok(sheet) => input::write(sheet, arguments, streams),
        Err(refused) => Err(Told::link(&refused).of_question(false, streams)),
    }
}

/// Lists the keys of a store's sheets.
pub fn list(arguments: &Arguments, streams: &mut Streams) -> Outcome {
    let (name, json) = (&arguments.operands[0], arguments.has("--json"));
    let shelf = load(name, false)?;
    judged(&shelf).map_err(|told| told.of_question(json, streams))?;
    let kept = kept(shelf.used_part());
    if json {
        let sheets = kept.iter().map(|sheet| sheet_json(sheet)).collect();
        return streams.say(Json::Object(vec![
            ("store", Json::text(name)),
            ("used", Json::number(shelf.used() as u64)),
            ("sheets", Json::List(sheets)),
        ]));
    }
    for sheet in &kept {
        let [nid_c, nid_sp, major, minor] = key_of(sheet);
        streams.say(format!("NID_C {nid_c}, NID_SP {nid_sp}, version {major}.{minor}: {} bytes", sheet.len()))?;
    }
    changed(name, &shelf, false, streams)
}

/// Asks the archive whether a store is a shelf, by a lookup that need not find anything.
fn judged(shelf: &Shelf) -> Result<(), Told> {
    let any = Key { nid_c: 0, nid_sp: 0, major: 0, minor: 0 };
    match Shelf::lookup(shelf, &Shelf::new(0), any).map_err(|refused| Told::link(&refused)) {
        Err(told) if told.number != 17 => Err(told),
        _ => Ok(()),
    }
}

/// Reads the key that the options name.
fn key(arguments: &Arguments) -> Result<Key, Failure> {
    Ok(Key {
        nid_c: arguments.needed("--nid-c")?,
        nid_sp: arguments.needed("--nid-sp")?,
        major: arguments.needed("--major")?,
        minor: arguments.needed("--minor")?,
    })
}

/// Reads a store; one that is not there keeps nothing where that is allowed.
fn load(name: &str, may_be_new: bool) -> Result<Shelf, Failure> {
    match fs::read(name) {
        Ok(used) => Ok(Shelf::of_used_part(&used, Shelf::LARGEST_STORE)),
        Err(why) if may_be_new && why.kind() == ErrorKind::NotFound => Ok(Shelf::new(Shelf::LARGEST_STORE)),
        Err(why) => Err(Failure::File(format!("{name} cannot be read: {why}"))),
    }
}

/// Writes a store: beside the file and then over it, so that the file is whole at any time.
fn save(name: &str, shelf: &Shelf) -> Outcome {
    let beside = format!("{name}.new");
    let written = fs::write(&beside, shelf.used_part()).and_then(|()| fs::rename(&beside, name));
    written.map_err(|why| Failure::File(format!("{name} cannot be written: {why}")))
}

/// Says how full a store is.
fn changed(name: &str, shelf: &Shelf, json: bool, streams: &mut Streams) -> Outcome {
    let (sheets, used) = (kept(shelf.used_part()).len(), shelf.used());
    if !json {
        return streams.say(format!("{name}: sheets {sheets}, bytes used {used} of {}", Shelf::LARGEST_STORE));
    }
    streams.say(Json::Object(vec![
        ("accepted", Json::Bool(true)),
        ("refusal", Json::number(0)),
        ("store", Json::text(name)),
        ("sheets", Json::number(sheets as u64)),
        ("used", Json::number(used as u64)),
    ]))
}

/// Returns the sheets of a used part that the archive took as a shelf's.
fn kept(used: &[u8]) -> Vec<&[u8]> {
    let (mut sheets, mut left) = (Vec::new(), used);
    while left.len() > LENGTH_BYTES {
        let (length, after) = left.split_at(LENGTH_BYTES);
        let length = length.iter().fold(0, |length, byte| length << 8 | usize::from(*byte));
        let (sheet, rest) = after.split_at(length.min(after.len()));
        sheets.push(sheet);
        left = rest;
    }
    sheets
}

/// Reads NID_C, NID_SP and the version of a kept sheet, by their names.
fn key_of(sheet: &[u8]) -> [u64; 4] {
    let walk = Walk::over(Medium::Sheet, sheet);
    let value = |name: &str| walk.found.iter().find(|found| found.path() == name).and_then(Found::value).unwrap_or(0);
    ["NID_C", "NID_SP", "M_SP_Version.major", "M_SP_Version.minor"].map(value)
}

/// Returns the key and the size of a kept sheet, as JSON.
fn sheet_json(sheet: &[u8]) -> Json {
    let [nid_c, nid_sp, major, minor] = key_of(sheet).map(Json::number);
    let bytes = Json::number(sheet.len() as u64);
    Json::Object(vec![("nid_c", nid_c), ("nid_sp", nid_sp), ("major", major), ("minor", minor), ("bytes", bytes)])
}

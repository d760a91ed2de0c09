//! Whole packets and sheets: `numbers | pack` gives the same bytes, and each field of the walk is the draft's.

use crate::names::{allows, names};
use crate::{ran, require, Ran};
use command::{Medium, Walk};
use compare::case::any_draft;
use compare::draft::Draft;
use compare::random::Random;

/// The field that a packet alone has.
const COUNTED: &str = "L_PACKET_ATO";

/// Checks the packet of a random segment or journey.
pub fn packet(seed: u64) -> Result<(), String> {
    let draft = any_draft(&mut Random::new(seed));
    comes_back("--packet", &draft.packet())?;
    is_named(Medium::Packet, &draft.packet(), &draft)
}

/// Checks the sheet of a random segment or journey.
pub fn sheet(seed: u64) -> Result<(), String> {
    let draft = any_draft(&mut Random::new(seed));
    comes_back("--sheet", &draft.sheet())?;
    is_named(Medium::Sheet, &draft.sheet(), &draft)
}

/// Writes the numbers of bytes and packs them again.
fn comes_back(option: &str, bytes: &[u8]) -> Result<(), String> {
    let Ran { status, output: text, errors } = ran(&["numbers", option, "-"], bytes);
    require(status == 0 && errors.is_empty(), || format!("numbers {option} ended with {status}: {errors}"))?;
    let Ran { status, output: again, errors } = ran(&["pack", "-"], &text);
    require(status == 0 && errors.is_empty(), || format!("pack ended with {status}: {errors}"))?;
    require(again == bytes, || format!("numbers {option} and pack gave {} other bytes", again.len()))
}

/// Compares the fields of the walk with the draft's: name, place, width, value and range.
fn is_named(medium: Medium, bytes: &[u8], draft: &Draft) -> Result<(), String> {
    let walk = Walk::over(medium, bytes);
    require(walk.is_whole(), || format!("the walk over the {} does not end with it", medium.name()))?;
    let found: Vec<_> = walk.found.iter().filter(|found| found.field.name != COUNTED).collect();
    let begins = draft.begins();
    require(found.len() == begins.len(), || format!("{} fields, and not {}", found.len(), begins.len()))?;
    for ((found, (kind, bit, byte)), field) in found.iter().zip(begins).zip(&draft.fields) {
        let (place, value) = match medium {
            Medium::Packet => (bit, u64::from(field.value)),
            Medium::Sheet => (byte, field.number),
        };
        let same = found.place == place as usize && found.value() == Some(value) && found.field.width == field.width;
        require(same && names(kind, found.field.name), || {
            format!(
                "{} is {:?} at {} in the {}, and not a {kind:?} of {value} at {place}",
                found.path(),
                found.value(),
                found.place,
                medium.name()
            )
        })?;
        let allowed = &medium.side(found.field).allowed;
        require(allows(allowed, value), || format!("{} is {value}, and the table has {allowed}", found.path()))?;
    }
    Ok(())
}

//! Damaged packets and sheets: what `explain --json` says beside what the archive answers.

use crate::names::{allows, names};
use crate::{ran, require};
use command::{Found, Medium, Walk};
use compare::archive::Archive;
use compare::case::any_draft;
use compare::check::{LARGEST_PACKET, LARGEST_SHEET};
use compare::damage::{spoil_fields, spoil_form, spoil_packet, spoil_sheet};
use compare::draft::{Draft, Kind};
use compare::program::{Answer, Program};
use compare::random::Random;
use std::collections::BTreeMap;
use std::fmt;

/// The refusals at which a field starts.
const NAMED: [u32; 4] = [4, 5, 6, 9];
/// The refusals that have a place.
const PLACED: [u32; 6] = [4, 5, 6, 7, 9, 13];
/// What damage of each medium must meet.
const MET: [(Medium, &[u32]); 2] = [(Medium::Packet, &[1, 2, 3, 4, 5, 6, 7, 13]), (Medium::Sheet, &[2, 4, 5, 9])];
/// Kinds of fields that say what follows them.
const SHAPING: [Kind; 7] =
    [Kind::PacketNumber, Kind::Count, Kind::WireCount, Kind::SegmentCount, Kind::QDiff, Kind::ConstraintType, Kind::Range];

/// Counts of the archive's answers by medium and refusal, and of the names that a draft confirmed.
#[derive(Default)]
pub struct Tally {
    answers: BTreeMap<(&'static str, u32), u64>,
    confirmed: u64,
}

/// Damages a random packet, in its fields or its bytes, until the archive refuses it, and checks what the command says.
pub fn packet(seed: u64, tally: &mut Tally) -> Result<(), String> {
    let random = &mut Random::new(seed);
    loop {
        let draft = any_draft(random);
        let (mut spoilt, mut kept) = (draft.clone(), None);
        let mut bytes = draft.packet();
        if random.one_in(2) {
            spoil_fields(random, &mut spoilt);
            bytes = spoilt.packet();
            kept = same_shape(&draft, &spoilt);
        } else {
            spoil_packet(random, &mut bytes);
        }
        let answer = Archive::packet_to_sheet(&bytes, &mut [0; LARGEST_SHEET]);
        if answer.refusal != 0 {
            return explained(Medium::Packet, &bytes, answer, kept, tally);
        }
    }
}

/// Damages a random sheet, in its numbers, their form or its bytes, until the archive refuses it, and checks what the command says.
pub fn sheet(seed: u64, tally: &mut Tally) -> Result<(), String> {
    let random = &mut Random::new(seed);
    loop {
        let draft = any_draft(random);
        let (mut spoilt, mut kept) = (draft.clone(), None);
        let mut bytes = draft.sheet();
        if random.one_in(2) {
            spoil_fields(random, &mut spoilt);
            bytes = spoilt.sheet();
            kept = same_shape(&draft, &spoilt);
        } else if random.one_in(2) {
            spoil_form(random, &mut spoilt);
            bytes = spoilt.sheet();
        } else {
            spoil_sheet(random, &mut bytes);
        }
        let answer = Archive::sheet_to_packet(&bytes, &mut [0; LARGEST_PACKET]);
        if answer.refusal != 0 {
            return explained(Medium::Sheet, &bytes, answer, kept, tally);
        }
    }
}

/// Returns the spoilt draft if the fields that say what follows are as they were: then it has the fields of the bytes.
fn same_shape(draft: &Draft, spoilt: &Draft) -> Option<Draft> {
    let shape = |draft: &Draft| -> Vec<(u32, u64)> {
        draft.fields.iter().filter(|field| SHAPING.contains(&field.kind)).map(|field| (field.value, field.number)).collect()
    };
    (shape(draft) == shape(spoilt)).then(|| spoilt.clone())
}

/// Checks the answer of `explain --json` on refused bytes.
fn explained(medium: Medium, bytes: &[u8], answer: Answer, draft: Option<Draft>, tally: &mut Tally) -> Result<(), String> {
    let Answer { refusal, place, .. } = answer;
    *tally.answers.entry((medium.name(), refusal)).or_default() += 1;
    let option = format!("--{}", medium.name());
    let ran = ran(&["explain", "--json", &option, "-"], bytes);
    let text = String::from_utf8_lossy(&ran.output);
    let whole = || format!("{refusal} at {place}: {text}");
    let placed = if PLACED.contains(&refusal) { place.to_string() } else { "null".into() };
    require(ran.status == 1 && ran.errors.is_empty(), || format!("explain ended with {}: {}", ran.status, ran.errors))?;
    require(member(&text, 2, "refusal") == Some(&refusal.to_string()[..]), whole)?;
    require(member(&text, 2, "place") == Some(&placed[..]), whole)?;
    require(member(&text, 2, "disagreement") == Some("null"), whole)?;
    if !NAMED.contains(&refusal) {
        return Ok(());
    }
    let walk = Walk::over(medium, bytes);
    if refusal == 9 && place as usize == walk.end && walk.found.last().map_or(false, |last| last.read.is_some()) {
        // bytes are left after the last field
        return require(member(&text, 2, "field") == Some("null"), whole);
    }
    let name = member(&text, 4, "name").map(|name| name.trim_matches('"').to_string());
    require(member(&text, 4, "place") == Some(&place.to_string()[..]), whole)?;
    let found = walk.found.iter().find(|found| found.place == place as usize);
    let found = found.ok_or_else(|| format!("the walk has no field at {place}"))?;
    require(name.as_deref() == Some(found.field.name), whole)?;
    allowed(medium, refusal, found)?;
    draft.map_or(Ok(()), |draft| confirmed(medium, place, found, &draft, tally))
}

/// Checks that a field that is refused with 4 is outside its range, or has a rule of its own.
fn allowed(medium: Medium, refusal: u32, found: &Found) -> Result<(), String> {
    let inside = found.value().map_or(false, |value| allows(&medium.side(found.field).allowed, value));
    require(refusal != 4 || !inside || !found.field.rule.is_empty(), || {
        format!("{} is allowed, and refused with 4", found.path())
    })
}

/// Checks a field's name with the draft, which has a field of that kind there.
fn confirmed(medium: Medium, place: u32, found: &Found, draft: &Draft, tally: &mut Tally) -> Result<(), String> {
    let begins = draft.begins();
    let there = |(_, bit, byte): &&(Kind, u32, u32)| place == if medium == Medium::Packet { *bit } else { *byte };
    let (kind, ..) = begins.iter().find(there).ok_or_else(|| format!("the draft has no field at {place}"))?;
    tally.confirmed += 1;
    require(names(*kind, found.field.name), || format!("{} at {place} is not a {kind:?}", found.path()))
}

/// Returns the first member of a name that stands so many blanks in, without the comma after it.
fn member<'a>(text: &'a str, depth: usize, name: &str) -> Option<&'a str> {
    let start = format!("{:depth$}\"{name}\": ", "");
    text.lines().find_map(|line| line.strip_prefix(&start)).map(|value| value.trim_end_matches(','))
}

impl Tally {
    /// Returns what was never met.
    pub fn missing(&self) -> Vec<String> {
        let never = |(medium, refusal): &(Medium, u32)| !self.answers.contains_key(&(medium.name(), *refusal));
        let all = MET.iter().flat_map(|(medium, refusals)| refusals.iter().map(|refusal| (*medium, *refusal)));
        let mut missing: Vec<_> =
            all.filter(never).map(|(medium, refusal)| format!("no {} refused with {refusal}", medium.name())).collect();
        if self.confirmed == 0 {
            missing.push("no name that a draft confirmed".into());
        }
        missing
    }
}

impl fmt::Display for Tally {
    fn fmt(&self, f: &mut fmt::Formatter) -> fmt::Result {
        let counts: Vec<_> =
            self.answers.iter().map(|((medium, refusal), count)| format!("{medium} {refusal}: {count}")).collect();
        write!(f, "refused, {}; {} names confirmed by a draft", counts.join(", "), self.confirmed)
    }
}

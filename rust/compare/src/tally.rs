//! Counts how often each operation gave each refusal and each success, and at how many places, apart for journeys, for runs of segments and for
//! all else; how many speeds came from a lower cant deficiency than the train's; the answers of conversions of journeys with temporary
//! constraints; and the events of intakes, of speed questions of an unknown kind, of runs and of counts of wire changes.

use crate::event::{Event, EVENTS};
use crate::program::{
    run_refusals, Answer, Operation, Question, KIND_PACKET, KIND_SHEET, NO_REFUSAL, OPERATIONS, PLACED, UNKNOWN_KIND,
};
use std::collections::BTreeSet;
use std::fmt;

/// How many answers are counted: 0, and the refusals.
const ANSWERS: usize = NO_REFUSAL as usize;

/// Counts of the answers of one operation, about journeys, runs or all else.
#[derive(Default)]
struct Row {
    counts: [u64; ANSWERS],
    /// The places other than 0 of each refusal.
    places: [BTreeSet<u32>; ANSWERS],
    /// How many speeds of random whole segments were asked.
    whole: u64,
    /// How many of these speeds would be others without the entries of lower cant deficiencies than the train's.
    fallen: u64,
    /// How many random journeys had temporary constraints; how many were accepted, refused with 4 and refused with 5 at a constraint's field.
    constrained: u64,
    constrained_answers: [u64; 3],
}

impl Row {
    fn count(&mut self, answer: &Answer) {
        let refusal = answer.refusal as usize;
        if refusal < ANSWERS {
            self.counts[refusal] += 1;
            self.places[refusal].extend(Some(answer.place).filter(|place| *place > 0));
        }
    }
}

/// The answers about a journey with constraints that are counted.
const CONSTRAINED_ANSWERS: [u32; 3] = [0, 4, 5];

pub struct Tally {
    rows: [[Row; OPERATIONS.len()]; 2],
    /// Speed questions about runs, by kind; all unknown kinds count as one.
    runs: [Row; KINDS.len()],
    events: [u64; EVENTS.len()],
}

impl Default for Tally {
    fn default() -> Tally {
        Tally { rows: Default::default(), runs: Default::default(), events: [0; EVENTS.len()] }
    }
}

impl Tally {
    pub fn count(&mut self, question: &Question, answer: &Answer) {
        self.rows[usize::from(question.is_journey())][question.operation.row()].count(answer);
    }

    /// Counts an answer about a run of segments of a kind.
    pub fn count_run(&mut self, kind: u32, answer: &Answer) {
        self.runs[kind.min(UNKNOWN_KIND) as usize].count(answer);
    }

    /// Counts a speed of a random whole segment; `fallen` if it would be another without the entries of lower cant deficiencies than the train's.
    pub fn count_fall(&mut self, kind: u32, fallen: bool) {
        let row = &mut self.rows[0][Operation::PermittedSpeed(kind).row()];
        row.whole += 1;
        row.fallen += u64::from(fallen);
    }

    /// Counts an answer about a random journey; the fields of its constraints begin at these bits of its packet and bytes of its sheet.
    pub fn count_constraints(&mut self, operation: Operation, places: &[(u32, u32)], answer: &Answer) {
        let at = |(bit, byte): &(u32, u32)| answer.place == if operation == Operation::SheetToPacket { *byte } else { *bit };
        let row = &mut self.rows[1][operation.row()];
        row.constrained += u64::from(!places.is_empty());
        if let Some(nth) = CONSTRAINED_ANSWERS.iter().position(|refusal| *refusal == answer.refusal) {
            row.constrained_answers[nth] += u64::from(!places.is_empty() && (answer.refusal == 0 || places.iter().any(at)));
        }
    }

    /// Counts the events that happened.
    pub fn count_events(&mut self, events: &[(Event, bool)]) {
        events.iter().for_each(|(event, happened)| self.events[*event as usize] += u64::from(*happened));
    }

    /// Returns what was never met: answers that an operation can give, or their places other than 0; speeds from a lower cant deficiency; answers
    /// of conversions about a constraint; events of an intake, of a question of an unknown kind, of a run or of a count of wire changes.
    pub fn missing(&self) -> Vec<String> {
        let mut missing = Vec::new();
        for (title, row, refusals) in self.titled() {
            for refusal in refusals {
                if row.counts[*refusal as usize] == 0 {
                    missing.push(format!("{title}: never answered {refusal}"));
                } else if PLACED.contains(refusal) && row.places[*refusal as usize].is_empty() {
                    missing.push(format!("{title}: never answered {refusal} at a place other than 0"));
                }
            }
        }
        let fallen = |operation: &Operation| self.row(*operation, false).fallen > 0;
        for operation in SPEED_OPERATIONS.into_iter().filter(|operation| !fallen(operation)) {
            missing.push(format!("{operation:?}: no random speed by a lower cant deficiency than the train's"));
        }
        for operation in CONVERSIONS {
            let counts = self.row(operation, true).constrained_answers;
            let none = CONSTRAINED_ANSWERS.iter().zip(counts).filter(|(_, count)| *count == 0);
            missing.extend(none.map(|(refusal, _)| format!("{operation:?}: never answered {refusal} at a random constraint")));
        }
        let never = EVENTS.iter().filter(|(event, _)| self.events[*event as usize] == 0);
        missing.extend(never.map(|(_, words)| format!("no {words}")));
        missing
    }

    fn row(&self, operation: Operation, journey: bool) -> &Row {
        &self.rows[usize::from(journey)][operation.row()]
    }

    /// Yields each row with its title, and the answers that it must have.
    fn titled(&self) -> impl Iterator<Item = (String, &Row, &'static [u32])> {
        let of_operation = |(operation, journey): (Operation, bool)| {
            (title(operation, journey), self.row(operation, journey), operation.refusals(journey))
        };
        let of_run = |kind: u32| (title_of_run(kind), &self.runs[kind as usize], run_refusals(kind));
        rows().map(of_operation).chain(KINDS.map(of_run))
    }
}

/// The kinds by which runs are counted.
const KINDS: [u32; 3] = [KIND_PACKET, KIND_SHEET, UNKNOWN_KIND];
const CONVERSIONS: [Operation; 2] = [Operation::PacketToSheet, Operation::SheetToPacket];
const SPEED_OPERATIONS: [Operation; 2] = [Operation::PermittedSpeed(KIND_PACKET), Operation::PermittedSpeed(KIND_SHEET)];

/// Yields each operation, about a journey and about all else.
fn rows() -> impl Iterator<Item = (Operation, bool)> {
    [false, true].into_iter().flat_map(|journey| OPERATIONS.map(|operation| (operation, journey)))
}

fn title(operation: Operation, journey: bool) -> String {
    let journey = if journey { ", journey" } else { "" };
    match operation {
        Operation::PermittedSpeed(UNKNOWN_KIND) => format!("PermittedSpeed({UNKNOWN_KIND}..){journey}"),
        other => format!("{other:?}{journey}"),
    }
}

fn title_of_run(kind: u32) -> String {
    format!("PermittedSpeed({kind}{}), runs", if kind == UNKNOWN_KIND { ".." } else { "" })
}

impl fmt::Display for Tally {
    fn fmt(&self, f: &mut fmt::Formatter) -> fmt::Result {
        write!(f, "{:29}{:>9}", "answers", "accepted")?;
        (1..ANSWERS).try_for_each(|refusal| write!(f, "{refusal:>8}"))?;
        for (title, Row { counts, .. }, _) in self.titled() {
            write!(f, "\n{title:29}{:>9}", counts[0])?;
            counts[1..].iter().try_for_each(|count| write!(f, "{count:>8}"))?;
        }
        write!(f, "\n{:38}", "places other than 0")?;
        PLACED.iter().try_for_each(|refusal| write!(f, "{refusal:>8}"))?;
        for (title, Row { places, .. }, _) in self.titled() {
            write!(f, "\n{title:38}")?;
            PLACED.iter().try_for_each(|refusal| write!(f, "{:>8}", places[*refusal as usize].len()))?;
        }
        SPEED_OPERATIONS.into_iter().try_for_each(|operation| {
            let Row { whole, fallen, .. } = self.row(operation, false);
            write!(f, "\n{operation:?}: {fallen} of {whole} random speeds by a lower cant deficiency than the train's")
        })?;
        CONVERSIONS.into_iter().try_for_each(|operation| {
            let Row { constrained, constrained_answers: [accepted, field, location], .. } = self.row(operation, true);
            write!(f, "\n{operation:?}: {constrained} random journeys with temporary constraints, {accepted} accepted, ")?;
            write!(f, "{field} refused with 4 and {location} with 5 at a constraint")
        })?;
        EVENTS.iter().try_for_each(|(event, words)| write!(f, "\n{:>9} {words}", self.events[*event as usize]))
    }
}

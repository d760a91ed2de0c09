//! Answers and events of the checks of restricted speeds: each is counted, and must come.

use crate::program::{Answer, UNKNOWN_KIND};
use std::fmt;

/// The first number after the refusals.
const NO_REFUSAL: usize = 27;

/// The rows in which answers are counted, and those that each must have: 0 and the refusals of a restricted speed by kind, then the refusals of
/// journeys beside whole segments.
const ROWS: [(&str, &[u32]); 5] = [
    ("packets", &[0, 1, 2, 3, 4, 5, 6, 7, 10, 11, 13, 16, 22, 23, 24, 25, 26]),
    ("sheets", &[0, 2, 4, 5, 9, 10, 11, 12, 16, 22, 23, 24, 25, 26]),
    ("kinds from 2 on", &[15]),
    ("packets, the journey's own", &[1, 2, 3, 4, 5, 6, 7, 13]),
    ("sheets, the journey's own", &[2, 4, 5, 9, 12]),
];
const JOURNEYS: u32 = UNKNOWN_KIND + 1;

#[derive(Clone, Copy, Debug, PartialEq, Eq)]
pub enum RestrictedEvent {
    Answered,
    Unconstrained,
    NoLower,
    BelowPackets,
    BelowSheets,
    BelowOne,
    BelowTwo,
    BelowThree,
    BelowFour,
    ByEarlier,
    ByDelay,
    ByRange,
    NoMultiple,
    Standstill,
    ByMaximum,
    OtherTypes,
    OtherLegs,
    LongAtStart,
    TailBefore,
    TailJustPast,
    PastJourney,
    BeforeJourney,
    LegCut,
    OtherCountry,
    OtherNumber,
    OtherMajor,
    OtherMinor,
    Reverse,
    StartPast,
    EndPast,
    BothPast,
    EndAtZero,
    LaterFault,
    FirstFault,
    FaultAndTrain,
    OwnAndFault,
    JourneyAndLeg,
    Lowered,
    Longer,
    LongerSlower,
    OneMore,
    OneMoreSlower,
    Raised,
    RaisedFaster,
}

/// Each event with its words, in the order of the type.
pub const RESTRICTED_EVENTS: [(RestrictedEvent, &str); 44] = [
    (RestrictedEvent::Answered, "whole runs with a journey that fits: answered"),
    (RestrictedEvent::Unconstrained, "of these, asked again without constraints: the permitted speed"),
    (RestrictedEvent::NoLower, "of these, with constraints of a speed, and yet the permitted speed"),
    (RestrictedEvent::BelowPackets, "of these, below the permitted speed, from packets"),
    (RestrictedEvent::BelowSheets, "of these, below the permitted speed, from sheets"),
    (RestrictedEvent::BelowOne, "below the permitted speed on a run of one"),
    (RestrictedEvent::BelowTwo, "below the permitted speed on a run of two"),
    (RestrictedEvent::BelowThree, "below the permitted speed on a run of three"),
    (RestrictedEvent::BelowFour, "below the permitted speed on a run of four"),
    (RestrictedEvent::ByEarlier, "below it by a constraint of a segment before the last"),
    (RestrictedEvent::ByDelay, "below it by a constraint whose end the train's front has passed"),
    (RestrictedEvent::ByRange, "below it, and not below it a centimetre further on"),
    (RestrictedEvent::NoMultiple, "below it, and no multiple of 5, from sheets"),
    (RestrictedEvent::Standstill, "below it, and 0"),
    (RestrictedEvent::ByMaximum, "the train's maximum, below constraints that hold"),
    (RestrictedEvent::OtherTypes, "answered beside constraints of other types in the run"),
    (RestrictedEvent::OtherLegs, "answered above a constraint of another segment of the journey"),
    (RestrictedEvent::LongAtStart, "answered at leg 0 for a train whose tail is before the journey"),
    (RestrictedEvent::TailBefore, "trains whose tail is before the run: 26"),
    (RestrictedEvent::TailJustPast, "trains whose tail is at the run's start: answered"),
    (RestrictedEvent::PastJourney, "legs past the journey: 22"),
    (RestrictedEvent::BeforeJourney, "runs that would begin before the journey: 22"),
    (RestrictedEvent::LegCut, "legs whose low bits are those of the right one: 22"),
    (RestrictedEvent::OtherCountry, "another NID_C: 23"),
    (RestrictedEvent::OtherNumber, "another NID_SP: 23"),
    (RestrictedEvent::OtherMajor, "another major version: 23"),
    (RestrictedEvent::OtherMinor, "another minor version: 23"),
    (RestrictedEvent::Reverse, "segments in reverse: 24"),
    (RestrictedEvent::StartPast, "starts at or past L_SP: 25"),
    (RestrictedEvent::EndPast, "ends past L_SP: 25"),
    (RestrictedEvent::BothPast, "starts with ends past L_SP: 25"),
    (RestrictedEvent::EndAtZero, "ends at 0: 25"),
    (RestrictedEvent::LaterFault, "faults in a segment after the first of the run"),
    (RestrictedEvent::FirstFault, "two different faults: the one that is judged first"),
    (RestrictedEvent::FaultAndTrain, "faults beside a train that is not allowed: before 10"),
    (RestrictedEvent::OwnAndFault, "refused segments beside a journey with a fault: the segment's own"),
    (RestrictedEvent::JourneyAndLeg, "refused journeys beside a leg that is none: the journey's own"),
    (RestrictedEvent::Lowered, "speeds from packets below those from their sheets"),
    (RestrictedEvent::Longer, "pairs with a longer train, both answered"),
    (RestrictedEvent::LongerSlower, "of these, slower"),
    (RestrictedEvent::OneMore, "pairs with one restriction more, both answered"),
    (RestrictedEvent::OneMoreSlower, "of these, slower"),
    (RestrictedEvent::Raised, "pairs with higher restrictions, both answered"),
    (RestrictedEvent::RaisedFaster, "of these, faster"),
];

/// Counts of the answers and of the events.
pub struct RestrictedTally {
    answers: [[u64; NO_REFUSAL]; ROWS.len()],
    events: [u64; RESTRICTED_EVENTS.len()],
}

impl Default for RestrictedTally {
    fn default() -> RestrictedTally {
        RestrictedTally { answers: Default::default(), events: [0; RESTRICTED_EVENTS.len()] }
    }
}

impl RestrictedTally {
    /// Counts an answer of a kind.
    pub fn answer(&mut self, kind: u32, answer: &Answer) {
        self.answers[kind.min(UNKNOWN_KIND) as usize][answer.refusal as usize] += 1;
    }

    /// Counts the refusal of a journey beside whole segments.
    pub fn journey(&mut self, kind: u32, refused: &Answer) {
        self.answers[(JOURNEYS + kind) as usize][refused.refusal as usize] += 1;
    }

    /// Counts the events that happened.
    pub fn count(&mut self, events: &[(RestrictedEvent, bool)]) {
        events.iter().for_each(|(event, happened)| self.events[*event as usize] += u64::from(*happened));
    }

    /// Returns what never came.
    pub fn missing(&self) -> Vec<String> {
        let mut missing = Vec::new();
        for ((name, answers), counts) in ROWS.iter().zip(&self.answers) {
            let never = answers.iter().filter(|answer| counts[**answer as usize] == 0);
            missing.extend(never.map(|answer| format!("restricted speed, {name}: never answered {answer}")));
        }
        let never = RESTRICTED_EVENTS.iter().filter(|(event, _)| self.events[*event as usize] == 0);
        missing.extend(never.map(|(_, words)| format!("no {words}")));
        missing
    }
}

impl fmt::Display for RestrictedTally {
    fn fmt(&self, f: &mut fmt::Formatter) -> fmt::Result {
        write!(f, "restricted speeds: each answer, and how often it came")?;
        for ((name, answers), counts) in ROWS.iter().zip(&self.answers) {
            write!(f, "\n  {name}:")?;
            answers.iter().try_for_each(|answer| write!(f, "  {answer}: {}", counts[*answer as usize]))?;
        }
        RESTRICTED_EVENTS.iter().try_for_each(|(event, words)| write!(f, "\n{:>9} {words}", self.events[*event as usize]))
    }
}

//! Events of the random checks of steps: each is counted, and must happen.

use std::fmt;

#[derive(Clone, Copy)]
pub enum StepsEvent {
    OwnRefusal,
    BadTrain,
    BadRun,
    UnknownKind,
    Right,
    RightOne,
    RightMany,
    RightShort,
    RightRun,
    Neighbours,
    WrongAtZero,
    WrongShort,
    WrongLong,
    MovedOn,
    MovedBack,
    LeftOut,
    NoMaximum,
    None,
    TooMany,
    NotFromZero,
    NotRising,
    PastEnd,
    MoreStarts,
    MoreSpeeds,
    WrongToo,
}

/// Each event with its words, in the order of the type.
pub const STEPS_EVENTS: [(StepsEvent, &str); 25] = [
    (StepsEvent::OwnRefusal, "steps on a segment that is refused: its own refusal"),
    (StepsEvent::BadTrain, "steps for a train that is not allowed: 10"),
    (StepsEvent::BadRun, "steps on a run of none or more than four: 16"),
    (StepsEvent::UnknownKind, "steps on a run of an unknown kind: 15"),
    (StepsEvent::Right, "right steps: accepted"),
    (StepsEvent::RightOne, "of these, one step alone"),
    (StepsEvent::RightMany, "of these, more than 32 steps"),
    (StepsEvent::RightShort, "of these, on a segment that the second program looks at centimetre by centimetre"),
    (StepsEvent::RightRun, "of these, on a run of several segments"),
    (StepsEvent::Neighbours, "of these, with neighbours of one speed"),
    (StepsEvent::WrongAtZero, "wrong speeds at 0: 19"),
    (StepsEvent::WrongShort, "wrong speeds further on, centimetre by centimetre: 19"),
    (StepsEvent::WrongLong, "wrong speeds further on, by places: 19"),
    (StepsEvent::MovedOn, "steps a centimetre too late: 19 at the right start"),
    (StepsEvent::MovedBack, "steps a centimetre too early: 19 at the wrong start"),
    (StepsEvent::LeftOut, "steps left out: 19 at their start"),
    (StepsEvent::NoMaximum, "steps that forget the train's maximum: 19"),
    (StepsEvent::None, "no steps: 18"),
    (StepsEvent::TooMany, "129 steps: 18"),
    (StepsEvent::NotFromZero, "steps that do not start at 0: 18"),
    (StepsEvent::NotRising, "steps that do not rise: 18"),
    (StepsEvent::PastEnd, "steps at or past the segment's end: 18"),
    (StepsEvent::MoreStarts, "more starts than speeds: 18"),
    (StepsEvent::MoreSpeeds, "more speeds than starts: 18"),
    (StepsEvent::WrongToo, "of these, with a wrong speed too"),
];

/// Counts of the events.
pub struct StepsTally {
    events: [u64; STEPS_EVENTS.len()],
}

impl Default for StepsTally {
    fn default() -> StepsTally {
        StepsTally { events: [0; STEPS_EVENTS.len()] }
    }
}

impl StepsTally {
    /// Counts the events that happened.
    pub fn count(&mut self, events: &[(StepsEvent, bool)]) {
        events.iter().for_each(|(event, happened)| self.events[*event as usize] += u64::from(*happened));
    }

    /// Returns what never happened.
    pub fn missing(&self) -> Vec<String> {
        let never = STEPS_EVENTS.iter().filter(|(event, _)| self.events[*event as usize] == 0);
        never.map(|(_, words)| format!("no {words}")).collect()
    }
}

impl fmt::Display for StepsTally {
    fn fmt(&self, f: &mut fmt::Formatter) -> fmt::Result {
        write!(f, "steps")?;
        STEPS_EVENTS.iter().try_for_each(|(event, words)| write!(f, "\n{:>9} {words}", self.events[*event as usize]))
    }
}

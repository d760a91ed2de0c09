//! A refusal as the command tells it: number, place and ground, all the archive's.
use crate::input::Input;
use crate::json::Json;
use crate::outcome::{Failure, Streams};
use crate::report::Report;
use std::fmt;

/// A refusal.
#[derive(Clone, Debug, PartialEq, Eq)]
pub struct Told {
    pub number: u32,
    /// Where, if the refusal has a place; in this unit.
    pub place: Option<usize>,
    pub unit: &'static str,
    pub ground: String,
}

impl Told {
    /// Tells a refusal of the segment link.
    pub fn link(refused: &seglink::Refused) -> Told {
        let unit = match refused.unit {
            seglink::Unit::Byte => "byte",
            seglink::Unit::Centimetre => "centimetre",
            _ => "bit",
        };
        Told::placed(refused.refusal, refused.place, unit)
    }

    /// Tells a refusal of the fleet board, whose segment is a packet.
    pub fn board(refused: &fleet::Refused) -> Told {
        match refused {
            fleet::Refused::Question { refusal, place } => Told::placed(*refusal, *place, "bit"),
            // prints as its number and its ground
            fleet::Refused::CardList => {
                let said = refused.to_string();
                let ground = said.split_once(": ").map_or(&said[..], |(_, ground)| ground);
                Told { number: refused.number(), place: None, unit: "bit", ground: ground.into() }
            }
        }
    }

    fn placed(refusal: seglink::Refusal, place: u32, unit: &'static str) -> Told {
        let place = refusal.has_place().then_some(place as usize);
        Told { number: refusal.number(), place, unit, ground: refusal.ground().into() }
    }

    /// Returns the members that every refusal has in JSON.
    pub fn json(&self) -> Vec<(&'static str, Json)> {
        vec![
            ("accepted", Json::Bool(false)),
            ("refusal", Json::number(self.number)),
            ("ground", Json::text(&self.ground)),
            ("place", Json::of(self.place, |place| Json::number(place as u64))),
            ("place_unit", Json::of(self.place, |_| Json::text(self.unit))),
        ]
    }

    /// Says that the archive refused a packet or sheet, and why: JSON in the answer, or a complaint.
    pub fn of_input(self, input: &Input, json: bool, streams: &mut Streams) -> Failure {
        let report = Report::new(input, self);
        if json {
            return said(streams.say(Json::Object(input.json(report.json()))));
        }
        streams.complain(report.text().trim_end());
        Failure::Refused
    }

    /// Says that the archive refused something else.
    pub fn of_question(self, json: bool, streams: &mut Streams) -> Failure {
        if json {
            return said(streams.say(Json::Object(self.json())));
        }
        streams.complain(format!("refused: {self}"));
        Failure::Refused
    }
}

/// A refusal was said, unless it could not be written.
fn said(outcome: Result<(), Failure>) -> Failure {
    outcome.err().unwrap_or(Failure::Refused)
}

impl fmt::Display for Told {
    fn fmt(&self, f: &mut fmt::Formatter) -> fmt::Result {
        match self.place {
            Some(place) => write!(f, "{} at {} {place}: {}", self.number, self.unit, self.ground),
            None => write!(f, "{}: {}", self.number, self.ground),
        }
    }
}

//! Tests of the safe crate over the static library: every operation, every refusal with its place, and the words of the C header.
mod constraints;
mod conversions;
mod header;
mod intakes;
mod journeys;
mod manners;
mod refusals;
mod restricted;
mod runs;
mod segments;
mod shelves;
mod speeds;
mod steps;
mod wires;

use seglink::{Refusal, Refused};

/// Returns an answer with only the refusal and the place of an error.
fn told<T>(answer: Result<T, Refused>) -> Result<T, (Refusal, u32)> {
    answer.map_err(|refused| (refused.refusal, refused.place))
}

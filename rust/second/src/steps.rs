//! The check of a supplier's speed steps: centimetre by centimetre on a short segment, at the places where something can change on a long one.

use crate::refusal::{Refusal, Refused};
use crate::segment::Segment;
use crate::speed::{changes, permitted, Train};

/// Most steps.
const MOST: usize = 128;

/// Segments up to this length, in cm, are looked at centimetre by centimetre.
const SHORT: u32 = 200;

/// Checks steps against the permitted speed at every centimetre of the last segment of a run.
pub fn check(run: &[Segment], train: &Train, starts: &[u32], speeds: &[u32]) -> Result<(), Refused> {
    if !train.is_allowed() {
        return Err(Refusal::Train.nowhere());
    }
    let length = run.last().expect("a run has a segment").length;
    if !are_steps(starts, speeds, length) {
        return Err(Refusal::Steps.nowhere());
    }
    for x in looked_at(run, train, starts, length) {
        let step = starts.iter().rposition(|start| *start <= x).expect("the first step starts at 0");
        if speeds[step] != permitted(run, train, x)? {
            return Err(Refusal::WrongSpeed.at(x as usize));
        }
    }
    Ok(())
}

fn are_steps(starts: &[u32], speeds: &[u32], length: u32) -> bool {
    let counted = (1..=MOST).contains(&starts.len()) && starts.len() == speeds.len();
    let rising = starts.windows(2).all(|pair| pair[0] < pair[1]);
    counted && rising && starts[0] == 0 && starts.iter().all(|start| *start < length)
}

/// Returns the locations to look at, in their order.
fn looked_at(run: &[Segment], train: &Train, starts: &[u32], length: u32) -> Vec<u32> {
    if length <= SHORT {
        return (0..length).collect();
    }
    let mut places = [starts, &changes(run, train)].concat();
    places.sort_unstable();
    places
}

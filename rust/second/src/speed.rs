//! The permitted speed on a run of segments: the lowest speed of the elements that hold at a location.

use crate::refusal::{Refusal, Refused};
use crate::segment::{Class, Element, Segment, CANTS};

#[derive(Clone, Debug)]
pub struct Train {
    pub length: u32,
    pub cant: u32,
    /// The train's own top speed in km/h.
    pub maximum: u32,
    pub freight_p: bool,
    pub freight_g: bool,
    pub passenger: bool,
}

impl Train {
    pub fn is_allowed(&self) -> bool {
        (1..=150_000).contains(&self.length) && CANTS.contains(&self.cant) && (1..=600).contains(&self.maximum)
    }

    /// Returns whether the train belongs to a category: 0 freight in P position, 1 freight in G position, 2 passenger.
    fn belongs(&self, category: u32) -> bool {
        [self.freight_p, self.freight_g, self.passenger][category as usize]
    }
}

/// Returns the permitted speed in km/h of a train at location `x`, in cm, of the last segment of a run: the profile's, or the train's maximum where
/// that is lower.
pub fn permitted(run: &[Segment], train: &Train, x: u32) -> Result<u32, Refused> {
    let (last, before) = run.split_last().expect("a run has a segment");
    if !train.is_allowed() {
        return Err(Refusal::Train.nowhere());
    }
    if x >= last.length {
        return Err(Refusal::PastEnd.nowhere());
    }
    let location = before.iter().map(|segment| segment.length).sum::<u32>() + x;
    let holding = laid(run).into_iter().filter(|stretch| holds(stretch, train, location));
    let speed = holding.map(|stretch| speed_of(stretch.element, train)).min();
    Ok(speed.expect("the elements together cover the run").min(train.maximum))
}

/// Returns the locations of the last segment of a run, in cm, at which the permitted speed can change: where an element starts, and where it ends,
/// with Q_FRONT 0 the train's length further on.
pub fn changes(run: &[Segment], train: &Train) -> Vec<u32> {
    let (last, before) = run.split_last().expect("a run has a segment");
    let from = before.iter().map(|segment| segment.length).sum::<u32>();
    let places = laid(run).into_iter().flat_map(|stretch| [stretch.start, stretch.end + delay(&stretch, train)]);
    places.filter_map(|place| place.checked_sub(from)).filter(|place| *place < last.length).collect()
}

/// An element, with its start and its end in cm from the run's start.
struct Stretch<'a> {
    element: &'a Element,
    start: u32,
    end: u32,
}

/// Lays the elements of a run end to end: each ends where the next starts, the last with its segment.
fn laid(run: &[Segment]) -> Vec<Stretch<'_>> {
    let mut elements = Vec::new();
    let mut end = 0;
    for segment in run {
        elements.extend(segment.elements.iter().map(|element| (element, end + element.start)));
        end += segment.length;
    }
    let starts = elements.iter().map(|(_, start)| *start);
    let ends: Vec<u32> = starts.skip(1).chain([end]).collect();
    elements.into_iter().zip(ends).map(|((element, start), end)| Stretch { element, start, end }).collect()
}

/// Returns whether an element holds at a location: from its start to its end, with Q_FRONT 0 to its end plus the train's length.
fn holds(stretch: &Stretch, train: &Train, location: u32) -> bool {
    stretch.start <= location && location < stretch.end + delay(stretch, train)
}

/// Returns how much longer than to its end an element holds: for the train's length with Q_FRONT 0.
fn delay(stretch: &Stretch, train: &Train) -> u32 {
    if stretch.element.front {
        0
    } else {
        train.length
    }
}

/// Returns an element's speed in km/h for a train.
fn speed_of(element: &Element, train: &Train) -> u32 {
    let by_cant = figure_for(element, train.cant).and_then(|figure| lowest(element, |class| *class == Class::Cant(figure)));
    let instead = lowest(element, |class| matches!(class, Class::Instead(category) if train.belongs(*category)));
    let lower = lowest(element, |class| matches!(class, Class::Lower(category) if train.belongs(*category)));
    let speed = instead.or(by_cant).unwrap_or(element.speed);
    lower.map_or(speed, |lower| lower.min(speed))
}

/// Returns the lowest speed of an element's entries of some classes.
fn lowest(element: &Element, named: impl Fn(&Class) -> bool) -> Option<u32> {
    element.entries.iter().filter(|entry| named(&entry.class)).map(|entry| entry.speed).min()
}

/// Returns the cant deficiency whose entries count for a train: its own if an entry names it, else the next lower one that an entry names.
fn figure_for(element: &Element, own: u32) -> Option<u32> {
    let downwards = CANTS.iter().rev().skip_while(|figure| **figure > own);
    downwards.copied().find(|figure| element.entries.iter().any(|entry| entry.class == Class::Cant(*figure)))
}

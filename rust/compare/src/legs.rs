//! Random runs of whole segments with a journey that is made to fit them, and faults put into the journey.

use crate::case::any_train;
use crate::draft::{Constraint, Draft, Kind};
use crate::journeys::{constraint, timing_point, MOST};
use crate::program::{Train, LENT};
use crate::random::Random;
use crate::restricted_event::RestrictedEvent;
use crate::runs::{any_count, any_end, any_segment};
use crate::segments::{header, LONGEST};

/// Places of a constraint's numbers.
pub const TYPE: usize = 0;
pub const RANGE: usize = 1;
pub const START: usize = 2;
pub const END: usize = 3;
pub const FRONT: usize = 4;
pub const SPEED: usize = 5;

/// The Q_TC_Type of a speed.
const OF_SPEED: u32 = 0;
/// Place of NID_C among a segment's fields, and the widths in bits of NID_C, NID_SP and the two numbers of the version.
const IDENTITY: usize = 6;
const WIDTHS: [u32; 4] = [10, 32, 8, 8];

/// A segment of a journey.
#[derive(Clone, Debug)]
pub struct Leg {
    /// NID_C, NID_SP and the two numbers of the version.
    pub identity: [u32; WIDTHS.len()],
    /// Q_SP_DIR: 1 is the nominal direction.
    pub direction: u32,
    pub points: u32,
    pub constraints: Vec<Constraint>,
}

/// A fault of a journey: the place in the run of the segment that has it, its refusal, and how it is counted.
#[derive(Clone, Copy, Debug)]
pub struct Fault {
    pub place: usize,
    pub refusal: u32,
    pub event: RestrictedEvent,
}

/// How faults of the identity are counted, field by field.
const OTHERS: [RestrictedEvent; WIDTHS.len()] =
    [RestrictedEvent::OtherCountry, RestrictedEvent::OtherNumber, RestrictedEvent::OtherMajor, RestrictedEvent::OtherMinor];

/// A question about a run of whole segments and a journey.
#[derive(Clone)]
pub struct Fitted {
    pub segments: [Draft; LENT],
    pub count: u32,
    pub legs: Vec<Leg>,
    /// How many segments of the journey come before the run.
    pub before: usize,
    pub leg: u32,
    pub train: Train,
    pub x: u32,
    /// Seed of what plays no part: the journey's header, its status and its timing points.
    pub seed: u64,
}

impl Fitted {
    /// Draws a run and a journey that fits it; the other segments of the journey are any, some of them those of the run.
    pub fn random(random: &mut Random) -> Fitted {
        let (train, count) = (any_train(random, &[]), any_count(random));
        let mut segments = [(); LENT].map(|()| any_segment(random, &train));
        if random.one_in(4) {
            let again = random.between(1, LENT as u32 - 1) as usize;
            segments[again] = segments[again - 1].clone();
        }
        let run = count.clamp(1, LENT as u32) as usize;
        let [before, after] = [&[0, 0, 0, 1, 1, 2, 3, 6][..], &[0, 0, 1, 2]].map(|counts| random.pick(counts));
        let mut legs: Vec<Leg> = (0..before).map(|_| any_leg(random, &segments)).collect();
        legs.extend(segments[..run].iter().map(|segment| fitting(random, segment)));
        legs.extend((0..after).map(|_| any_leg(random, &segments)));
        let seed = random.any();
        let mut fitted = Fitted { segments, count, legs, before, leg: (before + run - 1) as u32, train, x: 0, seed };
        fitted.x = fitted.any_location(random);
        fitted
    }

    /// Returns how many segments the run has; those that count where the count is not allowed.
    pub fn run(&self) -> usize {
        self.count.clamp(1, LENT as u32) as usize
    }

    /// Returns the journey's segments of the run.
    pub fn run_legs(&mut self) -> &mut [Leg] {
        let run = self.run();
        &mut self.legs[self.before..self.before + run]
    }

    /// Returns the length in cm of the run's segment at a place.
    pub fn length(&self, place: usize) -> u32 {
        self.segments[place].values(Kind::Length)[0]
    }

    /// Returns x counted from the run's start.
    pub fn location(&self) -> u64 {
        (0..self.run() - 1).map(|place| u64::from(self.length(place))).sum::<u64>() + u64::from(self.x)
    }

    /// Returns the journey's fields.
    pub fn journey(&self) -> Draft {
        journey(&self.legs, self.seed)
    }

    /// Draws a location of the last segment: near where a constraint of the run starts, ends or lets the train go, or as for a run.
    fn any_location(&mut self, random: &mut Random) -> u32 {
        let (mut marks, mut begin, train) = (Vec::new(), 0, u64::from(self.train.length));
        let lengths: Vec<u64> = (0..self.run()).map(|place| self.length(place).into()).collect();
        let last: u64 = lengths.iter().sum::<u64>() - lengths[lengths.len() - 1];
        for (leg, length) in self.run_legs().iter().zip(&lengths) {
            for constraint in leg.constraints.iter().filter(|constraint| constraint[TYPE] == OF_SPEED) {
                let (start, end) = ends(constraint, *length);
                marks.extend([begin + start, begin + end, begin + end + train]);
            }
            begin += length;
        }
        marks.retain(|mark| (last..=begin).contains(mark));
        if marks.is_empty() || random.one_in(4) {
            return any_end(random, &self.segments[..self.run()], &self.train);
        }
        ((random.pick(&marks) - last) as u32).wrapping_add(random.pick(&[u32::MAX, 0, 0, 1]))
    }

    /// Puts a fault into a segment of the run.
    pub fn fault(&mut self, random: &mut Random) -> Fault {
        let place = random.place(self.run());
        let (outside, misplaced) = outside(random, self.length(place));
        let leg = &mut self.run_legs()[place];
        let refusal = random.between(23, 25);
        let event = match refusal {
            23 => {
                let field = random.place(WIDTHS.len());
                leg.identity[field] ^= 1 << random.between(0, WIDTHS[field] - 1);
                OTHERS[field]
            }
            24 => {
                leg.direction = 0;
                RestrictedEvent::Reverse
            }
            _ => {
                leg.constraints.truncate(MOST as usize - 1);
                leg.constraints.insert(random.place(leg.constraints.len() + 1), outside);
                misplaced
            }
        };
        Fault { place, refusal, event }
    }

    /// Draws another leg: one that the journey does not have, one before which the run would begin, or any.
    pub fn other_leg(&self, random: &mut Random) -> u32 {
        let legs = self.legs.len() as u32;
        let before = self.run() as u32 - 1;
        match random.between(0, 3) {
            0 => legs + random.pick(&[0, 0, 1, 255]),
            1 if before > 0 => random.between(0, before - 1),
            2 => random.pick(&[self.leg + 256, self.leg | 0x8000_0000, u32::MAX, u32::MAX - 1]),
            _ => random.between(0, legs),
        }
    }
}

/// Returns the fields of a journey; the seed is that of its header, its status and its timing points.
pub fn journey(legs: &[Leg], seed: u64) -> Draft {
    let (mut random, mut draft) = (Random::new(seed), Draft::default());
    header(&mut random, &mut draft, 4);
    draft.same(Kind::Status, 3, random.between(0, 4));
    draft.same(Kind::SegmentCount, 8, legs.len() as u32);
    for leg in legs {
        WIDTHS.into_iter().zip(leg.identity).for_each(|(width, value)| draft.same(Kind::Plain, width, value));
        draft.same(Kind::Plain, 1, leg.direction);
        draft.same(Kind::Count, 5, leg.points);
        (0..leg.points).for_each(|_| timing_point(&mut random, &mut draft));
        draft.same(Kind::Count, 5, leg.constraints.len() as u32);
        leg.constraints.iter().for_each(|constraint| draft.constraint(*constraint));
    }
    draft
}

/// Draws a segment of the journey beside the run: one of the run's or any other, in any direction, with constraints of any place.
fn any_leg(random: &mut Random, segments: &[Draft; LENT]) -> Leg {
    let identity = match random.one_in(2) {
        true => identity_of(&segments[random.place(LENT)]),
        false => WIDTHS.map(|width| random.any() as u32 >> (32 - width)),
    };
    let constraints = (0..random.between(0, 2)).map(|_| slow(random, constraint)).collect();
    Leg { identity, direction: random.between(0, 1), points: random.between(0, 1), constraints }
}

/// Draws the journey's segment of a run's segment: constraints of a speed that lie in it, and others.
fn fitting(random: &mut Random, segment: &Draft) -> Leg {
    let (count, length) = (random.pick(&[0, 0, 1, 1, 1, 2, 3, 4]), segment.values(Kind::Length)[0]);
    let count = if random.one_in(64) { MOST } else { count };
    let constraints = (0..count).map(|_| any_fitting(random, length)).collect();
    Leg { identity: identity_of(segment), direction: 1, points: random.between(0, 2), constraints }
}

/// Returns NID_C, NID_SP and the two numbers of the version of a segment.
pub fn identity_of(segment: &Draft) -> [u32; WIDTHS.len()] {
    [0, 1, 2, 3].map(|nth| segment.fields[IDENTITY + nth].value)
}

/// Draws a constraint of a speed that lies in a segment of this length, or one time in four a constraint of another type.
fn any_fitting(random: &mut Random, length: u32) -> Constraint {
    if random.one_in(4) {
        let mut other = constraint(random);
        while other[TYPE] == OF_SPEED {
            other = constraint(random);
        }
        return other;
    }
    slow(random, |random| within(random, length))
}

/// Draws a constraint of a speed that lies in a segment of this length.
pub fn within(random: &mut Random, length: u32) -> Constraint {
    let start = random.with_ends(0, length - 1);
    let [range, start, end] = match random.between(0, 3) {
        0 => [0, start, 0],
        1 => [1, 0, random.with_ends(1, length)],
        2 => [2, start, random.with_ends(start + 1, length)],
        _ => [3, 0, 0],
    };
    [OF_SPEED, range, start, end, random.between(0, 1), random.with_ends(0, 604), 0, 0]
}

/// Draws a constraint, and gives it three times in four a low speed if it is of a speed.
fn slow(random: &mut Random, draw: impl Fn(&mut Random) -> Constraint) -> Constraint {
    let mut drawn = draw(random);
    if drawn[TYPE] == OF_SPEED && !random.one_in(4) {
        drawn[SPEED] = random.between(0, 120);
    }
    drawn
}

/// Draws a constraint of a speed that starts or ends outside a segment of this length.
fn outside(random: &mut Random, length: u32) -> (Constraint, RestrictedEvent) {
    let past = |random: &mut Random, least: u32| random.pick(&[least, least, least + 1, LONGEST]).min(LONGEST);
    let ([range, start, end], event) = match random.between(0, 3) {
        0 => ([0, past(random, length), 0], RestrictedEvent::StartPast),
        1 if length < LONGEST => ([1, 0, past(random, length + 1)], RestrictedEvent::EndPast),
        2 if length < LONGEST => ([2, random.with_ends(0, length), past(random, length + 1)], RestrictedEvent::BothPast),
        _ => ([1, 0, 0], RestrictedEvent::EndAtZero),
    };
    ([OF_SPEED, range, start, end, random.between(0, 1), random.with_ends(0, 604), 0, 0], event)
}

/// Returns where a constraint starts and ends on a segment of this length.
fn ends(constraint: &Constraint, length: u64) -> (u64, u64) {
    let [start, end] = [constraint[START], constraint[END]].map(u64::from);
    match constraint[RANGE] {
        0 => (start, length),
        1 => (0, end),
        2 => (start, end),
        _ => (0, length),
    }
}

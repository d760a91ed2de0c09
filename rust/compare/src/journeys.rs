//! Random journeys of any size that keep every rule, and journeys whose body is about as long as a packet can hold.

use crate::draft::{Constraint, Draft, Kind};
use crate::random::Random;
use crate::segments::{header, identity, plain};

/// Most timing points, and most temporary constraints, of a segment.
pub const MOST: u32 = 31;
/// Most bits of a body.
const MOST_BITS: u32 = 65_535;
/// Bits of a body without segments, of a segment without timing points and constraints, of a timing point, and of a constraint.
const EMPTY_BITS: u32 = 11;
const SEGMENT_BITS: u32 = 69;
const POINT_BITS: u32 = 129;
const CONSTRAINT_BITS: u32 = 73;

/// Counts of a journey's segments, timing points and temporary constraints.
pub type Size = (u32, u32, u32);
/// The longest body without constraints has 65,534 bits, the longest of all 65,535.
pub const LONGEST_UNCONSTRAINED: Size = (41, 486, 0);
pub const LONGEST: Size = (20, 186, 550);

/// How many timing points and how many temporary constraints each segment has.
pub type Counts = Vec<(u32, u32)>;

/// Draws counts of every order, mostly small.
pub fn any_counts(random: &mut Random) -> Counts {
    match random.between(0, 39) {
        0..=3 => Vec::new(),
        4 => about_the_longest(random, 0),
        5 => spread(random, LONGEST),
        6 => vec![(0, 0); random.with_ends(0, 255) as usize],
        7..=9 => each(random, 12, MOST),
        _ => each(random, 3, 3),
    }
}

/// Draws at most `segments` segments, each with at most `most` timing points and at most `most` constraints.
fn each(random: &mut Random, segments: u32, most: u32) -> Counts {
    (0..random.with_ends(0, segments)).map(|_| (random.with_ends(0, most), random.with_ends(0, most))).collect()
}

/// Draws as many timing points as a packet holds in some segments beside some constraints, or as many constraints beside some timing
/// points; or some more, as far as the counts allow.
pub fn about_the_longest(random: &mut Random, more: u32) -> Counts {
    let segments = random.with_ends(30, 255);
    let others = random.between(0, 200) * random.between(0, 1);
    let beside = |bits: u32| MOST_BITS - EMPTY_BITS - segments * SEGMENT_BITS - others * bits;
    let (points, constraints) = if random.one_in(2) {
        (beside(CONSTRAINT_BITS) / POINT_BITS + more, others)
    } else {
        (others, beside(POINT_BITS) / CONSTRAINT_BITS + more)
    };
    spread(random, (segments, points.min(segments * MOST), constraints.min(segments * MOST)))
}

/// Spreads timing points and constraints at random over segments.
pub fn spread(random: &mut Random, (segments, points, constraints): Size) -> Counts {
    let points = spread_over(random, segments, points);
    points.into_iter().zip(spread_over(random, segments, constraints)).collect()
}

fn spread_over(random: &mut Random, segments: u32, items: u32) -> Vec<u32> {
    let mut counts = vec![0; segments as usize];
    for _ in 0..items {
        let mut place = random.place(counts.len());
        while counts[place] == MOST {
            place = (place + 1) % counts.len();
        }
        counts[place] += 1;
    }
    counts
}

/// Draws a journey. A count past its limit is taken as it is; everything else keeps the rules.
pub fn journey(random: &mut Random, counts: &[(u32, u32)]) -> Draft {
    let mut draft = Draft::default();
    header(random, &mut draft, 4);
    draft.same(Kind::Status, 3, random.between(0, 4));
    draft.same(Kind::SegmentCount, 8, counts.len() as u32);
    for (points, constraints) in counts {
        identity(random, &mut draft);
        plain(random, &mut draft, 1);
        draft.same(Kind::Count, 5, *points);
        (0..*points).for_each(|_| timing_point(random, &mut draft));
        draft.same(Kind::Count, 5, *constraints);
        (0..*constraints).for_each(|_| draft.constraint(constraint(random)));
    }
    draft
}

/// Draws a constraint of any type and range, at locations near the segment's start or anywhere; the number of an unused field is 0.
pub fn constraint(random: &mut Random) -> Constraint {
    let (tc_type, range) = (random.between(0, 3), random.between(0, 3));
    let last = random.pick(&[1, 2, 3_000, 16_777_215, 16_777_215]);
    let location = random.with_ends(0, last);
    let [start, end] = match range {
        0 => [location, 0],
        1 => [0, location],
        2 => [random.with_ends(0, location.max(1) - 1), location.max(1)],
        _ => [0, 0],
    };
    let [front, speed, adhesion] = match tc_type {
        0 => [random.between(0, 1), random.with_ends(0, 604), 0],
        1 => [0, 0, random.with_ends(0, 5)],
        _ => [0, 0, 0],
    };
    [tc_type, range, start, end, front, speed, adhesion, 0]
}

pub fn timing_point(random: &mut Random, draft: &mut Draft) {
    plain(random, draft, 32);
    plain(random, draft, 15);
    draft.same(Kind::ArrivalSeconds, 17, random.with_ends(0, 86_400));
    plain(random, draft, 10);
    draft.same(Kind::Alignment, 2, random.between(0, 2));
    let stop = random.between(0, 2);
    draft.same(Kind::StopKind, 2, stop);
    draft.same(Kind::Information, 2, random.between(0, 1));
    plain(random, draft, 1);
    if stop == 2 {
        [2, 1, 1, 1, 15, 17, 10, 1].iter().for_each(|width| draft.same(Kind::PassedBy, *width, 0));
    } else {
        [2, 1, 1, 1, 15].iter().for_each(|width| plain(random, draft, *width));
        draft.same(Kind::Seconds, 17, random.with_ends(0, 86_399));
        [10, 1].iter().for_each(|width| plain(random, draft, *width));
    }
}

//! Times of restricted speeds, beside the permitted speed of the same run and the judgement of the journey.

use crate::measure::{medians, unknown, Round};
use compare::archive::Archive;
use compare::draft::{Draft, Kind};
use compare::legs::{identity_of, within, Leg};
use compare::program::{Program, Run, Train, KIND_PACKET, KIND_SHEET, LENT};
use compare::random::Random;
use compare::restricted::Asked;
use compare::segments::{segment_of_length, Sizes};
use std::time::{Duration, Instant};

/// Journeys: how many are measured, how many segments each has, and how many timing points and constraints each segment has.
const JOURNEYS: [(&str, usize, usize, u32, u32); 2] =
    [("small journeys", 300, LENT, 1, 1), ("journeys full of constraints", 12, 28, 0, 31)];
/// Lengths in cm of the segments: each is longer than the first train, and four are longer than the second.
const SHORTEST: u32 = 25_000;
const LONGEST: u32 = 37_000;
/// Runs, with the train's length in cm: it stands on the one segment, and on three or four of the four.
const RUNS: [(&str, usize, u32); 2] = [("one", 1, 20_000), ("four", LENT, 75_000)];
const MEDIA: [(&str, u32); 2] = [("packets", KIND_PACKET), ("sheets", KIND_SHEET)];

/// Prints four rows for each size of journeys: packets and sheets, runs of one and of four.
pub fn rows(random: &mut Random, sizes: Sizes) {
    for (name, count, legs, points, constraints) in JOURNEYS {
        let drawn: Vec<_> = (0..count).map(|_| journey(random, sizes, (legs, points, constraints))).collect();
        println!("\n{name}: {count} of {legs} segments, x in the last");
        println!("{:28}{:>14}{:>14}{:>14}{:>8}", "", "permitted ns", "judgement ns", "restricted ns", "ratio");
        for (medium, kind) in MEDIA {
            for (run, segments, train) in RUNS {
                let asked: Vec<Asked> = drawn.iter().map(|drawn| asked(kind, segments, train, drawn)).collect();
                row(&format!("{medium}, a run of {run}"), &asked);
            }
        }
    }
}

/// Draws four segments, and a journey whose last segments they are.
fn journey(random: &mut Random, sizes: Sizes, (legs, points, constraints): (usize, u32, u32)) -> ([Draft; LENT], Draft) {
    let segments = [(); LENT].map(|()| {
        let length = random.between(SHORTEST, LONGEST);
        segment_of_length(random, sizes, length)
    });
    let drawn = (0..legs).map(|number| {
        let segment = &segments[(number + LENT - legs % LENT) % LENT];
        let length = segment.values(Kind::Length)[0];
        let constraints = (0..constraints).map(|_| within(random, length)).collect();
        Leg { identity: identity_of(segment), direction: 1, points, constraints }
    });
    let journey = compare::legs::journey(&drawn.collect::<Vec<_>>(), 1);
    (segments, journey)
}

/// Makes the question about the last segments of a journey.
fn asked(kind: u32, run: usize, length: u32, (segments, journey): &([Draft; LENT], Draft)) -> Asked {
    let written = |draft: &Draft| if kind == KIND_PACKET { draft.packet() } else { draft.sheet() };
    let lent = [0, 1, 2, 3].map(|nth| segments.get(LENT - run + nth).map_or(Vec::new(), written));
    let (legs, x) = (journey.values(Kind::SegmentCount)[0], segments[LENT - 1].values(Kind::Length)[0] - 1);
    let train = Train { length, ..crate::TRAIN };
    Asked { kind, count: run as u32, segments: lent, journey: written(journey), leg: legs - 1, train, x }
}

/// Prints a row: the three times, and the ratio of the last to the first two together.
fn row(title: &str, asked: &[Asked]) {
    let programs = &mut [
        round(asked, |asked| permitted(asked) + judged(asked)),
        round(asked, permitted),
        round(asked, judged),
        round(asked, restricted),
    ];
    let measured = medians(programs);
    print!("{title:28}");
    measured[1..].iter().for_each(|program| print!("{:>14.0}", program.time / asked.len() as f64));
    println!("{:>8.2}", measured[3].ratio);
}

/// Makes a round of calls, each with the time that it says it took.
fn round<'a>(asked: &'a [Asked], call: fn(&Asked) -> Duration) -> Round<'a> {
    Box::new(move || asked.iter().map(call).sum())
}

/// Calls, and returns how long it took; the call's refusal must be the expected one.
fn timed(expected: u32, call: impl FnOnce() -> u32) -> Duration {
    let began = Instant::now();
    let refusal = unknown(call());
    let took = began.elapsed();
    assert!(refusal == expected, "the answer is the expected one");
    took
}

fn run(asked: &Asked) -> Run<'_> {
    let [first, second, third, fourth] = &asked.segments;
    unknown(Run { count: asked.count, lent: [first, second, third, fourth] })
}

fn permitted(asked: &Asked) -> Duration {
    timed(0, || Archive::permitted_speed(asked.kind, run(asked), &asked.train, asked.x).refusal)
}

fn restricted(asked: &Asked) -> Duration {
    timed(0, || Archive::restricted_speed(asked.kind, run(asked), &asked.journey, asked.leg, &asked.train, asked.x).refusal)
}

/// Judges the journey: converts it into no room.
fn judged(asked: &Asked) -> Duration {
    let convert = if asked.kind == KIND_PACKET { Archive::packet_to_sheet } else { Archive::sheet_to_packet };
    timed(8, || convert(&asked.journey, &mut []).refusal)
}

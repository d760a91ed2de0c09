//! Times of speed questions about runs of four segments, beside questions about one segment.

use crate::measure::{medians, unknown, Medians, Round};
use compare::archive::Archive;
use compare::draft::{Draft, Kind};
use compare::program::{Program, Run, Train, KIND_PACKET, KIND_SHEET, LENT};
use compare::random::Random;
use compare::segments::{segment_of_length, shortest, Sizes};
use std::time::Instant;

/// Largest length in cm of a segment here: four of them are shorter than the longest train.
const LONGEST: u32 = 37_000;
/// Trains by their length in cm: at a segment's last location the first stands on the whole run, the second has left all but the last segment.
const TRAINS: [(&str, u32); 2] = [("tail on the first", 150_000), ("three left", 1)];
const MEDIA: [(&str, u32); 2] = [("packets", KIND_PACKET), ("sheets", KIND_SHEET)];

/// A segment's bytes, and its last location in cm.
type Segment = (Vec<u8>, u32);

/// Prints four rows: for packets and for sheets, with each train, the time of one question and of a run of four.
pub fn rows(name: &str, random: &mut Random, runs: usize, sizes: Sizes) {
    let drafts: Vec<Draft> = (0..runs * LENT).map(|_| any_segment(random, sizes)).collect();
    println!("\n{name}: {runs} runs of four segments");
    println!("{:28}{:>14}{:>14}{:>8}", "", "one ns", "four ns", "ratio");
    for (medium, kind) in MEDIA {
        let segments: Vec<Segment> = drafts.iter().map(|draft| lent(kind, draft)).collect();
        for (place, length) in TRAINS {
            let train = Train { length, ..crate::TRAIN };
            let programs = &mut [ones(kind, &segments, &train), fours(kind, &segments, &train)];
            row(&format!("{medium}, {place}"), &medians(programs), runs);
        }
    }
}

/// Draws a segment that is longer than a centimetre.
fn any_segment(random: &mut Random, sizes: Sizes) -> Draft {
    let length = random.between(shortest(sizes).max(2), LONGEST);
    segment_of_length(random, sizes, length)
}

fn lent(kind: u32, draft: &Draft) -> Segment {
    let bytes = if kind == KIND_PACKET { draft.packet() } else { draft.sheet() };
    (bytes, draft.values(Kind::Length)[0] - 1)
}

/// Makes a round of questions, one about each segment.
fn ones<'a>(kind: u32, segments: &'a [Segment], train: &'a Train) -> Round<'a> {
    Box::new(move || {
        let began = Instant::now();
        for (bytes, x) in segments {
            ask(kind, Run::one(bytes), train, *x);
        }
        began.elapsed()
    })
}

/// Makes a round of questions, one about each run of four segments.
fn fours<'a>(kind: u32, segments: &'a [Segment], train: &'a Train) -> Round<'a> {
    Box::new(move || {
        let began = Instant::now();
        for run in segments.chunks_exact(LENT) {
            let lent = [&run[0].0[..], &run[1].0, &run[2].0, &run[3].0];
            ask(kind, Run { count: LENT as u32, lent }, train, run[3].1);
        }
        began.elapsed()
    })
}

fn ask(kind: u32, run: Run, train: &Train, x: u32) {
    let answer = unknown(Archive::permitted_speed(unknown(kind), unknown(run), train, x));
    assert!(answer.refusal == 0, "the question is answered");
}

/// Prints a row: the time of a question about one segment, and of one about a run of four, with their ratio.
fn row(title: &str, programs: &[Medians], runs: usize) {
    let [one, four] = [(0, runs * LENT), (1, runs)].map(|(place, calls)| programs[place].time / calls as f64);
    println!("{title:28}{one:>14.0}{four:>14.0}{:>8.2}", programs[1].ratio * LENT as f64);
}

//! Times of checks of 128 right steps, beside one question about the segment.

use crate::measure::{medians, unknown, Round};
use compare::archive::Archive;
use compare::draft::{Draft, Kind};
use compare::program::{Program, Run, Train, KIND_PACKET, KIND_SHEET};
use compare::steps::places;
use std::time::Instant;

/// How many steps are checked: the most.
const STEPS: usize = 128;
const MEDIA: [(&str, u32); 2] = [("packets", KIND_PACKET), ("sheets", KIND_SHEET)];

/// A segment, its last location in cm, and right steps on it.
struct Asked {
    bytes: Vec<u8>,
    x: u32,
    starts: Vec<u32>,
    speeds: Vec<u32>,
}

/// Prints two rows, for packets and for sheets: the time of one question and of one check of 128 steps.
pub fn rows(name: &str, drafts: &[Draft], train: &Train) {
    println!("\n{name}: {} segments with {STEPS} right steps each", drafts.len());
    println!("{:28}{:>14}{:>14}{:>8}", "", "question ns", "check ns", "ratio");
    for (medium, kind) in MEDIA {
        let asked: Vec<Asked> = drafts.iter().map(|draft| asked(kind, draft, train)).collect();
        let question: Round = Box::new(|| {
            let began = Instant::now();
            for Asked { bytes, x, .. } in &asked {
                let answer = unknown(Archive::permitted_speed(unknown(kind), Run::one(bytes), train, *x));
                assert!(answer.refusal == 0, "the question is answered");
            }
            began.elapsed()
        });
        let check: Round = Box::new(|| {
            let began = Instant::now();
            for Asked { bytes, starts, speeds, .. } in &asked {
                let answer = unknown(Archive::check_steps(unknown(kind), Run::one(bytes), train, starts, speeds));
                assert!(answer.refusal == 0, "right steps are accepted");
            }
            began.elapsed()
        });
        let measured = medians(&mut [question, check]);
        let [one, other] = [0, 1].map(|place| measured[place].time / asked.len() as f64);
        println!("{medium:28}{one:>14.0}{other:>14.0}{:>8.2}", measured[1].ratio);
    }
}

/// Makes right steps: at each place where the speed can change, and at the last centimetres that are left.
fn asked(kind: u32, draft: &Draft, train: &Train) -> Asked {
    let bytes = if kind == KIND_PACKET { draft.packet() } else { draft.sheet() };
    let x = draft.values(Kind::Length)[0] - 1;
    let mut starts = places(kind, Run::one(&bytes), train);
    let missing = STEPS.saturating_sub(starts.len());
    let more: Vec<u32> = (0..=x).rev().filter(|place| !starts.contains(place)).take(missing).collect();
    starts.extend(more);
    starts.sort_unstable();
    let speed = |start: &u32| Archive::permitted_speed(kind, Run::one(&bytes), train, *start).value as u32;
    let speeds = starts.iter().map(speed).collect();
    Asked { x, speeds, starts, bytes }
}

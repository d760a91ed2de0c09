//! Times of boards of 64 cards, beside a question for each card.

use crate::measure::{medians, unknown, Round};
use ::boards::archive::{lent, lowest, Lent};
use compare::archive::Archive;
use compare::draft::{Draft, Kind};
use compare::program::{Program, Run, Train, KIND_PACKET};
use second::Card;
use std::time::Instant;

/// How many cards a board has: the most.
const CARDS: u64 = 64;

/// A packet, and cards along its segment, also as the archive has them.
struct Asked {
    packet: Vec<u8>,
    cards: Vec<Card>,
    list: Vec<Lent>,
}

/// Prints a row: the time of 64 questions about a packet, and of a board of the same cards.
pub fn row(name: &str, drafts: &[Draft], train: &Train) {
    let asked: Vec<Asked> = drafts.iter().map(|draft| asked(draft, train)).collect();
    println!("\n{name}: {} packets with {CARDS} cards each", asked.len());
    println!("{:28}{:>14}{:>14}{:>8}", "", "questions ns", "board ns", "ratio");
    let questions: Round = Box::new(|| {
        let began = Instant::now();
        for Asked { packet, cards, .. } in &asked {
            for Card { train, location } in cards {
                let answer = unknown(Archive::permitted_speed(unknown(KIND_PACKET), Run::one(packet), train, *location));
                assert!(answer.refusal == 0, "the question is answered");
            }
        }
        began.elapsed()
    });
    let board: Round = Box::new(|| {
        let began = Instant::now();
        for Asked { packet, list, .. } in &asked {
            assert!(unknown(lowest(unknown(list), packet)).refusal == 0, "the board is answered");
        }
        began.elapsed()
    });
    let measured = medians(&mut [questions, board]);
    let [one, other] = [0, 1].map(|place| measured[place].time / asked.len() as f64);
    println!("{:28}{one:>14.0}{other:>14.0}{:>8.2}", "packets", measured[1].ratio);
}

/// Draws up the cards of a segment: one train, at places spread over its length.
fn asked(draft: &Draft, train: &Train) -> Asked {
    let length = u64::from(draft.values(Kind::Length)[0]);
    let cards: Vec<Card> = (0..CARDS).map(|nth| Card { train: train.clone(), location: (nth * length / CARDS) as u32 }).collect();
    Asked { packet: draft.packet(), list: cards.iter().map(lent).collect(), cards }
}

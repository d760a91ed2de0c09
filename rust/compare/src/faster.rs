//! Random pairs of speed questions that are equal but for one thing: a longer train, speeds that are raised, a lower maximum of the train.
//! Longer or slower never means faster.

use crate::case::any_train;
use crate::check::require;
use crate::draft::{Draft, Kind};
use crate::event::Event;
use crate::program::{Answer, Run, Train, KIND_PACKET, KIND_SHEET, LENT};
use crate::random::Random;
use crate::run_check::compare;
use crate::runs::{any_end, any_segment, LONGEST_TRAIN};
use crate::segments::{gathered, Sizes};
use crate::tally::Tally;
use std::fmt;

/// The highest speed of a sheet in km/h.
const FASTEST: u32 = 604;

/// Sizes of a segment whose elements have several entries.
const MANY_ENTRIES: Sizes = Sizes { changes: 2, entries: (3, 8), voltages: 0, currents: 0 };

/// A question about a run of whole segments.
#[derive(Clone)]
struct Asked {
    run: Vec<Draft>,
    train: Train,
    x: u32,
}

impl fmt::Display for Asked {
    fn fmt(&self, f: &mut fmt::Formatter) -> fmt::Result {
        write!(f, "{:?} at {}, sheets", self.train, self.x)?;
        self.run.iter().try_for_each(|draft| write!(f, " {:02X?}", draft.sheet()))
    }
}

impl Asked {
    /// Draws a question. Half of the segments have several entries by neighbouring cant deficiencies, and the train's is near one that is named:
    /// a figure that is chosen by its speed is seen only where a figure has two entries and another one has a third.
    fn random(random: &mut Random) -> Asked {
        let (train, count) = (any_train(random, &[]), random.between(1, LENT as u32));
        let segment =
            |random: &mut Random| if random.one_in(2) { any_segment(random, &train) } else { gathered(random, MANY_ENTRIES) };
        let run: Vec<Draft> = (0..count).map(|_| segment(random)).collect();
        let named: Vec<u32> = run.iter().flat_map(|draft| draft.values(Kind::Cant)).collect();
        let train = Train { cant: any_train(random, &named).cant, ..train };
        let x = any_end(random, &run, &train);
        Asked { run, train, x }
    }

    /// Puts the question to both programs, with the segments as packets or as sheets.
    fn answer(&self, kind: u32, tally: &mut Tally) -> Result<Answer, String> {
        let written = |draft: &Draft| if kind == KIND_PACKET { draft.packet() } else { draft.sheet() };
        let segments: Vec<Vec<u8>> = self.run.iter().map(written).collect();
        let mut lent: [&[u8]; LENT] = [&[]; LENT];
        lent.iter_mut().zip(&segments).for_each(|(lent, segment)| *lent = segment);
        compare(kind, Run { count: segments.len() as u32, lent }, &self.train, self.x, tally)
    }

    /// Draws the question of a train that is longer, mostly by little or up to twice as long.
    fn longer(&self, random: &mut Random) -> Asked {
        let length = self.train.length.min(LONGEST_TRAIN);
        let most = match random.between(0, 3) {
            0 => length + 3,
            1 | 2 => length * 2,
            _ => LONGEST_TRAIN,
        };
        let train = Train { length: random.with_ends(length, most.min(LONGEST_TRAIN)), ..self.train.clone() };
        Asked { train, ..self.clone() }
    }

    /// Draws the question of a train with a lower maximum.
    fn lower(&self, random: &mut Random) -> Asked {
        let train = Train { maximum: random.with_ends(1, self.train.maximum.max(1)), ..self.train.clone() };
        Asked { train, ..self.clone() }
    }

    /// Draws the question about a run with speeds raised: one of them, some or all; the packets are those of the sheets.
    fn raised(&self, random: &mut Random) -> Asked {
        let mut raised = self.clone();
        let one_in = random.pick(&[1, 2, 8]);
        let mut speeds: Vec<_> =
            raised.run.iter_mut().flat_map(|draft| &mut draft.fields).filter(|field| field.kind == Kind::Speed).collect();
        let always = random.place(speeds.len());
        for (place, field) in speeds.iter_mut().enumerate() {
            if place == always || random.one_in(one_in) {
                let number = random.with_ends(field.number as u32, FASTEST);
                (field.value, field.number) = (number / 5, number.into());
            }
        }
        raised
    }
}

/// What is to be true of a question and another that is equal but for one thing.
struct Pair {
    /// Whether the other one is the one that may be faster.
    rises: bool,
    /// Counts the pairs of which both are answered, and those whose speeds differ, from packets and from sheets.
    answered: Event,
    differ: [Event; 2],
    otherwise: &'static str,
}

const LONGER: Pair = Pair {
    rises: false,
    answered: Event::Longer,
    differ: [Event::LongerPackets, Event::LongerSheets],
    otherwise: "a longer train is faster",
};
const RAISED: Pair = Pair {
    rises: true,
    answered: Event::Raised,
    differ: [Event::RaisedPackets, Event::RaisedSheets],
    otherwise: "raising a speed lowers an answer",
};
const LOWER: Pair = Pair {
    rises: false,
    answered: Event::Lower,
    differ: [Event::LowerPackets, Event::LowerSheets],
    otherwise: "a lower maximum raises an answer",
};

impl Pair {
    fn check(&self, kind: u32, answer: Answer, other: Answer, tally: &mut Tally) -> Result<(), String> {
        let (slower, faster) = if self.rises { (answer, other) } else { (other, answer) };
        let both = answer.refusal == 0 && other.refusal == 0;
        tally.count_events(&[(self.answered, both), (self.differ[kind as usize], both && slower.value < faster.value)]);
        require(!both || slower.value <= faster.value, &format!("kind {kind}: {}, {other:?} for {answer:?}", self.otherwise))
    }
}

/// Compares a random question, in both media, with that of a longer train, with that about raised speeds, and with that of a lower maximum.
pub fn check(random: &mut Random, tally: &mut Tally) -> Result<(), String> {
    let asked = Asked::random(random);
    let others = [(LONGER, asked.longer(random)), (RAISED, asked.raised(random)), (LOWER, asked.lower(random))];
    for kind in [KIND_PACKET, KIND_SHEET] {
        let answer = asked.answer(kind, tally)?;
        for (pair, other) in &others {
            let told = |why| format!("{why}: {asked}\n  and {other}");
            let answered = other.answer(kind, tally).and_then(|other| pair.check(kind, answer, other, tally));
            answered.map_err(told)?;
        }
    }
    Ok(())
}

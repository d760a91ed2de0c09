//! Random runs of segments, most of them about as long as the train or shorter, as packets and as sheets: whole, or broken at any place of what
//! is lent.

use crate::case::{any_location, any_train};
use crate::damage::{spoil_fields, spoil_packet, spoil_sheet};
use crate::draft::{Draft, Kind};
use crate::journeys::{any_counts, journey};
use crate::program::{Run, Train, KIND_PACKET, LENT};
use crate::random::Random;
use crate::segments::{segment_of_length, shortest, Sizes, LONGEST};
use std::fmt;

/// Largest length of a train in centimetres.
pub const LONGEST_TRAIN: u32 = 150_000;

/// The segments that are lent, in both media, and a question about a run of them.
pub struct Drawn {
    pub packets: [Vec<u8>; LENT],
    pub sheets: [Vec<u8>; LENT],
    pub count: u32,
    /// Whether two neighbours of the run are one segment.
    pub twice: bool,
    pub train: Train,
    pub x: u32,
}

impl Drawn {
    pub fn random(random: &mut Random) -> Drawn {
        let (train, count) = (any_train(random, &[]), any_count(random));
        let mut drafts = [(); LENT].map(|()| any_segment(random, &train));
        let again = random.between(1, LENT as u32 - 1) as usize;
        let twice = random.one_in(4);
        if twice {
            drafts[again] = drafts[again - 1].clone();
        }
        let run = count.clamp(1, LENT as u32) as usize;
        let x = any_end(random, &drafts[..run], &train);
        let (mut packets, mut sheets) = (drafts.clone().map(|draft| draft.packet()), drafts.clone().map(|draft| draft.sheet()));
        for _ in 0..random.pick(&[0, 0, 1, 2]) {
            let place = random.place(LENT);
            (packets[place], sheets[place]) = broken(random, &drafts[place]);
        }
        Drawn { packets, sheets, count, twice: twice && again < run, train, x }
    }

    /// Returns the run in a medium.
    pub fn run(&self, kind: u32) -> Run<'_> {
        let [first, second, third, fourth] = if kind == KIND_PACKET { &self.packets } else { &self.sheets };
        Run { count: self.count, lent: [first, second, third, fourth] }
    }
}

impl fmt::Display for Drawn {
    fn fmt(&self, f: &mut fmt::Formatter) -> fmt::Result {
        write!(f, "a run of {}, {:?} at {}", self.count, self.train, self.x)?;
        for (medium, lent) in [("packets", &self.packets), ("sheets", &self.sheets)] {
            write!(f, "\n  {medium}")?;
            lent.iter().try_for_each(|segment| write!(f, " {segment:02X?}"))?;
        }
        Ok(())
    }
}

/// Draws a count of segments, one time in eight one that no run has; the low bits of some of these are those of a run's count.
pub fn any_count(random: &mut Random) -> u32 {
    if random.one_in(8) {
        random.pick(&[0, 0, 5, 5, 6, 7, 8, 255, 256, 257, 260, 65_537, 0x8000_0001, 0x8000_0004, u32::MAX])
    } else {
        random.between(1, LENT as u32)
    }
}

/// Draws a segment, mostly of up to three changes of speed and about as long as the train or shorter.
pub fn any_segment(random: &mut Random, train: &Train) -> Draft {
    let sizes = Sizes {
        changes: random.pick(&[0, 0, 1, 1, 2, 3, 31]),
        entries: (0, random.between(0, 2)),
        voltages: random.between(0, 1),
        currents: random.between(0, 1),
    };
    let (least, train) = (shortest(sizes), train.length.clamp(1, LONGEST_TRAIN));
    let most = match random.between(0, 7) {
        0 => least,
        1 => 5,
        2..=3 => train / 2,
        4 => train,
        5..=6 => train * 2,
        _ => LONGEST,
    };
    let length = random.with_ends(least, most.max(least));
    segment_of_length(random, sizes, length)
}

/// Draws a location of the last segment: near where the train leaves an element of a segment before it, or as for one segment.
pub fn any_end(random: &mut Random, run: &[Draft], train: &Train) -> u32 {
    let (last, before) = run.split_last().expect("a run has a segment");
    let length = |draft: &Draft| draft.values(Kind::Length)[0];
    // how far before the last segment the elements end, and changes of voltage and of current are
    let (mut ends, mut to_last) = (Vec::new(), 0);
    for draft in before.iter().rev() {
        ends.push(to_last);
        to_last += length(draft);
        ends.extend(draft.values(Kind::Location).iter().map(|location| to_last - location));
    }
    let left = ends.into_iter().filter_map(|end| train.length.checked_sub(end));
    let left: Vec<u32> = left.filter(|x| *x <= length(last)).collect();
    if left.is_empty() || random.one_in(3) {
        let marks = [vec![length(last)], last.values(Kind::Location), vec![0]].concat();
        return any_location(random, &marks, train);
    }
    random.pick(&left).wrapping_add(random.pick(&[u32::MAX, 0, 1]))
}

/// Breaks a segment in both media: fields, bytes, a journey in its place, noise or nothing at all.
pub fn broken(random: &mut Random, draft: &Draft) -> (Vec<u8>, Vec<u8>) {
    let mut draft = draft.clone();
    match random.between(0, 5) {
        0 | 1 => spoil_fields(random, &mut draft),
        2 => {
            let counts = any_counts(random);
            draft = journey(random, &counts);
        }
        3 => {
            let size = random.pick(&[0, 1, 14, 15, 39, 60]);
            return (random.bytes(size), random.bytes(size));
        }
        _ => {
            let (mut packet, mut sheet) = (draft.packet(), draft.sheet());
            spoil_packet(random, &mut packet);
            spoil_sheet(random, &mut sheet);
            return (packet, sheet);
        }
    }
    (draft.packet(), draft.sheet())
}

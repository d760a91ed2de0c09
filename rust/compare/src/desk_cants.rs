//! Desk cases on entries by cant deficiency: the train's own, or else the next lower that an entry names; each speed is worked out by hand.

use crate::desk::{both_speeds, Desk, Plan, CHANGED, TRAIN};
use crate::program::{Answer, Train};

/// Entries: Q_DIFF, the class in the packet, km/h.
type Entries = &'static [(u32, u32, u32)];
/// Speeds: the train's cant deficiency in millimetres, and its speed in km/h.
type Speeds = &'static [(u32, i64)];

/// Places of cant deficiencies in the table.
const MM_80: u32 = 0;
const MM_100: u32 = 1;
const MM_130: u32 = 2;
const MM_150: u32 = 3;
const MM_165: u32 = 4;
const MM_275: u32 = 9;
const MM_300: u32 = 10;

/// Entries beside a V_STATIC of 100 km/h, and the speeds at the start that they give trains of no category.
const FIGURES: [(&str, Entries, Speeds); 14] = [
    (
        "entries for 100 and 165",
        &[(0, MM_100, 80), (0, MM_165, 120)],
        &[(80, 100), (100, 80), (130, 80), (150, 80), (165, 120), (300, 120)],
    ),
    ("a faster entry for 100 and a slower for 165", &[(0, MM_100, 120), (0, MM_165, 80)], &[(150, 120), (165, 80), (180, 80)]),
    ("entries for 165 and 100, in this order", &[(0, MM_165, 120), (0, MM_100, 84)], &[(150, 84), (165, 120)]),
    ("an own figure beside slower lower ones", &[(0, MM_130, 60), (0, MM_150, 129), (0, MM_80, 40)], &[(150, 129), (130, 60)]),
    ("an own figure beside faster lower ones", &[(0, MM_130, 140), (0, MM_150, 71), (0, MM_80, 160)], &[(150, 71), (80, 160)]),
    ("several entries of the figure", &[(0, MM_100, 124), (0, MM_100, 113), (0, MM_100, 131)], &[(150, 113), (100, 113)]),
    (
        "several entries of two lower figures",
        &[(0, MM_130, 96), (0, MM_80, 20), (0, MM_130, 85), (0, MM_80, 30)],
        &[(150, 85), (100, 20)],
    ),
    ("several entries of the own figure", &[(0, MM_150, 121), (0, MM_100, 50), (0, MM_150, 118)], &[(150, 118)]),
    ("entries above alone", &[(0, MM_165, 60), (0, MM_300, 140)], &[(80, 100), (150, 100), (275, 60)]),
    ("the next figure above alone", &[(0, MM_165, 60)], &[(150, 100), (165, 60)]),
    ("lower figures, the greater of them faster", &[(0, MM_80, 60), (0, MM_130, 120)], &[(150, 120), (100, 60)]),
    ("lower figures, the greater of them slower", &[(0, MM_80, 120), (0, MM_130, 60)], &[(150, 60), (100, 120)]),
    ("a lower figure of 599 km/h, and one of 0", &[(0, MM_100, 599), (0, MM_80, 0)], &[(150, 599), (80, 0)]),
    ("the least figure and the next to the greatest", &[(0, MM_80, 90), (0, MM_275, 110)], &[(300, 110), (275, 110), (245, 90)]),
];

/// An entry for a lower figure beside entries for categories: whether a 150 mm train is freight P, freight G, passenger, and its speed.
const BESIDE: Entries = &[(0, MM_100, 112), (1, 1, 140), (2, 2, 104), (1, 1, 135), (0, MM_165, 20), (2, 0, 300)];
const CATEGORIES: [([bool; 3], i64); 6] = [
    ([false, false, false], 112),
    ([true, false, false], 112),
    ([false, true, false], 135),
    ([false, false, true], 104),
    ([false, true, true], 104),
    ([true, true, false], 135),
];

pub fn speeds(cases: &mut Vec<Desk>) {
    for (name, entries, speeds) in FIGURES {
        let of = |(cant, speed): &(u32, i64)| (Train { cant: *cant, freight_p: false, ..TRAIN }, 0, *speed);
        give(cases, name, Plan { entries, ..CHANGED }, speeds.iter().map(of));
    }
    let beside = CATEGORIES.map(|([freight_p, freight_g, passenger], speed)| {
        let train = Train { freight_p, freight_g, passenger, ..TRAIN };
        (train, 0, speed)
    });
    give(cases, "a lower figure beside categories", Plan { entries: BESIDE, ..CHANGED }, beside);
    // the speed of the 100 entry holds for the train's length past 500 cm, where 140 km/h begin
    let delayed = Plan { entries: &[(0, MM_100, 121), (0, MM_165, 60)], ..CHANGED };
    let name = "a lower figure before a change at 500";
    give(cases, name, delayed, [(499, 121), (699, 121), (700, 140)].map(|(x, speed)| (TRAIN, x, speed)));
    give(cases, name, Plan { front: 1, ..delayed }, [(499, 121), (500, 140)].map(|(x, speed)| (TRAIN, x, speed)));
}

/// Adds the speeds that a plan gives trains at locations.
fn give(cases: &mut Vec<Desk>, name: &'static str, plan: Plan, speeds: impl IntoIterator<Item = (Train, u32, i64)>) {
    for (train, x, speed) in speeds {
        both_speeds(cases, name, plan, (&train, x), Answer::success(speed));
    }
}

//! Desk cases of runs of segments: each speed is worked out by hand, and each refusal's place counted by hand.

use crate::check::require;
use crate::desk::{draft, Plan, CHANGED, DOCUMENT, TRAIN};
use crate::desk_journeys::journey;
use crate::program::{Answer, Run, Train, KIND_PACKET, KIND_SHEET, LENT};
use crate::run_check::compare;
use crate::tally::Tally;

/// A question about a run, and its answer.
#[derive(Clone)]
pub struct RunDesk {
    pub name: &'static str,
    kind: u32,
    count: u32,
    lent: [Vec<u8>; LENT],
    train: Train,
    x: u32,
    answer: Answer,
}

impl RunDesk {
    /// Asks both programs and checks what they give.
    pub fn check(&self, tally: &mut Tally) -> Result<(), String> {
        let [first, second, third, fourth] = &self.lent;
        let run = Run { count: self.count, lent: [first, second, third, fourth] };
        let answer = compare(self.kind, run, &self.train, self.x, tally)?;
        let asked = format!("kind {}, {} segments, at {}", self.kind, self.count, self.x);
        require(answer == self.answer, &format!("{asked}: both gave {answer:?}, the request {:?}", self.answer))
    }
}

/// Returns a segment of one element with Q_FRONT 0.
const fn plan(length: u32, speed: u32) -> Plan {
    Plan { length, speed, ..DOCUMENT }
}

/// Returns the segment without a delay at its end.
const fn ahead(plan: Plan) -> Plan {
    Plan { front: 1, ..plan }
}

/// Returns a segment of 1,000 cm that changes to 140 km/h.
const fn changed(speed: u32, change: u32) -> Plan {
    Plan { speed, change: Some(change), ..CHANGED }
}

const SLOW: Plan = plan(1_000, 43);
const FAST: Plan = plan(1_000, 104);
const FASTER: Plan = plan(1_000, 160);
const SHORT: [Plan; 2] = [plan(50, 64), plan(30, 82)];
/// Segments of a centimetre.
const LEAST: [Plan; 4] = [plan(1, 43), plan(1, 64), plan(1, 82), plan(1, 104)];

/// Runs, and the speeds in km/h that their sheets give a train of 200 cm, by x.
const SPEEDS: [(&str, &[Plan], &[(u32, i64)]); 19] = [
    ("one segment", &[FAST], &[(0, 104), (999, 104)]),
    ("a slower segment before", &[SLOW, FAST], &[(0, 43), (199, 43), (200, 104), (999, 104)]),
    ("a slower segment before, Q_FRONT 1", &[ahead(SLOW), FAST], &[(0, 104), (199, 104)]),
    ("a faster segment before", &[FAST, SLOW], &[(0, 43), (999, 43)]),
    // 30 km/h hold for 100 cm of the next segment; 140 km/h end with their segment
    ("an end before the boundary", &[changed(30, 900), FASTER], &[(0, 30), (99, 30), (100, 140), (199, 140), (200, 160)]),
    ("an end before the boundary, Q_FRONT 1", &[ahead(changed(30, 900)), FASTER], &[(0, 140), (199, 140), (200, 160)]),
    ("an end that the train has left", &[changed(30, 800), FASTER], &[(0, 140), (199, 140), (200, 160)]),
    ("a change in the last", &[SLOW, changed(30, 100)], &[(0, 30), (199, 30), (299, 30), (300, 140)]),
    ("a change in the last after the tail", &[SLOW, changed(90, 100)], &[(0, 43), (199, 43), (200, 90), (299, 90), (300, 140)]),
    ("a segment that could stand twice", &[changed(150, 800)], &[(0, 150), (199, 150)]),
    ("a segment twice", &[changed(150, 800); 2], &[(0, 140), (199, 140), (200, 150), (799, 150), (800, 140)]),
    ("over a short segment", &[SHORT[0], SHORT[1], FAST], &[(0, 64), (169, 64), (170, 82), (199, 82), (200, 104)]),
    ("over two", &[SLOW, SHORT[0], SHORT[1], FAST], &[(0, 43), (119, 43), (120, 64), (169, 64), (170, 82), (200, 104)]),
    ("over two, Q_FRONT 1", &[ahead(SLOW), SHORT[0], SHORT[1], FAST], &[(0, 64), (169, 64), (170, 82), (200, 104)]),
    ("the slowest second", &[SHORT[1], SLOW, SHORT[0], FAST], &[(0, 43), (149, 43), (150, 64), (199, 64), (200, 104)]),
    ("over a centimetre each", &[LEAST[0], LEAST[1], LEAST[2], FAST], &[(0, 43), (197, 43), (198, 64), (199, 82), (200, 104)]),
    ("longer than all that is lent", &LEAST, &[(0, 43)]),
    ("three left behind", &[SLOW, SLOW, SLOW, FAST], &[(0, 43), (199, 43), (200, 104)]),
    ("the first left behind", &[SLOW, plan(200, 64), FAST], &[(0, 64), (199, 64), (200, 104)]),
];

/// Counts that no run has; the low bits of some of them are those of a run's count.
const NO_RUNS: [u32; 9] = [0, 5, 6, 255, 256, 257, 65_537, 0x8000_0001, u32::MAX];

/// Returns all desk cases of runs.
pub fn cases() -> Vec<RunDesk> {
    let mut cases = Vec::new();
    for (name, run, speeds) in SPEEDS {
        give(&mut cases, name, run, &TRAIN, speeds);
    }
    by_train(&mut cases);
    by_maximum(&mut cases);
    the_longest(&mut cases);
    past_the_count(&mut cases);
    broken(&mut cases);
    train_and_x(&mut cases);
    never_read(&mut cases);
    cases
}

/// Adds speeds of a train on the sheets of a run, by x, and on their packets, whose speeds are lowered to multiples of 5.
fn give(cases: &mut Vec<RunDesk>, name: &'static str, run: &[Plan], train: &Train, speeds: &[(u32, i64)]) {
    for (x, speed) in speeds {
        asked(cases, name, run, (train, *x), [Answer::success(*speed / 5 * 5), Answer::success(*speed)]);
    }
}

/// Adds a question about the packets of a run and one about the sheets; what is not lent is empty.
fn asked(cases: &mut Vec<RunDesk>, name: &'static str, run: &[Plan], (train, x): (&Train, u32), answers: [Answer; 2]) {
    for (kind, answer) in [KIND_PACKET, KIND_SHEET].into_iter().zip(answers) {
        let lent = [0, 1, 2, 3].map(|nth| run.get(nth).map_or(Vec::new(), |plan| bytes(kind, *plan)));
        cases.push(RunDesk { name, kind, count: run.len() as u32, lent, train: train.clone(), x, answer });
    }
}

/// Returns a segment as a packet or as a sheet.
fn bytes(kind: u32, plan: Plan) -> Vec<u8> {
    match kind {
        KIND_PACKET => draft(plan).packet(),
        _ => draft(plan).sheet(),
    }
}

/// Adds speeds by the train's length and by its own entries in the segment before: a cant deficiency of 100 mm or more, freight P, freight G.
fn by_train(cases: &mut Vec<RunDesk>) {
    let of = |length: u32| Train { length, ..TRAIN };
    let least = [LEAST[0], LEAST[1], LEAST[2], FAST];
    give(cases, "a train of a centimetre", &least, &of(1), &[(0, 82), (1, 104)]);
    give(cases, "a train of two", &least, &of(2), &[(0, 64), (1, 82), (2, 104)]);
    give(cases, "a train of three", &least, &of(3), &[(0, 43), (1, 64), (2, 82), (3, 104)]);
    let run = [Plan { entries: &[(0, 1, 91), (1, 1, 66), (2, 0, 77)], ..FAST }, FASTER];
    let train = Train { freight_p: false, ..TRAIN };
    for (name, train, speed) in [
        ("a lower figure in the segment before", train.clone(), 91),
        ("no figure in the segment before", Train { cant: 80, ..train.clone() }, 104),
        ("freight G in the segment before", Train { freight_g: true, ..train }, 66),
        ("freight P in the segment before", TRAIN, 77),
    ] {
        give(cases, name, &run, &train, &[(0, speed), (199, speed), (200, 160)]);
    }
}

/// Adds speeds by the train's maximum: below the segment before, between both, above both; and maxima that are not allowed, before x is judged.
fn by_maximum(cases: &mut Vec<RunDesk>) {
    let of = |maximum: u32| Train { maximum, ..TRAIN };
    for (maximum, before, after) in
        [(1, [1, 1], [1, 1]), (41, [40, 41], [41, 41]), (83, [40, 43], [83, 83]), (600, [40, 43], [100, 104])]
    {
        asked(cases, "a maximum, the tail before", &[SLOW, FAST], (&of(maximum), 199), before.map(Answer::success));
        asked(cases, "a maximum, the tail past", &[SLOW, FAST], (&of(maximum), 200), after.map(Answer::success));
    }
    for maximum in [0, 601, u32::MAX] {
        asked(cases, "a maximum that is not allowed", &[FAST; LENT], (&of(maximum), 1_000), [Answer::refused(10, 0); 2]);
        let no_length = [Answer::refused(4, 178), Answer::refused(4, 12)];
        asked(cases, "a maximum, after the last segment", &[FAST, FAST, plan(0, 80)], (&of(maximum), 1_000), no_length);
    }
}

/// Adds the longest segments with the longest train: the lengths together have more than 24 bits.
fn the_longest(cases: &mut Vec<RunDesk>) {
    let (slow, fast) = (Plan { length: 16_777_215, ..SLOW }, Plan { length: 16_777_215, ..FAST });
    let (run, train) = ([fast, fast, slow, fast], Train { length: 150_000, ..TRAIN });
    give(cases, "the longest run", &run, &train, &[(0, 43), (149_999, 43), (150_000, 104), (16_777_214, 104)]);
    for x in [16_777_215, 4 * 16_777_215 - 1, u32::MAX] {
        asked(cases, "x past the longest segment", &run, (&train, x), [Answer::refused(11, 0); 2]);
    }
}

/// Adds runs with a slower segment, a broken one and noise past the count: none of them plays a part.
fn past_the_count(cases: &mut Vec<RunDesk>) {
    let slow = draft(SLOW);
    for behind in [slow.packet(), slow.sheet(), slow.packet()[..38].to_vec(), vec![0x80, 0x00], vec![0xFF; 64], Vec::new()] {
        for (count, kind, speed) in [1, 2, 3].into_iter().flat_map(|count| [(count, KIND_PACKET, 100), (count, KIND_SHEET, 104)])
        {
            let lent = [0, 1, 2, 3].map(|nth| if nth < count { bytes(kind, FAST) } else { behind.clone() });
            let answer = Answer::success(speed);
            cases.push(RunDesk { name: "past the count", kind, count, lent, train: TRAIN, x: 0, answer });
        }
    }
}

/// Broken segments of a kind, each with its refusal and place.
fn broken_ones(kind: u32) -> [(Vec<u8>, Answer); LENT] {
    let (whole, journey) = (bytes(kind, FAST), journey((0, 0, 0)));
    let length = whole.len() as u32;
    match kind {
        KIND_PACKET => [
            (whole[..14].to_vec(), Answer::refused(1, 0)),
            (journey.packet(), Answer::refused(2, 0)),
            (whole[..38].to_vec(), Answer::refused(3, 0)),
            ([&whole[..38], &[0x01]].concat(), Answer::refused(7, 311)),
        ],
        _ => [
            (whole[..3].to_vec(), Answer::refused(9, 1)),
            (journey.sheet(), Answer::refused(2, 0)),
            (bytes(kind, plan(1_000, 605)), Answer::refused(4, 17)),
            ([&whole[..], &[0]].concat(), Answer::refused(9, length)),
        ],
    }
}

/// Adds runs whose segments are broken from a place on, each in another way, with a train that is not allowed and x past the end: a run is
/// refused as the first of them.
fn broken(cases: &mut Vec<RunDesk>) {
    for kind in [KIND_PACKET, KIND_SHEET] {
        let ones = broken_ones(kind);
        for (place, next) in (0..LENT).flat_map(|place| (0..LENT).map(move |next| (place, next))) {
            let behind = |nth: usize| ones[(next + nth - place) % LENT].0.clone();
            let lent = [0, 1, 2, 3].map(|nth| if nth < place { bytes(kind, FAST) } else { behind(nth) });
            let (train, answer) = (Train { length: 0, ..TRAIN }, ones[next].1);
            cases.push(RunDesk { name: "a broken segment", kind, count: LENT as u32, lent, train, x: 1_000, answer });
        }
    }
}

/// Adds trains that are not allowed and locations past the end of the last segment.
fn train_and_x(cases: &mut Vec<RunDesk>) {
    let none = Train { length: 0, ..TRAIN };
    for count in 1..=LENT {
        asked(cases, "10 before 11", &[FAST; LENT][..count], (&none, 1_000), [Answer::refused(10, 0); 2]);
        asked(cases, "11 last of all", &[FAST; LENT][..count], (&TRAIN, 1_000), [Answer::refused(11, 0); 2]);
    }
    let (short, long) = (plan(10, 104), plan(2_000, 104));
    asked(cases, "11 against the last, a shorter one", &[long, short], (&TRAIN, 10), [Answer::refused(11, 0); 2]);
    asked(cases, "11 against the last, a longer one", &[short, long], (&TRAIN, 2_000), [Answer::refused(11, 0); 2]);
    give(cases, "11 against the last, a longer one", &[short, long], &TRAIN, &[(1_999, 104)]);
}

/// Adds each question with counts that no run has, refused with 16, and with unknown kinds, refused with 15, whatever the count.
fn never_read(cases: &mut Vec<RunDesk>) {
    let asked = cases.clone();
    for count in NO_RUNS {
        cases.extend(asked.iter().map(|case| RunDesk { count, answer: Answer::refused(16, 0), ..case.clone() }));
    }
    for (kind, count) in [(2, 1), (3, 4), (256, 2), (0x8000_0001, 3), (u32::MAX, 4), (2, 0), (u32::MAX, 5), (257, u32::MAX)] {
        cases.extend(asked.iter().map(|case| RunDesk { kind, count, answer: Answer::refused(15, 0), ..case.clone() }));
    }
}

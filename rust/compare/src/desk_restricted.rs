//! Desk cases of restricted speeds: each speed is worked out by hand, and asked of the sheets and of their packets.

use crate::check::require;
use crate::desk::{draft, Plan, DOCUMENT, TRAIN};
use crate::draft::{Constraint, Draft, Kind};
use crate::program::{Answer, Train, KIND_PACKET, KIND_SHEET, LENT};
use crate::restricted::Asked;
use crate::restricted_event::RestrictedTally;

/// A question about a run and a journey, and its answer.
pub struct RestrictedDesk {
    pub name: &'static str,
    asked: Asked,
    answer: Answer,
}

impl RestrictedDesk {
    /// Asks both programs and checks what they give.
    pub fn check(&self, tally: &mut RestrictedTally) -> Result<(), String> {
        let answer = self.asked.compare(tally)?;
        require(answer == self.answer, &format!("both gave {answer:?}, the page {:?}: {}", self.answer, self.asked))
    }
}

/// A segment of a journey: NID_SP, the minor version, Q_SP_DIR, its constraints by Q_TC_Type, Q_TC_Range, start, end, Q_FRONT and km/h.
type Leg = (u32, u32, u32, &'static [[u32; 6]]);

/// Segments by NID_SP: its length in cm and its km/h, with the delay; all are of version 0.5.
const SEGMENTS: [(u32, u32); 5] = [(1_000, 104), (50, 104), (1_000, 104), (10, 104), (16_777_215, 104)];
const LONG: u32 = 0;
const SHORT: u32 = 1;
const LAST: u32 = 2;
const LEAST: u32 = 3;
const LONGEST: u32 = 4;

const PLAIN: Leg = (LONG, 5, 1, &[]);
/// A leg that no run has here: another segment, in reverse, with a constraint that starts at the end.
const OTHER: Leg = (99, 0, 0, &[[0, 0, 1_000, 0, 0, 5]]);
const WHOLE: &[[u32; 6]] = &[[0, 3, 0, 0, 0, 43]];

/// Journeys, the run's segments, the leg, and the speeds in km/h that the sheets give a train of 200 cm, by x.
const SPEEDS: [(&str, &[Leg], &[u32], u32, &[(u32, i64)]); 28] = [
    ("no constraint", &[PLAIN], &[LONG], 0, &[(0, 104), (999, 104)]),
    ("from a start", &[(LONG, 5, 1, &[[0, 0, 300, 0, 0, 43]])], &[LONG], 0, &[(299, 104), (300, 43), (999, 43)]),
    ("from the last centimetre", &[(LONG, 5, 1, &[[0, 0, 999, 0, 1, 43]])], &[LONG], 0, &[(998, 104), (999, 43)]),
    ("to an end, Q_FRONT 1", &[(LONG, 5, 1, &[[0, 1, 0, 300, 1, 43]])], &[LONG], 0, &[(0, 43), (299, 43), (300, 104)]),
    ("to an end", &[(LONG, 5, 1, &[[0, 1, 0, 300, 0, 43]])], &[LONG], 0, &[(0, 43), (499, 43), (500, 104)]),
    ("to the segment's end", &[(LONG, 5, 1, &[[0, 1, 0, 1_000, 1, 43]])], &[LONG], 0, &[(0, 43), (999, 43)]),
    (
        "from a start to an end, Q_FRONT 1",
        &[(LONG, 5, 1, &[[0, 2, 300, 500, 1, 43]])],
        &[LONG],
        0,
        &[(299, 104), (300, 43), (499, 43), (500, 104)],
    ),
    (
        "from a start to an end",
        &[(LONG, 5, 1, &[[0, 2, 300, 500, 0, 43]])],
        &[LONG],
        0,
        &[(299, 104), (300, 43), (699, 43), (700, 104)],
    ),
    ("all of it", &[(LONG, 5, 1, &[[0, 3, 0, 0, 1, 43]])], &[LONG], 0, &[(0, 43), (999, 43)]),
    (
        "higher than the profile",
        &[(LONG, 5, 1, &[[0, 3, 0, 0, 1, 105], [0, 3, 0, 0, 1, 604]])],
        &[LONG],
        0,
        &[(0, 104), (999, 104)],
    ),
    ("to a standstill", &[(LONG, 5, 1, &[[0, 3, 0, 0, 1, 0]])], &[LONG], 0, &[(0, 0)]),
    (
        "the lowest of three",
        &[(LONG, 5, 1, &[[0, 3, 0, 0, 1, 90], [0, 2, 200, 400, 1, 43], [0, 0, 300, 0, 1, 64]])],
        &[LONG],
        0,
        &[(199, 90), (200, 43), (399, 43), (400, 64)],
    ),
    (
        "each with its own Q_FRONT",
        &[(LONG, 5, 1, &[[0, 2, 300, 500, 0, 63], [0, 2, 300, 550, 1, 43]])],
        &[LONG],
        0,
        &[(549, 43), (550, 63), (699, 63), (700, 104)],
    ),
    ("low adhesion", &[(LONG, 5, 1, &[[1, 3, 0, 0, 0, 0]])], &[LONG], 0, &[(0, 104)]),
    (
        "driving modes past the end",
        &[(LONG, 5, 1, &[[2, 0, 1_000, 0, 0, 0], [3, 1, 0, 0, 0, 0], [2, 2, 999, 1_001, 0, 0]])],
        &[LONG],
        0,
        &[(0, 104)],
    ),
    ("another leg's constraint", &[OTHER, PLAIN, (LAST, 5, 1, WHOLE)], &[LONG], 1, &[(200, 104), (999, 104)]),
    ("the leg's own constraint", &[OTHER, PLAIN, (LAST, 5, 1, WHOLE)], &[LAST], 2, &[(200, 43), (999, 43)]),
    ("a segment twice, first", &[PLAIN, (SHORT, 5, 1, &[]), (LONG, 5, 1, WHOLE)], &[LONG], 0, &[(300, 104)]),
    ("a segment twice, then", &[PLAIN, (SHORT, 5, 1, &[]), (LONG, 5, 1, WHOLE)], &[LONG], 2, &[(300, 43)]),
    (
        "over a short segment",
        &[(LONG, 5, 1, &[[0, 0, 950, 0, 0, 43]]), (SHORT, 5, 1, &[]), (LAST, 5, 1, &[])],
        &[LONG, SHORT, LAST],
        2,
        &[(0, 43), (149, 43), (150, 104)],
    ),
    (
        "over a short segment, Q_FRONT 1",
        &[(LONG, 5, 1, &[[0, 0, 950, 0, 1, 43]]), (SHORT, 5, 1, &[]), (LAST, 5, 1, &[])],
        &[LONG, SHORT, LAST],
        2,
        &[(0, 104)],
    ),
    (
        "an end before the boundary",
        &[(LONG, 5, 1, &[[0, 2, 100, 851, 0, 43]]), (SHORT, 5, 1, &[]), (LAST, 5, 1, &[])],
        &[LONG, SHORT, LAST],
        2,
        &[(0, 43), (1, 104)],
    ),
    (
        "locations of its own segment",
        &[PLAIN, (SHORT, 5, 1, &[[0, 2, 10, 20, 0, 43]]), (LAST, 5, 1, &[[0, 2, 10, 20, 1, 30]])],
        &[LONG, SHORT, LAST],
        2,
        &[(9, 43), (10, 30), (19, 30), (20, 43), (169, 43), (170, 104)],
    ),
    (
        "a start past the last segment's L_SP",
        &[(LONG, 5, 1, &[[0, 0, 500, 0, 1, 43]]), (LEAST, 5, 1, &[])],
        &[LONG, LEAST],
        1,
        &[(0, 104)],
    ),
    ("a long train at leg 0", &[(LEAST, 5, 1, WHOLE), (SHORT, 5, 1, &[])], &[LEAST, SHORT], 1, &[(0, 43), (49, 43)]),
    ("the tail at the run's start", &[OTHER, (SHORT, 5, 1, &[]), PLAIN], &[SHORT, LONG], 2, &[(150, 104), (999, 104)]),
    ("the same segment four times", &[(LONG, 5, 1, WHOLE), PLAIN, PLAIN, PLAIN], &[LONG; LENT], 3, &[(0, 104), (999, 104)]),
    (
        "the longest run",
        &[(LONGEST, 5, 1, WHOLE), (LONGEST, 5, 1, &[]), (LONGEST, 5, 1, &[[0, 0, 16_777_214, 0, 0, 43]]), (LONGEST, 5, 1, &[])],
        &[LONGEST; LENT],
        3,
        &[(0, 43), (199, 43), (200, 104), (16_777_214, 104)],
    ),
];

/// Journeys over a segment before the run, the run of two, and one after it, that are refused with 23 to 25, by the run's legs: each with a train that
/// is not allowed and x past the end.
const FAULTS: [(&str, Leg, Leg, u32); 13] = [
    ("another NID_SP", (SHORT, 5, 0, PAST), (SHORT, 5, 0, PAST), 23),
    ("another minor version", (LONG, 4, 0, PAST), (LEAST, 5, 1, &[]), 23),
    ("in reverse", (LONG, 5, 0, PAST), (SHORT, 5, 0, PAST), 24),
    ("a start at L_SP", (LONG, 5, 1, PAST), (SHORT, 5, 0, PAST), 25),
    ("a start past L_SP", (LONG, 5, 1, &[[0, 0, 16_777_215, 0, 0, 604]]), (LEAST, 5, 1, &[]), 25),
    ("an end of 0", (LONG, 5, 1, &[[0, 1, 0, 0, 0, 43]]), (LEAST, 5, 1, &[]), 25),
    ("an end past L_SP", (LONG, 5, 1, &[[0, 1, 0, 1_001, 0, 43]]), (LEAST, 5, 1, &[]), 25),
    ("a start with an end past L_SP", (LONG, 5, 1, &[[0, 3, 0, 0, 0, 43], [0, 2, 999, 1_001, 0, 43]]), (LEAST, 5, 1, &[]), 25),
    ("the second's NID_SP", PLAIN, (LONG, 5, 0, PAST), 23),
    ("the second's minor version", PLAIN, (LEAST, 0, 0, PAST), 23),
    ("the second in reverse", PLAIN, (LEAST, 5, 0, PAST), 24),
    ("the second's start at L_SP", PLAIN, (LEAST, 5, 1, &[[0, 0, 10, 0, 0, 43]]), 25),
    ("none of them", PLAIN, (LEAST, 5, 1, &[[0, 1, 0, 10, 0, 43], [0, 0, 9, 0, 0, 43]]), 10),
];
const PAST: &[[u32; 6]] = &[[0, 0, 1_000, 0, 0, 43]];

/// Returns all desk cases of restricted speeds.
pub fn cases() -> Vec<RestrictedDesk> {
    let mut cases = Vec::new();
    for (name, legs, run, leg, speeds) in SPEEDS {
        for (x, speed) in speeds {
            asked(&mut cases, name, (legs, run, leg), (&TRAIN, *x), [Answer::success(speed / 5 * 5), Answer::success(*speed)]);
        }
    }
    by_maximum(&mut cases);
    by_leg(&mut cases);
    other_identities(&mut cases);
    for (name, first, second, refusal) in FAULTS {
        let (legs, none) = ([OTHER, first, second, OTHER], Train { maximum: 0, ..TRAIN });
        asked(&mut cases, name, (&legs, &[LONG, LEAST], 2), (&none, 10), [Answer::refused(refusal, 0); 2]);
        asked(&mut cases, name, (&legs, &[LONG, LEAST], 4), (&none, 10), [Answer::refused(22, 0); 2]);
    }
    tails(&mut cases);
    never_read(&mut cases);
    cases
}

/// Adds a question about packets and one about sheets; what is not lent is empty.
fn asked(
    cases: &mut Vec<RestrictedDesk>,
    name: &'static str,
    (legs, run, leg): (&[Leg], &[u32], u32),
    (train, x): (&Train, u32),
    answers: [Answer; 2],
) {
    put(cases, name, (&journey(legs), run, leg), (train, x), answers);
}

/// Adds both questions about a journey by its fields.
fn put(
    cases: &mut Vec<RestrictedDesk>,
    name: &'static str,
    (journey, run, leg): (&Draft, &[u32], u32),
    (train, x): (&Train, u32),
    answers: [Answer; 2],
) {
    for (kind, answer) in [KIND_PACKET, KIND_SHEET].into_iter().zip(answers) {
        let written = |draft: &Draft| if kind == KIND_PACKET { draft.packet() } else { draft.sheet() };
        let segments = [0, 1, 2, 3].map(|nth| run.get(nth).map_or(Vec::new(), |number| written(&segment(*number))));
        let (journey, train) = (written(journey), train.clone());
        let asked = Asked { kind, count: run.len() as u32, segments, journey, leg, train, x };
        cases.push(RestrictedDesk { name, asked, answer });
    }
}

/// Adds a journey with each number of its segment's identity changed in turn, in its lowest bit and in its highest.
fn other_identities(cases: &mut Vec<RestrictedDesk>) {
    for (place, width) in [(8, 10), (9, 32), (10, 8), (11, 8)] {
        for bit in [0, width - 1] {
            let mut other = journey(&[PLAIN]);
            let value = other.fields[place].value ^ 1 << bit;
            (other.fields[place].value, other.fields[place].number) = (value, value.into());
            put(cases, "another segment", (&other, &[LONG], 0), (&TRAIN, 0), [Answer::refused(23, 0); 2]);
        }
    }
}

/// Returns a segment by its NID_SP.
fn segment(number: u32) -> Draft {
    let (length, speed) = SEGMENTS[number as usize];
    let mut draft = draft(Plan { length, speed, ..DOCUMENT });
    for (place, value) in [(7, number), (9, 5)] {
        (draft.fields[place].value, draft.fields[place].number) = (value, value.into());
    }
    draft
}

/// Returns a journey without timing points.
fn journey(legs: &[Leg]) -> Draft {
    let mut draft = Draft::default();
    for (width, value) in [(8, 4), (32, 0x12345), (24, 1), (15, 0), (17, 0), (8, 7), (3, 1), (8, legs.len() as u32)] {
        draft.same(Kind::Plain, width, value);
    }
    for (number, minor, direction, constraints) in legs {
        let counts = [(5, 0), (5, constraints.len() as u32)];
        for (width, value) in [(10, 0), (32, *number), (8, 0), (8, *minor), (1, *direction)].into_iter().chain(counts) {
            draft.same(Kind::Plain, width, value);
        }
        constraints.iter().for_each(|[tc_type, range, start, end, front, speed]| {
            let constraint: Constraint = [*tc_type, *range, *start, *end, *front, *speed, u32::from(*tc_type == 1), 0];
            draft.constraint(constraint);
        });
    }
    draft
}

/// Adds speeds by the train's maximum, above and below a restriction.
fn by_maximum(cases: &mut Vec<RestrictedDesk>) {
    for (maximum, speeds) in [(600, [40, 43]), (44, [40, 43]), (42, [40, 42]), (39, [39, 39]), (1, [1, 1])] {
        let train = Train { maximum, ..TRAIN };
        asked(cases, "a maximum", (&[(LONG, 5, 1, WHOLE)], &[LONG], 0), (&train, 0), speeds.map(Answer::success));
    }
}

/// Adds legs about both ends of a journey of two: some of them have the low bits of a leg that there is.
fn by_leg(cases: &mut Vec<RestrictedDesk>) {
    let (legs, refused) = ([PLAIN, PLAIN], [Answer::refused(22, 0); 2]);
    for (run, leg, inside) in
        [(1, 0, true), (1, 1, true), (1, 2, false), (2, 0, false), (2, 1, true), (2, 2, false), (3, 1, false)]
    {
        let answers = if inside { [Answer::success(100), Answer::success(104)] } else { refused };
        asked(cases, "a leg", (&legs, &[LONG; 3][..run], leg), (&TRAIN, 999), answers);
    }
    for leg in [255, 256, 257, 65_536, 65_537, 0x8000_0001, u32::MAX - 1, u32::MAX] {
        asked(cases, "a leg far off", (&legs, &[LONG], leg), (&TRAIN, 999), refused);
        asked(cases, "a leg far off", (&legs, &[LONG; 2], leg), (&TRAIN, 999), refused);
    }
    asked(cases, "no leg at all", (&[], &[LONG], 0), (&TRAIN, 999), refused);
}

/// Adds trains whose tail is before the run, and the order of 10, 11 and 26.
fn tails(cases: &mut Vec<RestrictedDesk>) {
    let legs = [OTHER, (SHORT, 5, 1, &[][..]), PLAIN];
    let (tail, past) = ([Answer::refused(26, 0); 2], [Answer::refused(11, 0); 2]);
    asked(cases, "a tail before a run of one", (&legs, &[LONG], 2), (&TRAIN, 199), tail);
    asked(cases, "a tail before a run of two", (&legs, &[SHORT, LONG], 2), (&TRAIN, 149), tail);
    let of = |length| Train { length, ..TRAIN };
    asked(cases, "longer than all that is lent", (&legs, &[SHORT, LONG], 2), (&of(1_050), 999), tail);
    asked(cases, "11 before 26", (&legs, &[SHORT, LONG], 2), (&of(1_100), 1_000), past);
    asked(cases, "10 before 11 and 26", (&legs, &[SHORT, LONG], 2), (&of(150_001), 1_000), [Answer::refused(10, 0); 2]);
    asked(cases, "11 against the last", (&[PLAIN, (LEAST, 5, 1, &[])], &[LONG, LEAST], 1), (&TRAIN, 10), past);
}

/// Adds each question with counts that no run has, refused with 16, with unknown kinds, refused with 15, and with a broken last segment or journey.
fn never_read(cases: &mut Vec<RestrictedDesk>) {
    let known: Vec<_> = cases.iter().map(|case| (case.name, case.asked.clone())).collect();
    for (name, asked) in known {
        let mut refused = |asked: Asked, refusal, place| {
            cases.push(RestrictedDesk { name, asked, answer: Answer::refused(refusal, place) });
        };
        for count in [0, 5, 257, u32::MAX] {
            refused(Asked { count, ..asked.clone() }, 16, 0);
        }
        for (kind, count) in [(2, 1), (256, 0), (u32::MAX, 5)] {
            refused(Asked { kind, count, journey: Vec::new(), ..asked.clone() }, 15, 0);
        }
        let (cut, segment) = (asked.journey.len() - 1, asked.segments[0].clone());
        let by_kind = |packet: u32, sheet: u32| if asked.kind == KIND_PACKET { packet } else { sheet };
        refused(Asked { journey: asked.journey[..cut].to_vec(), ..asked.clone() }, by_kind(3, 9), by_kind(0, cut as u32));
        refused(Asked { journey: Vec::new(), ..asked.clone() }, by_kind(1, 9), 0);
        refused(Asked { journey: segment, ..asked.clone() }, 2, 0);
        let mut broken = asked.clone();
        broken.segments[asked.count as usize - 1].truncate(2);
        refused(Asked { journey: Vec::new(), ..broken }, by_kind(1, 9), by_kind(0, 1));
    }
}

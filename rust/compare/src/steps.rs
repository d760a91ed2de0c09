//! Steps on random runs, made right by the archive's own question and then damaged: both programs must agree on every check.

use crate::archive::Archive;
use crate::case::any_kind;
use crate::check::require;
use crate::program::{Answer, Program, Run, Train, KIND_PACKET, KIND_SHEET, LENT, UNKNOWN_KIND};
use crate::random::Random;
use crate::runs::Drawn;
use crate::second_program::Second;
use crate::steps_event::{StepsEvent, StepsTally};

/// Most steps of a check.
const MOST: usize = 128;
/// Segments up to this length are looked at centimetre by centimetre by the second program.
const SHORT: u32 = 200;
const ACCEPTED: Answer = Answer { refusal: 0, place: 0, value: 0 };
const NOT_STEPPED: Answer = Answer { refusal: 18, place: 0, value: 0 };

/// What is asked about: a run of a kind and a train.
#[derive(Clone, Copy)]
struct Asked<'a> {
    kind: u32,
    run: Run<'a>,
    train: &'a Train,
}

#[derive(Clone, Debug)]
struct Steps {
    starts: Vec<u32>,
    speeds: Vec<u32>,
}

/// Returns the places of a run's last segment, in their order, at which right steps can need a step: 0 and those where the speed can change.
pub fn places(kind: u32, Run { count, lent }: Run, train: &Train) -> Vec<u32> {
    let mut places = second::step_places(kind, count, lent, train).expect("the run is answered");
    places.push(0);
    places.sort_unstable();
    places.dedup();
    places
}

/// Checks steps on a random run, as packets and as sheets.
pub fn check(random: &mut Random, tally: &mut StepsTally) -> Result<(), String> {
    let drawn = Drawn::random(random);
    for kind in [KIND_PACKET, KIND_SHEET] {
        let asked = Asked { kind, run: drawn.run(kind), train: &drawn.train };
        asked.check(random, tally).map_err(|why| format!("{why}: steps, kind {kind}, {drawn}"))?;
    }
    Ok(())
}

impl Asked<'_> {
    fn check(&self, random: &mut Random, tally: &mut StepsTally) -> Result<(), String> {
        self.unknown(random, tally)?;
        let first = Archive::permitted_speed(self.kind, self.run, self.train, 0);
        if first.refusal > 0 {
            let answer = self.compare(&Steps { starts: vec![1, 0], speeds: vec![random.between(0, 604)] })?;
            let events = [(StepsEvent::BadRun, 16), (StepsEvent::BadTrain, 10)];
            tally.count(&events.map(|(event, refusal)| (event, answer.refusal == refusal)));
            tally.count(&[(StepsEvent::OwnRefusal, ![10, 16].contains(&answer.refusal))]);
            return require(answer == first, "steps are not refused as the question at 0 is");
        }
        let right = self.right(random);
        let length = self.length();
        if right.starts.len() > MOST {
            return require(self.compare(&right)? == NOT_STEPPED, "more than 128 right steps are not refused with 18");
        }
        require(self.compare(&right)? == ACCEPTED, "right steps are not accepted")?;
        tally.count(&[
            (StepsEvent::Right, true),
            (StepsEvent::RightOne, right.starts.len() == 1),
            (StepsEvent::RightMany, right.starts.len() > 32),
            (StepsEvent::RightShort, length <= SHORT),
            (StepsEvent::RightRun, self.run.count > 1),
            (StepsEvent::Neighbours, right.speeds.windows(2).any(|pair| pair[0] == pair[1])),
        ]);
        self.wrong(random, &right, length, tally)?;
        self.unstepped(random, &right, length, tally)
    }

    /// Puts steps to both programs.
    fn compare(&self, Steps { starts, speeds }: &Steps) -> Result<Answer, String> {
        let answer = Archive::check_steps(self.kind, self.run, self.train, starts, speeds);
        let expected = Second::check_steps(self.kind, self.run, self.train, starts, speeds);
        let told = format!("the archive gave {answer:?}, the second program {expected:?} for {starts:?} {speeds:?}");
        require(answer == expected, &told)?;
        Ok(answer)
    }

    /// Checks that a run of an unknown kind is refused first of all.
    fn unknown(&self, random: &mut Random, tally: &mut StepsTally) -> Result<(), String> {
        let kind = any_kind(random);
        if kind < UNKNOWN_KIND {
            return Ok(());
        }
        tally.count(&[(StepsEvent::UnknownKind, true)]);
        let answer = Asked { kind, ..*self }.compare(&Steps { starts: vec![], speeds: vec![] })?;
        require(answer == Answer::refused(15, 0), "steps on an unknown kind are not refused with 15")
    }

    /// Returns the length of the last segment: the least x that is refused.
    fn length(&self) -> u32 {
        let inside = |x: &u32| Archive::permitted_speed(self.kind, self.run, self.train, *x).refusal == 0;
        let (mut low, mut high) = (0, 1 << 24);
        while low < high {
            let middle = (low + high) / 2;
            if inside(&middle) {
                low = middle + 1;
            } else {
                high = middle;
            }
        }
        low
    }

    fn speed(&self, x: u32) -> u32 {
        Archive::permitted_speed(self.kind, self.run, self.train, x).value as u32
    }

    /// Makes right steps: one at each place where the speed can change, some of them only where it does.
    fn right(&self, random: &mut Random) -> Steps {
        let starts = places(self.kind, self.run, self.train);
        let thin = random.one_in(2);
        let mut steps = Steps { starts: vec![], speeds: vec![] };
        for start in starts {
            let speed = self.speed(start);
            if !thin || steps.speeds.last() != Some(&speed) {
                steps.starts.push(start);
                steps.speeds.push(speed);
            }
        }
        steps
    }

    /// Checks steps with a wrong speed, one that is a centimetre off, one that is left out, and speeds above the train's maximum.
    fn wrong(&self, random: &mut Random, right: &Steps, length: u32, tally: &mut StepsTally) -> Result<(), String> {
        let place = random.place(right.starts.len());
        let start = right.starts[place];
        let mut other = right.clone();
        other.speeds[place] = random.pick(&[right.speeds[place] + 1, right.speeds[place].wrapping_sub(1), 605, u32::MAX]);
        require(self.compare(&other)? == Answer::refused(19, start), "a wrong speed is not refused at its start")?;
        tally.count(&[
            (StepsEvent::WrongAtZero, start == 0),
            (StepsEvent::WrongShort, start > 0 && length <= SHORT),
            (StepsEvent::WrongLong, start > 0 && length > SHORT),
        ]);
        if place > 0 && right.speeds[place] != right.speeds[place - 1] {
            self.misplaced(right, place, length, tally)?;
        }
        let mut free = right.clone();
        let unlimited = Train { maximum: 600, ..self.train.clone() };
        let ours = Asked { train: &unlimited, ..*self };
        free.speeds = free.starts.iter().map(|start| ours.speed(*start)).collect();
        let wrong = free.speeds.iter().zip(&right.speeds).position(|(free, right)| free != right);
        let expected = wrong.map_or(ACCEPTED, |step| Answer::refused(19, right.starts[step]));
        tally.count(&[(StepsEvent::NoMaximum, wrong.is_some())]);
        require(self.compare(&free)? == expected, "speeds above the maximum are not refused at the first of them")
    }

    /// Checks a step that starts a centimetre late, a centimetre early, and that is left out; its speed is not that of the step before.
    fn misplaced(&self, right: &Steps, place: usize, length: u32, tally: &mut StepsTally) -> Result<(), String> {
        let start = right.starts[place];
        let next = right.starts.get(place + 1).copied().unwrap_or(length);
        let mut moved = right.clone();
        if start + 1 < next {
            moved.starts[place] = start + 1;
            tally.count(&[(StepsEvent::MovedOn, true)]);
            require(self.compare(&moved)? == Answer::refused(19, start), "a step too late is not refused at the right start")?;
        }
        if start - 1 > right.starts[place - 1] {
            moved.starts[place] = start - 1;
            tally.count(&[(StepsEvent::MovedBack, true)]);
            require(self.compare(&moved)? == Answer::refused(19, start - 1), "a step too early is not refused at its start")?;
        }
        let mut fewer = right.clone();
        fewer.starts.remove(place);
        fewer.speeds.remove(place);
        tally.count(&[(StepsEvent::LeftOut, true)]);
        require(self.compare(&fewer)? == Answer::refused(19, start), "a step that is left out is not missed at its start")
    }

    /// Checks lists that are no steps: each is refused with 18, with a wrong speed too.
    fn unstepped(&self, random: &mut Random, right: &Steps, length: u32, tally: &mut StepsTally) -> Result<(), String> {
        let mut steps = right.clone();
        let event = match random.between(0, 6) {
            0 => {
                steps = Steps { starts: vec![], speeds: vec![] };
                StepsEvent::None
            }
            1 => {
                steps.starts = (0..=MOST as u32).collect();
                steps.speeds.resize(MOST + 1, 0);
                StepsEvent::TooMany
            }
            2 => {
                steps.starts[0] = random.pick(&[1, u32::MAX]);
                StepsEvent::NotFromZero
            }
            3 => {
                let place = random.place(steps.starts.len());
                steps.starts.insert(place, steps.starts[place]);
                steps.speeds.insert(place, steps.speeds[place]);
                StepsEvent::NotRising
            }
            4 => {
                steps.starts.push(random.pick(&[length, length + 1, u32::MAX]));
                steps.speeds.push(0);
                StepsEvent::PastEnd
            }
            5 => {
                steps.speeds.pop();
                StepsEvent::MoreStarts
            }
            _ => {
                steps.speeds.push(0);
                StepsEvent::MoreSpeeds
            }
        };
        let wrong = random.one_in(2) && !steps.speeds.is_empty();
        if wrong {
            steps.speeds[0] = steps.speeds[0].wrapping_add(1);
        }
        tally.count(&[(event, true), (StepsEvent::WrongToo, wrong)]);
        require(self.compare(&steps)? == NOT_STEPPED, "a list that is no steps is not refused with 18")
    }
}

/// Checks the most steps: 128 on a segment, and 129; and a run of four segments. Returns how many cases there are.
pub fn desk() -> Result<usize, String> {
    // A segment of 1,000 cm, 80 km/h.
    let sheet = [6, 0xC5, 0xC6, 4, 1, 0, 0, 7, 0, 0, 0, 0, 0xE8, 7, 0, 0, 0, 80, 0, 0, 0, 0, 0, 0, 0, 0];
    let train = Train { length: 200, cant: 150, maximum: 600, freight_p: false, freight_g: false, passenger: true };
    let runs = [Run::one(&sheet), Run { count: LENT as u32, lent: [&sheet; LENT] }];
    let steps = |count: u32| Steps { starts: (0..count).map(|nth| nth * 7).collect(), speeds: vec![80; count as usize] };
    let cases = [(1, ACCEPTED), (127, ACCEPTED), (128, ACCEPTED), (129, NOT_STEPPED), (0, NOT_STEPPED)];
    for run in runs {
        for (count, expected) in cases {
            let answer = Asked { kind: KIND_SHEET, run, train: &train }.compare(&steps(count))?;
            require(answer == expected, &format!("{count} steps: both gave {answer:?}, the request {expected:?}"))?;
        }
    }
    Ok(runs.len() * cases.len())
}

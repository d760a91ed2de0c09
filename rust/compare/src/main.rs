//! Compares the archive with the second program: the desk cases, then a random case for each seed.
//! `compare --seed N` shows one case again. SEGLINK_CASES is the number of cases, SEGLINK_SEED the first seed.

use compare::case::Case;
use compare::check::{check, compare};
use compare::desk;
use compare::desk_intakes;
use compare::desk_restricted;
use compare::desk_runs;
use compare::desk_shelves;
use compare::random::Random;
use compare::restricted;
use compare::restricted_event::RestrictedTally;
use compare::shelf_event::ShelfTally;
use compare::shelves;
use compare::steps;
use compare::steps_event::StepsTally;
use compare::tally::Tally;
use std::panic::{catch_unwind, AssertUnwindSafe};
use std::time::Instant;

const CASES: u64 = 40_000;
const FIRST_SEED: u64 = 1;
/// One case in so many asks for restricted speeds too, some thirty questions: the gate's time is short.
const RESTRICTED: u64 = 3;
/// How many failures are shown whole; later ones are only counted.
const SHOWN: u64 = 5;

#[derive(Default)]
struct Run {
    tally: Tally,
    shelves: ShelfTally,
    steps: StepsTally,
    restricted: RestrictedTally,
    passed: u64,
    failed: u64,
}

fn main() {
    let arguments: Vec<String> = std::env::args().skip(1).collect();
    let mut run = Run::default();
    match arguments.iter().map(String::as_str).collect::<Vec<_>>()[..] {
        [] => run.all(),
        ["--seed", seed] => run.again(seed.parse().expect("a seed is a number")),
        _ => panic!("usage: compare [--seed N]"),
    }
    println!("{} passed, {} failed", run.passed, run.failed);
    std::process::exit(i32::from(run.failed > 0));
}

impl Run {
    fn all(&mut self) {
        let began = Instant::now();
        self.desk();
        self.desk_of_runs();
        self.desk_of_intakes();
        self.desk_of_shelves();
        self.desk_of_steps();
        self.desk_of_restricted();
        let (first, cases) = (setting("SEGLINK_SEED", FIRST_SEED), setting("SEGLINK_CASES", CASES));
        for seed in first..first + cases {
            self.case(seed);
        }
        let seconds = began.elapsed().as_secs_f64();
        println!("{}", self.tally);
        println!("{}", self.shelves);
        println!("{}", self.steps);
        println!("{}", self.restricted);
        println!("{cases} random cases from seed {first} in {seconds:.0} s, {:.0} a second", cases as f64 / seconds);
        let missing = [self.tally.missing(), self.shelves.missing(), self.steps.missing(), self.restricted.missing()];
        missing.into_iter().flatten().for_each(|missing| self.count(Err(missing)));
    }

    fn desk(&mut self) {
        let mut random = Random::new(0);
        let cases = desk::cases();
        println!("{} desk cases", cases.len());
        for case in cases {
            let compared = compare(&mut random, &case.question(), case.room, &mut self.tally);
            let outcome = compared.and_then(|answer| match answer == case.answer {
                true => Ok(()),
                false => Err(format!("both gave {answer:?}, the document {:?}", case.answer)),
            });
            self.count(outcome.map_err(|why| format!("desk case, {}: {why}", case.name)));
        }
    }

    fn desk_of_runs(&mut self) {
        let cases = desk_runs::cases();
        println!("{} desk cases of runs", cases.len());
        for case in cases {
            let outcome = case.check(&mut self.tally);
            self.count(outcome.map_err(|why| format!("desk case, {}: {why}", case.name)));
        }
    }

    fn desk_of_intakes(&mut self) {
        let mut random = Random::new(0);
        let cases = desk_intakes::cases();
        println!("{} desk cases of the intake", cases.len());
        for case in cases {
            self.count(case.check(&mut random).map_err(|why| format!("desk case, {}: {why}", case.name)));
        }
    }

    fn desk_of_shelves(&mut self) {
        let outcome = desk_shelves::check();
        println!("{} desk cases of the shelf", *outcome.as_ref().unwrap_or(&0));
        self.count(outcome.map(|_| ()).map_err(|why| format!("desk case, {why}")));
    }

    fn desk_of_steps(&mut self) {
        let outcome = steps::desk();
        println!("{} desk cases of steps", *outcome.as_ref().unwrap_or(&0));
        self.count(outcome.map(|_| ()).map_err(|why| format!("desk case, {why}")));
    }

    fn desk_of_restricted(&mut self) {
        let cases = desk_restricted::cases();
        println!("{} desk cases of restricted speeds", cases.len());
        for case in cases {
            let outcome = case.check(&mut self.restricted);
            self.count(outcome.map_err(|why| format!("desk case, {}: {why}", case.name)));
        }
    }

    fn case(&mut self, seed: u64) {
        let mut random = Random::new(seed);
        let case = Case::random(&mut random);
        let outcome = catch_unwind(AssertUnwindSafe(|| {
            check(&mut random, &case, &mut self.tally)?;
            shelves::check(&mut random, &case, &mut self.shelves)?;
            steps::check(&mut random, &mut self.steps)?;
            if seed % RESTRICTED > 0 {
                return Ok(());
            }
            restricted::check(&mut random, &mut self.restricted)
        }));
        let outcome = outcome.unwrap_or_else(|_| Err("the second program or the comparison itself panicked".to_string()));
        self.count(outcome.map_err(|why| format!("seed {seed}, {}", told(&case, &why))));
    }

    fn again(&mut self, seed: u64) {
        println!("seed {seed}, {}", told(&Case::random(&mut Random::new(seed)), "asked for"));
        self.case(seed);
    }

    fn count(&mut self, outcome: Result<(), String>) {
        match outcome {
            Ok(()) => self.passed += 1,
            Err(why) => {
                self.failed += 1;
                if self.failed <= SHOWN {
                    println!("FAILED {why}");
                }
            }
        }
    }
}

/// Returns the text of a failed case, with its bytes.
fn told(case: &Case, why: &str) -> String {
    format!("{}: {why}\n  packet {}\n  sheet {}", case.name, hex(&case.packet), hex(&case.sheet))
}

fn hex(bytes: &[u8]) -> String {
    bytes.iter().map(|byte| format!("{byte:02X}")).collect()
}

fn setting(name: &str, otherwise: u64) -> u64 {
    std::env::var(name).map_or(otherwise, |text| text.parse().unwrap_or_else(|_| panic!("{name} is not a number: {text}")))
}

//! Runs the command's library, without a process for each call, on random packets and sheets. Whole ones: `numbers | pack` gives the bytes back, and
//! every field has the name, place, width and range that the draft has. Damaged ones: `explain --json` has the archive's refusal and place, and
//! for 4, 5, 6 and 9 a field that starts there. COMMAND_CASES is the number of packets of each, COMMAND_SEED the first seed.

mod damaged;
mod names;
mod whole;

use command::{run, Streams};

const CASES: u64 = 10_000;
const FIRST_SEED: u64 = 1;
/// Of how many seeds one has its sheets checked too.
const SHEETS: u64 = 8;
/// How many failures are shown whole; later ones are only counted.
const SHOWN: u64 = 5;

/// What a run of the command answered.
pub struct Ran {
    pub status: i32,
    pub output: Vec<u8>,
    pub errors: String,
}

fn main() {
    let (first, cases) = (setting("COMMAND_SEED", FIRST_SEED), setting("COMMAND_CASES", CASES));
    let mut tally = damaged::Tally::default();
    let (mut passed, mut failed) = (0, 0);
    let mut count = |what: &str, outcome: Result<(), String>| match outcome {
        Ok(()) => passed += 1,
        Err(why) => {
            failed += 1;
            if failed <= SHOWN {
                println!("FAILED {what}: {why}");
            }
        }
    };
    for seed in first..first + cases {
        count(&format!("the whole packet of seed {seed}"), whole::packet(seed));
        count(&format!("the damaged packet of seed {seed}"), damaged::packet(seed, &mut tally));
        if seed % SHEETS == 0 {
            count(&format!("the whole sheet of seed {seed}"), whole::sheet(seed));
            count(&format!("the damaged sheet of seed {seed}"), damaged::sheet(seed, &mut tally));
        }
    }
    for missing in tally.missing() {
        count("the damage", Err(missing));
    }
    println!("{tally}");
    println!("{passed} passed, {failed} failed");
    std::process::exit(i32::from(failed > 0));
}

/// Runs the command with these bytes as standard input.
pub fn ran(words: &[&str], mut input: &[u8]) -> Ran {
    let words: Vec<String> = words.iter().map(|word| word.to_string()).collect();
    let (mut output, mut errors) = (Vec::new(), Vec::new());
    let status = run(&words, &mut Streams { input: &mut input, output: &mut output, errors: &mut errors });
    Ran { status, output, errors: String::from_utf8_lossy(&errors).into() }
}

/// Fails with a reason unless something is so.
pub fn require(so: bool, why: impl FnOnce() -> String) -> Result<(), String> {
    if so {
        Ok(())
    } else {
        Err(why())
    }
}

fn setting(name: &str, otherwise: u64) -> u64 {
    std::env::var(name).map_or(otherwise, |text| text.parse().unwrap_or_else(|_| panic!("{name} is not a number: {text}")))
}

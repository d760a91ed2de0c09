//! Measures programs in one run: their rounds take turns, and the medians are kept.

use std::time::Duration;

const ROUNDS: usize = 11;

/// One round of a program, and how long it took.
pub type Round<'a> = Box<dyn FnMut() -> Duration + 'a>;

/// Median of a program's times in nanoseconds a round, and median of the ratios of its time to the first program's time in that round.
pub struct Medians {
    pub time: f64,
    pub ratio: f64,
}

/// Runs the rounds of all programs in turn and returns the medians of each.
pub fn medians(programs: &mut [Round]) -> Vec<Medians> {
    let mut times = vec![Vec::new(); programs.len()];
    for _ in 0..ROUNDS {
        for (round, times) in programs.iter_mut().zip(&mut times) {
            times.push(round().as_nanos() as f64);
        }
    }
    let ratios = |own: &[f64]| own.iter().zip(&times[0]).map(|(own, first)| own / first).collect();
    times.iter().map(|own| Medians { time: median(own.clone()), ratio: median(ratios(own)) }).collect()
}

fn median(mut times: Vec<f64>) -> f64 {
    times.sort_by(f64::total_cmp);
    times[times.len() / 2]
}

/// Returns `value` so that the compiler knows nothing about it: otherwise it could leave out calls or make one for all.
pub fn unknown<T: Copy>(value: T) -> T {
    unsafe { std::ptr::read_volatile(&value) }
}

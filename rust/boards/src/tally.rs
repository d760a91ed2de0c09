//! Counts the answers of boards, moves and screens; each must have been given.

use std::collections::BTreeMap;

/// What each operation can answer: 0, or a refusal.
const BOARDS: [u32; 12] = [0, 1, 2, 3, 4, 5, 6, 7, 10, 11, 13, 20];
const MOVES: [u32; 2] = [0, 20];
const SCREENS: [u32; 13] = [0, 1, 2, 3, 4, 5, 6, 7, 9, 10, 11, 13, 20];

#[derive(Default)]
pub struct Tally {
    counts: BTreeMap<(&'static str, u32), u64>,
}

impl Tally {
    pub fn count(&mut self, operation: &'static str, refusal: u32) {
        *self.counts.entry((operation, refusal)).or_default() += 1;
    }

    /// Prints the counts, and returns the answers that never came.
    pub fn missing(&self) -> Vec<String> {
        let listed = [("boards", &BOARDS[..]), ("moves", &MOVES), ("screens", &SCREENS), ("later cards", &[0, 10, 11]), ("longer trains, slower", &[0, 1])];
        for (operation, _) in listed {
            let of = self.counts.iter().filter(|((name, _), _)| *name == operation);
            println!("{operation}: {}", of.map(|((_, refusal), count)| format!("{refusal} {count} times")).collect::<Vec<_>>().join(", "));
        }
        let all = listed.into_iter().flat_map(|(operation, refusals)| refusals.iter().map(move |refusal| (operation, *refusal)));
        all.filter(|key| !self.counts.contains_key(key)).map(|(operation, refusal)| format!("{operation} never gave {refusal}")).collect()
    }
}

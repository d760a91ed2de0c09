//! Compares the fleet board's archive with the second program, and the wall screen's program: a list of cards for each seed, boards and
//! moves of it, a longer train on a card, and as a cards file, whole or damaged. FLEET_CASES is the number of lists, FLEET_SCREENS of screens, FLEET_SEED the first seed.

mod files;
mod tally;

use boards::archive::{lent, lowest, move_card, Board, Lent};
use compare::case::{any_location, any_train, Case};
use compare::random::Random;
use second::Card;
use tally::Tally;

const CASES: u64 = 20_000;
const SCREENS: u64 = 300;
const FIRST_SEED: u64 = 1;
/// Greatest length of a train in cm.
const LONGEST: u32 = 150_000;
/// How many failures are shown whole; later ones are only counted.
const SHOWN: u64 = 5;

fn main() {
    let (first, cases, screens) = (setting("FLEET_SEED", FIRST_SEED), setting("FLEET_CASES", CASES), setting("FLEET_SCREENS", SCREENS));
    let mut tally = Tally::default();
    let (mut passed, mut failed) = (0, 0);
    let mut count = |outcome: Result<(), String>| match outcome {
        Ok(()) => passed += 1,
        Err(why) => {
            failed += 1;
            if failed <= SHOWN {
                println!("FAILED {why}");
            }
        }
    };
    for seed in first..first + cases {
        count(check(&mut Random::new(seed), &mut tally).map_err(|why| format!("seed {seed}: {why}")));
    }
    for seed in first..first + screens {
        count(files::check(&mut Random::new(seed), &mut tally).map_err(|why| format!("screen of seed {seed}: {why}")));
    }
    for missing in tally.missing() {
        count(Err(missing));
    }
    println!("{passed} passed, {failed} failed");
    std::process::exit(i32::from(failed > 0));
}

/// Compares boards and moves of one list.
fn check(random: &mut Random, tally: &mut Tally) -> Result<(), String> {
    let case = Case::random(random);
    let mut cards = any_cards(random, &case);
    let mut handed: Vec<Lent> = cards.iter().map(lent).collect();
    board(&cards, &handed, &case.packet, tally)?;
    for _ in 0..random.between(1, 4) {
        let card = any_card(random, cards.len());
        let train = any_train(random, &case.named);
        let location = any_location(random, &case.marks, &train);
        let refusal = move_card(&mut handed, card, location);
        let expected = second::move_card(&mut cards, card, location).map_or_else(|refused| refused.refusal as u32, |()| 0);
        require(refusal == expected, || format!("a move of card {card} of {}: {refusal}, and not {expected}", cards.len()))?;
        require(handed == cards.iter().map(lent).collect::<Vec<_>>(), || format!("a move of card {card}: the lists differ"))?;
        tally.count("moves", refusal);
        board(&cards, &handed, &case.packet, tally)?;
    }
    longer(random, &handed, &case.packet, tally)
}

/// Looks whether a longer train on a card raises the lowest speed: never, where both boards are answered.
fn longer(random: &mut Random, handed: &[Lent], packet: &[u8], tally: &mut Tally) -> Result<(), String> {
    let mut other = handed.to_vec();
    if other.is_empty() {
        return Ok(());
    }
    let card = random.place(other.len());
    other[card].length = random.between(other[card].length.min(LONGEST), LONGEST);
    let (before, after) = (lowest(handed, packet), lowest(&other, packet));
    if before.refusal != 0 || after.refusal != 0 {
        return Ok(());
    }
    require(after.speed <= before.speed, || format!("a longer train on card {card} raises {} to {}", before.speed, after.speed))?;
    tally.count("longer trains, slower", (after.speed < before.speed).into());
    Ok(())
}

/// Compares one board, also with what the public question answers for each card.
fn board(cards: &[Card], handed: &[Lent], packet: &[u8], tally: &mut Tally) -> Result<(), String> {
    let given = lowest(handed, packet);
    let expected = match second::lowest(cards, packet) {
        Ok((card, speed)) => Board { refusal: 0, place: 0, card, speed },
        Err(refused) => Board { refusal: refused.refusal as u32, place: refused.place as u32, card: 0, speed: 0 },
    };
    require(given == expected, || format!("a board of {} cards: {given:?}, and not {expected:?}", cards.len()))?;
    tally.count("boards", given.refusal);
    if given.card > 0 || cards.len() > 1 && matches!(given.refusal, 10 | 11) {
        tally.count("later cards", given.refusal);
    }
    Ok(())
}

/// Draws a list: of a few cards, of 0, 1, 63 to 66 or any number of them; half the lists have only allowed trains.
pub fn any_cards(random: &mut Random, case: &Case) -> Vec<Card> {
    let count = match random.between(0, 9) {
        0 => random.pick(&[0, 1, 63, 64, 65, 66]),
        1 => random.between(0, 64),
        _ => random.between(1, 7),
    };
    let careful = random.one_in(2);
    (0..count).map(|_| if careful { allowed(random, case) } else { any(random, case) }).collect()
}

fn any(random: &mut Random, case: &Case) -> Card {
    let train = any_train(random, &case.named);
    let location = any_location(random, &case.marks, &train);
    Card { train, location }
}

/// Draws a card whose train is allowed and whose location is below L_SP, if there is one.
fn allowed(random: &mut Random, case: &Case) -> Card {
    let mut card = any(random, case);
    if !(1..=150_000).contains(&card.train.length) {
        card.train.length = 1;
    }
    if !(1..=600).contains(&card.train.maximum) {
        card.train.maximum = 600;
    }
    if ![80, 100, 130, 150, 165, 180, 210, 225, 245, 275, 300].contains(&card.train.cant) {
        card.train.cant = 80;
    }
    card.location %= case.marks[0].max(1);
    card
}

/// Draws a card's number: of the list, one of the next two, or any.
fn any_card(random: &mut Random, cards: usize) -> u32 {
    match random.between(0, 7) {
        0 => cards as u32 + random.between(0, 1),
        1 => random.of_any_size(),
        _ => random.between(0, cards.max(1) as u32 - 1),
    }
}

fn require(so: bool, why: impl FnOnce() -> String) -> Result<(), String> {
    if so {
        Ok(())
    } else {
        Err(why())
    }
}

fn setting(name: &str, otherwise: u64) -> u64 {
    std::env::var(name).map_or(otherwise, |text| text.parse().unwrap_or_else(|_| panic!("{name} is not a number: {text}")))
}

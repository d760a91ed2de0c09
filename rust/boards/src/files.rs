//! The wall screen's program, run in a folder with the files of a random list and packet, whole or damaged, or without a file.

use crate::tally::Tally;
use crate::{any_cards, require};
use compare::case::Case;
use compare::random::Random;
use second::Card;
use std::path::{Path, PathBuf};
use std::process::Command;
use std::{env, fs};

/// Runs the program on one list and compares what it prints with the second program's screen.
pub fn check(random: &mut Random, tally: &mut Tally) -> Result<(), String> {
    let case = Case::random(random);
    let mut cards: Vec<u8> = any_cards(random, &case).iter().flat_map(bytes_of).collect();
    spoil(random, &mut cards);
    let folder = env::temp_dir().join(format!("wall_screen.{}", std::process::id()));
    fs::create_dir_all(&folder).expect("a folder can be made");
    write(&folder, "cards", &cards);
    write(&folder, "packet", &case.packet);
    let ran = Command::new(root().join("tests/x86")).arg(root().join("target/bin/wall_screen")).current_dir(&folder).output();
    fs::remove_dir_all(&folder).expect("the folder can be removed");
    let printed = String::from_utf8(ran.expect("the program runs").stdout).expect("it prints text");
    let expected = second::screen(&cards, &case.packet);
    require(printed == expected, || format!("it printed {printed:?}, and not {expected:?}"))?;
    let refusal = printed.strip_prefix("REFUSED ").and_then(|rest| rest.split(' ').next()?.parse().ok());
    tally.count("screens", refusal.unwrap_or(0));
    Ok(())
}

/// Damages a cards file one time in three: cuts it, changes a byte, adds bytes, or makes a number longer than its shortest form.
fn spoil(random: &mut Random, cards: &mut Vec<u8>) {
    if cards.is_empty() {
        return;
    }
    let place = random.place(cards.len());
    match random.between(0, 17) {
        0 => cards.truncate(place),
        1 => cards[place] = random.any() as u8,
        2 => cards.extend(random.bytes(3)),
        3 => cards.extend([1, 80, 0, 0, 0, 1, 0].repeat(random.pick(&[64, 400]))),
        4 => cards.splice(place..place, [0x80, 0]).for_each(drop),
        5 => cards.truncate(0),
        _ => {}
    }
}

/// Writes a file, or none where it has no byte: an absent file is empty.
fn write(folder: &Path, name: &str, bytes: &[u8]) {
    if !bytes.is_empty() {
        fs::write(folder.join(name), bytes).expect("a file can be written");
    }
}

/// Returns the seven numbers of a card, each in groups of seven bits.
fn bytes_of(card: &Card) -> Vec<u8> {
    let second::Train { length, cant, maximum, freight_p, freight_g, passenger } = card.train;
    let numbers = [length, cant, freight_p.into(), freight_g.into(), passenger.into(), maximum, card.location];
    numbers.into_iter().flat_map(groups).collect()
}

fn groups(mut number: u32) -> Vec<u8> {
    let mut bytes = Vec::new();
    while number > 127 {
        bytes.push((number % 128) as u8 + 128);
        number /= 128;
    }
    bytes.push(number as u8);
    bytes
}

fn root() -> PathBuf {
    Path::new(env!("CARGO_MANIFEST_DIR")).join("../..").canonicalize().expect("the repository is there")
}

//! The fleet board: which of a list of trains, each at a location on a packet's segment, has the lowest permitted speed.
use crate::arguments::Arguments;
use crate::input::Input;
use crate::json::Json;
use crate::medium::{numbers_of, put_number, Medium};
use crate::outcome::{Failure, Outcome, Streams};
use crate::told::Told;
use fleet::Card;
use seglink::Train;

/// What the seven numbers of a card are.
const NUMBERS: [&str; 7] = ["length", "cant deficiency", "freight P", "freight G", "passenger", "maximum", "location"];

/// Says the first card with the lowest permitted speed, after a card was moved if that is asked.
pub fn board(arguments: &Arguments, streams: &mut Streams) -> Outcome {
    let json = arguments.has("--json");
    let mut cards = cards(&arguments.operands[0], arguments, streams)?;
    let packet = Input::of(Medium::Packet, &arguments.operands[1], arguments, streams)?;
    if arguments.has("--card") || arguments.has("--at") {
        let (card, location) = (arguments.needed("--card")?, arguments.needed("--at")?);
        fleet::move_card(&mut cards, card as usize, location)
            .map_err(|refused| Told::board(&refused).of_question(json, streams))?;
    }
    match fleet::lowest(&cards, &packet.bytes).map_err(|refused| Told::board(&refused)) {
        Ok((card, speed)) if json => streams.say(Json::Object(vec![
            ("accepted", Json::Bool(true)),
            ("refusal", Json::number(0)),
            ("cards", Json::number(cards.len() as u64)),
            ("card", Json::number(card as u64)),
            ("at", Json::number(cards[card].location)),
            ("speed", Json::number(speed)),
            ("unit", Json::text("km/h")),
        ])),
        Ok((card, speed)) => {
            streams.say(format!("card {card} at {} cm: {speed} km/h, the lowest of {} cards", cards[card].location, cards.len()))
        }
        Err(told) if matches!(told.number, 1..=7 | 13) => Err(told.of_input(&packet, json, streams)),
        Err(told) => Err(told.of_question(json, streams)),
    }
}

/// Reads a cards file: seven numbers a card, as a sheet has them or as `.numbers` text.
fn cards(name: &str, arguments: &Arguments, streams: &mut Streams) -> Result<Vec<Card>, Failure> {
    let input = Input::sheet(name, arguments, streams)?;
    let wrong = |what: String| Failure::File(format!("{name}: {what}"));
    let numbers = numbers_of(&input.bytes).ok_or_else(|| wrong("the last number does not end".into()))?;
    let mut shortest = Vec::new();
    numbers.iter().for_each(|number| put_number(&mut shortest, *number));
    if shortest != input.bytes {
        return Err(wrong("a number is not in its shortest form".into()));
    }
    if numbers.len() % NUMBERS.len() != 0 {
        return Err(wrong(format!("it has {} numbers, and a card has {}: {}", numbers.len(), NUMBERS.len(), NUMBERS.join(", "))));
    }
    let card = |(nth, numbers): (usize, &[u64])| {
        card(numbers).map_err(|which| wrong(format!("card {nth}: {} cannot be {}", NUMBERS[which], numbers[which])))
    };
    numbers.chunks(NUMBERS.len()).enumerate().map(card).collect()
}

/// Makes a card of its numbers, or returns which of them no card can hold: a number of more than 32 bits, or a membership that is not 0 or 1.
fn card(numbers: &[u64]) -> Result<Card, usize> {
    let number = |which: usize| u32::try_from(numbers[which]).map_err(|_| which);
    let member = |which: usize| if numbers[which] < 2 { Ok(numbers[which] == 1) } else { Err(which) };
    let mut train = Train::new(number(0)?, number(1)?, number(5)?);
    train.freight_p = member(2)?;
    train.freight_g = member(3)?;
    train.passenger = member(4)?;
    Ok(Card::new(train, number(6)?))
}

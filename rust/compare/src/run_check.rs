//! Checks speed questions about random runs with both programs, and what is asked of runs directly.

use crate::archive::Archive;
use crate::case::{any_kind, FASTEST};
use crate::check::{converted, count_maximum, lowered_answer, require, LARGEST_PACKET};
use crate::draft::CANTS;
use crate::event::Event;
use crate::program::{Answer, Program, Run, Train, KIND_PACKET, KIND_SHEET, LENT, UNKNOWN_KIND};
use crate::random::Random;
use crate::runs::Drawn;
use crate::second_program::Second;
use crate::tally::Tally;

/// A train that is allowed.
const TRAIN: Train = Train { length: 1, cant: 80, maximum: 600, freight_p: false, freight_g: false, passenger: false };
const NO_RUN: Answer = Answer { refusal: 16, place: 0, value: 0 };

/// Compares the answers about a random run.
pub fn check(random: &mut Random, tally: &mut Tally) -> Result<(), String> {
    let drawn = Drawn::random(random);
    checked(random, &drawn, tally).map_err(|why| format!("{why}: {drawn}"))
}

fn checked(random: &mut Random, drawn: &Drawn, tally: &mut Tally) -> Result<(), String> {
    let mut answers = [NO_RUN; 2];
    for kind in [KIND_PACKET, KIND_SHEET] {
        let (run, train, x) = (drawn.run(kind), &drawn.train, drawn.x);
        let answer = compare(kind, run, train, x, tally)?;
        answers[kind as usize] = answer;
        if !(1..=LENT as u32).contains(&run.count) {
            require(answer == NO_RUN, "a run of none or more than four is not refused with 16")?;
            count_no_run(kind, run, tally);
            continue;
        }
        judged_in_order(kind, run, (train, x), answer, tally)?;
        if answer.refusal == 0 {
            answered(kind, drawn, answer, tally)?;
            count_maximum(kind, run, (train, x), answer, tally);
        }
    }
    lowered(drawn, answers[KIND_SHEET as usize], tally)?;
    unknown(random, drawn, answers, tally)
}

/// Puts one question about a run to both programs.
pub fn compare(kind: u32, run: Run, train: &Train, x: u32, tally: &mut Tally) -> Result<Answer, String> {
    let (answer, expected) = (Archive::permitted_speed(kind, run, train, x), Second::permitted_speed(kind, run, train, x));
    require(answer == expected, &format!("kind {kind}: the archive gave {answer:?}, the second program {expected:?}"))?;
    tally.count_run(kind, &answer);
    Ok(answer)
}

/// Returns a segment's own answer, by a train that is allowed, at its start: it is refused for its bytes alone.
fn own(kind: u32, segment: &[u8]) -> Answer {
    Archive::permitted_speed(kind, Run::one(segment), &TRAIN, 0)
}

fn count_no_run(kind: u32, Run { count, lent }: Run, tally: &mut Tally) {
    tally.count_events(&[
        (Event::CountNone, count == 0),
        (Event::CountFive, count == 5),
        (Event::CountLarge, count > 5),
        (Event::CountBroken, own(kind, lent[0]).refusal > 0),
    ]);
}

/// Checks that a run is refused as the first of its segments that is refused, at its place, and else as its last segment alone is.
fn judged_in_order(kind: u32, run: Run, (train, x): (&Train, u32), answer: Answer, tally: &mut Tally) -> Result<(), String> {
    let segments = &run.lent[..run.count as usize];
    let owns: Vec<Answer> = segments.iter().map(|segment| own(kind, segment)).collect();
    match owns.iter().position(|own| own.refusal > 0) {
        Some(place) => {
            count_broken(&owns, place, train, tally);
            require(answer == owns[place], "a run is not refused as the first of its segments that is refused")
        }
        None => {
            let alone = Archive::permitted_speed(kind, last_of(run, 1), train, x);
            let alike = answer.refusal == alone.refusal && answer.place == alone.place;
            require(alike, "a run of accepted segments is not answered or refused as its last segment is")
        }
    }
}

/// Counts a run that is refused for the segment at a place, by the answers of all its segments.
fn count_broken(owns: &[Answer], place: usize, train: &Train, tally: &mut Tally) {
    let allowed = (1..=150_000).contains(&train.length) && CANTS.contains(&train.cant) && (1..=FASTEST).contains(&train.maximum);
    let other = |own: &Answer| own.refusal > 0 && *own != owns[place];
    let events = [Event::BrokenFirst, Event::BrokenSecond, Event::BrokenThird, Event::BrokenFourth];
    tally.count_events(&[
        (events[place], true),
        (Event::BrokenAgain, owns[place..].iter().any(other)),
        (Event::BrokenTrain, !allowed),
    ]);
}

/// Returns the run's last segments as a run of their own.
fn last_of(Run { count, mut lent }: Run, segments: u32) -> Run {
    lent.rotate_left((count - segments) as usize);
    Run { count: segments, lent }
}

/// Checks that a run is not faster than its last segment alone, and counts what the segments before it did.
fn answered(kind: u32, drawn: &Drawn, answer: Answer, tally: &mut Tally) -> Result<(), String> {
    let (run, train, x) = (drawn.run(kind), &drawn.train, drawn.x);
    let by = |segments: u32, x: u32| Archive::permitted_speed(kind, last_of(run, segments), train, x);
    let slower = |segments: u32| run.count > segments && answer.value < by(segments, x).value;
    require(answer.value <= by(1, x).value, "a run is faster than its last segment alone")?;
    let next = by(run.count, x + 1);
    let past = run.lent.get(run.count as usize).map(|segment| own(kind, segment).refusal);
    let answered = [Event::RunOfOne, Event::RunOfTwo, Event::RunOfThree, Event::RunOfFour];
    tally.count_events(&[
        (answered[run.count as usize - 1], true),
        (Event::RunSlower, slower(1)),
        (Event::RunOverOne, slower(2)),
        (Event::RunOverTwo, slower(3)),
        (Event::RunDelayEnds, slower(1) && next.refusal == 0 && next == by(1, x + 1)),
        (Event::RunTwice, drawn.twice),
        (Event::RunBeforeNoise, past.map_or(false, |refusal| refusal > 0)),
        (Event::RunBeforeWhole, past == Some(0)),
    ]);
    Ok(())
}

/// Checks that the packets of a run's sheets give the lower of the train's maximum and the greatest multiple of 5 not above the profile's speed from
/// the sheets, or the sheets' refusal.
fn lowered(drawn: &Drawn, by_sheets: Answer, tally: &mut Tally) -> Result<(), String> {
    let packet = |sheet: &Vec<u8>| converted(Archive::sheet_to_packet, sheet, LARGEST_PACKET);
    let counted = drawn.sheets.iter().take(drawn.count as usize);
    let packets = match counted.map(packet).collect::<Option<Vec<_>>>() {
        Some(packets) => packets,
        None => return Ok(()),
    };
    let mut lent: [&[u8]; LENT] = [&[]; LENT];
    lent.iter_mut().zip(&packets).for_each(|(lent, packet)| *lent = packet);
    let (train, x) = (&drawn.train, drawn.x);
    let by_packets = Archive::permitted_speed(KIND_PACKET, Run { count: drawn.count, lent }, train, x);
    tally.count_events(&[(Event::RunLowered, by_packets.value < by_sheets.value)]);
    let lowered = lowered_answer(by_sheets, drawn.run(KIND_SHEET), train, x);
    require(by_packets == lowered, "the speed from the sheets' packets is not the lowered speed from the sheets")
}

/// Asks about the run as any kind: an unknown kind is refused first of all.
fn unknown(random: &mut Random, drawn: &Drawn, answers: [Answer; 2], tally: &mut Tally) -> Result<(), String> {
    let (kind, medium) = (any_kind(random), random.between(KIND_PACKET, KIND_SHEET));
    let answer = compare(kind, drawn.run(medium), &drawn.train, drawn.x, tally)?;
    if kind >= UNKNOWN_KIND {
        require(answer == Answer::refused(15, 0), "a run of an unknown kind is not refused with 15")?;
        let own = answers[medium as usize];
        tally.count_events(&[(Event::UnknownRun, own.refusal == 0), (Event::UnknownCount, own == NO_RUN)]);
    }
    Ok(())
}

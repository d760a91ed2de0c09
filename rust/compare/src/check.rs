//! Checks one case with both programs, and the customer's demands directly.

use crate::archive::Archive;
use crate::case::{any_kind, any_location, any_train, Case, FASTEST};
use crate::draft::Kind;
use crate::event::Event;
use crate::faster;
use crate::lowered::lowered;
use crate::program::{Answer, Operation, Program, Question, Run, Train, JOURNEY, KIND_PACKET, KIND_SHEET, UNKNOWN_KIND};
use crate::random::Random;
use crate::rooms::Rooms;
use crate::run_check;
use crate::second_program::Second;
use crate::segments::LARGEST;
use crate::sequence;
use crate::tally::Tally;
use crate::wild;

/// How many speed questions a case has.
const SPEEDS: usize = 3;
/// Bytes that no sheet of a journey or a segment exceeds.
pub const LARGEST_SHEET: usize = 15_226;
pub const LARGEST_PACKET: usize = 8_207;
/// How many changes of voltage, and how many of current, were allowed at first.
const FORMER_WIRES: u32 = 23;

/// Compares the operations on a case, every answer and every byte of the rooms; then the demands; then runs of segments; then pairs of questions
/// on runs; then packets taken in deliveries.
pub fn check(random: &mut Random, case: &Case, tally: &mut Tally) -> Result<(), String> {
    for (operation, input) in [
        (Operation::PacketToSheet, &case.packet),
        (Operation::SheetToPacket, &case.sheet),
        (Operation::AltitudeOfPacket, &case.packet),
    ] {
        let question = Question::without_train(operation, input);
        let room = room_for(random, &question);
        let answer = compare(random, &question, room, tally)?;
        tally.count_constraints(operation, &case.constrained, &answer);
        count_wires(operation, case, &answer, tally);
    }
    let packet = round_trips(case)?;
    for _ in 0..SPEEDS {
        let train = any_train(random, &case.named);
        let x = any_location(random, &case.marks, &train);
        speeds(random, case, packet.as_deref(), (train, x), tally)?;
    }
    run_check::check(random, tally)?;
    faster::check(random, tally)?;
    sequence::check(random, case, tally)?;
    wild::check(random, &case.packet, tally)
}

/// Puts one question to both programs, with rooms that hold the same random bytes.
pub fn compare(random: &mut Random, question: &Question, room: usize, tally: &mut Tally) -> Result<Answer, String> {
    let mut rooms = Rooms::random(random, room);
    let answer = rooms.lend(|room| Archive::answer(question, room), |room| Second::answer(question, room));
    let answer =
        answer.map_err(|why| format!("{:?}, {:?} at {}, room {room}: {why}", question.operation, question.train, question.x))?;
    tally.count(question, &answer);
    Ok(answer)
}

/// Draws the size of a room: exactly the result's, one byte less, larger, 0 or any.
pub fn room_for(random: &mut Random, question: &Question) -> usize {
    let result = Archive::answer(question, &mut [0; LARGEST_SHEET]).value.max(0) as usize;
    match (question.operation, random.between(0, 5)) {
        (Operation::AltitudeOfPacket, _) | (_, 0) => 0,
        (_, 1 | 2) => result,
        (_, 3) => result.saturating_sub(1),
        (_, 4) => result + random.between(1, 64) as usize,
        _ => random.place(LARGEST_SHEET + 1),
    }
}

/// Checks that a packet's sheet makes the packet again, and a sheet's packet too. Returns the packet of an accepted sheet.
fn round_trips(case: &Case) -> Result<Option<Vec<u8>>, String> {
    let sheet = converted(Archive::packet_to_sheet, &case.packet, LARGEST_SHEET);
    if let Some(sheet) = &sheet {
        let again = converted(Archive::sheet_to_packet, sheet, LARGEST_PACKET);
        require(again.as_ref() == Some(&case.packet), "packet to sheet to packet is not the same packet")?;
    }
    let packet = converted(Archive::sheet_to_packet, &case.sheet, LARGEST_PACKET);
    if let Some(packet) = &packet {
        let back = converted(Archive::packet_to_sheet, packet, LARGEST_SHEET);
        let as_lowered = packet[0] != JOURNEY || back == Some(lowered(&case.sheet));
        require(as_lowered, "a journey's sheet does not come back with its speeds lowered")?;
        let again = back.and_then(|sheet| converted(Archive::sheet_to_packet, &sheet, LARGEST_PACKET));
        require(again.as_ref() == Some(packet), "the lowered sheet does not make the sheet's packet")?;
    }
    if case.whole.is_some() {
        require(sheet.is_some(), "a whole packet is refused")?;
        require(packet.as_ref() == Some(&case.packet), "a whole sheet does not make its packet")?;
    }
    Ok(packet)
}

/// Returns the result of a conversion into a room of `size` bytes, if it is accepted.
pub fn converted(convert: fn(&[u8], &mut [u8]) -> Answer, input: &[u8], size: usize) -> Option<Vec<u8>> {
    let mut room = vec![0; size];
    let answer = convert(input, &mut room);
    room.truncate(answer.value as usize);
    (answer.refusal == 0).then_some(room)
}

/// Compares the speeds at one location, and checks that the packet of a sheet gives the lower of the train's maximum and the greatest multiple of 5
/// not above the profile's speed from the sheet.
/// Then asks about the packet or the sheet as any kind: an unknown kind is refused first of all.
fn speeds(
    random: &mut Random,
    case: &Case,
    packet: Option<&[u8]>,
    (train, x): (Train, u32),
    tally: &mut Tally,
) -> Result<(), String> {
    let ask = |kind, input| Question { operation: Operation::PermittedSpeed(kind), input, train: train.clone(), x };
    let by_packet = compare(random, &ask(KIND_PACKET, &case.packet), 0, tally)?;
    let by_sheet = compare(random, &ask(KIND_SHEET, &case.sheet), 0, tally)?;
    for (kind, segment, answer) in [(KIND_PACKET, &case.packet, by_packet), (KIND_SHEET, &case.sheet, by_sheet)] {
        count_maximum(kind, Run::one(segment), (&train, x), answer, tally);
    }
    if let Some(draft) = case.whole.as_ref().filter(|_| by_sheet.refusal == 0) {
        let rest = draft.without_lower(train.cant);
        let (packet, sheet) = (rest.packet(), rest.sheet());
        tally.count_fall(KIND_PACKET, by_packet != Second::permitted_speed(KIND_PACKET, Run::one(&packet), &train, x));
        tally.count_fall(KIND_SHEET, by_sheet != Second::permitted_speed(KIND_SHEET, Run::one(&sheet), &train, x));
    }
    if let Some(packet) = packet {
        let by_packet = Archive::permitted_speed(KIND_PACKET, Run::one(packet), &train, x);
        let lowered = lowered_answer(by_sheet, Run::one(&case.sheet), &train, x);
        require(by_packet == lowered, "the speed from a sheet's packet is not the lowered speed from the sheet")?;
    }
    let (kind, (input, own)) = (any_kind(random), random.pick(&[(&case.packet, by_packet), (&case.sheet, by_sheet)]));
    let answer = compare(random, &ask(kind, input), 0, tally)?;
    if kind >= UNKNOWN_KIND {
        require(answer == Answer::refused(15, 0), "an unknown kind is not refused with 15")?;
        count_unknown(kind, &own, tally);
    }
    Ok(())
}

/// Returns the answer that packets must give where their sheets gave `answer`: the lower of the train's maximum and the greatest multiple of 5 not
/// above the profile's speed from the sheets; or the refusal. The fastest train gets the profile's speed, or 600 where that is above.
pub fn lowered_answer(answer: Answer, sheets: Run, train: &Train, x: u32) -> Answer {
    let fastest = Train { maximum: FASTEST, ..train.clone() };
    match answer.refusal {
        0 => {
            let profile = Archive::permitted_speed(KIND_SHEET, sheets, &fastest, x);
            Answer::success((profile.value / 5 * 5).min(train.maximum.into()))
        }
        _ => answer,
    }
}

/// Counts an accepted conversion of a whole segment by its wire changes, and a sheet that is refused at a count of wire changes.
fn count_wires(operation: Operation, case: &Case, answer: &Answer, tally: &mut Tally) {
    let [voltages, currents] = match operation {
        Operation::PacketToSheet => [Event::PacketVoltages, Event::PacketCurrents],
        Operation::SheetToPacket => [Event::SheetVoltages, Event::SheetCurrents],
        _ => return,
    };
    let accepted = case.whole.as_ref().filter(|_| answer.refusal == 0);
    if let Some([of_voltage, of_current]) = accepted.map(|draft| draft.values(Kind::WireCount)).as_deref() {
        tally.count_events(&[
            (voltages, *of_voltage > FORMER_WIRES),
            (currents, *of_current > FORMER_WIRES),
            (Event::FullWires, (*of_voltage, *of_current) == (LARGEST.voltages, LARGEST.currents)),
        ]);
    }
    if let (Operation::SheetToPacket, [voltages, currents]) = (operation, &case.counted[..]) {
        let past = |byte: &u32| *answer == Answer::refused(4, *byte);
        tally.count_events(&[(Event::PastVoltages, past(voltages)), (Event::PastCurrents, past(currents))]);
    }
}

/// Counts an answered question by what the train's maximum did to the profile's speed.
pub fn count_maximum(kind: u32, run: Run, (train, x): (&Train, u32), answer: Answer, tally: &mut Tally) {
    if answer.refusal > 0 || train.maximum == FASTEST {
        return;
    }
    let profile = Archive::permitted_speed(kind, run, &Train { maximum: FASTEST, ..train.clone() }, x).value;
    let lowered = answer.value < profile;
    tally.count_events(&[
        (Event::PacketMaximum, lowered && kind == KIND_PACKET),
        (Event::SheetMaximum, lowered && kind == KIND_SHEET),
        (Event::OddMaximum, lowered && kind == KIND_PACKET && answer.value % 5 > 0),
        (Event::HigherMaximum, profile < train.maximum.into()),
    ]);
}

/// Counts a question of an unknown kind by the answer that the right kind of its bytes gives.
fn count_unknown(kind: u32, own: &Answer, tally: &mut Tally) {
    tally.count_events(&[
        (Event::UnknownSmall, kind <= 3),
        (Event::UnknownLarge, kind > 3),
        (Event::UnknownAnswered, own.refusal == 0),
        (Event::UnknownSegment, ![0, 10, 11].contains(&own.refusal)),
        (Event::UnknownTrain, own.refusal == 10),
        (Event::UnknownLocation, own.refusal == 11),
    ]);
}

pub fn require(holds: bool, otherwise: &str) -> Result<(), String> {
    if holds {
        Ok(())
    } else {
        Err(otherwise.to_string())
    }
}

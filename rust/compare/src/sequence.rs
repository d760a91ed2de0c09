//! Random sequences of calls to an intake: packets in any deliveries, one after the other in one room, and questions at any time. Both
//! programs must agree, and must give what the joined bytes give at once.

use crate::archive::Archive;
use crate::case::Case;
use crate::check::{require, room_for, LARGEST_PACKET, LARGEST_SHEET};
use crate::event::Event;
use crate::intakes::{gathering, judged, Intakes, PASSED};
use crate::program::{verdict, Answer, Intake, Operation, Program, Question, NO_REFUSAL};
use crate::random::Random;
use crate::rooms::Rooms;
use crate::second_program::Second;
use crate::tally::Tally;

/// Most deliveries of a packet, about.
const DELIVERIES: usize = 60;

/// The answer that a question about the sheet must get.
enum Sheet {
    Early,
    /// 14, in phase 2 with a refusal that no completion gives.
    NoVerdict,
    Refused(Answer),
    /// The sheet of the packet judged last.
    Judged,
}

/// Deliveries since the last verdict.
#[derive(Default)]
struct Since {
    /// How many deliveries have bytes.
    deliveries: usize,
    /// Whether a delivery had no bytes.
    nothing: bool,
    questions: usize,
}

struct Sequence {
    intakes: Intakes,
    /// The bytes that the room must hold.
    held: Vec<u8>,
    /// The bytes delivered since the last verdict.
    joined: Vec<u8>,
    /// The bytes that were judged last, and the number of their verdict.
    judged: Vec<u8>,
    last: Option<u32>,
    sheet: Sheet,
    since: Since,
}

/// Takes the case's packet and others in one room.
pub fn check(random: &mut Random, case: &Case, tally: &mut Tally) -> Result<(), String> {
    let packets = packets(random, case);
    let mut sequence = Sequence::new(random, &packets)?;
    packets.iter().try_for_each(|packet| sequence.take(random, packet, tally))
}

/// Draws the case's packet and up to three more: an empty one, the one before again, or another.
fn packets(random: &mut Random, case: &Case) -> Vec<Vec<u8>> {
    let mut packets = vec![case.packet.clone()];
    for _ in 0..random.between(0, 3) {
        packets.push(match random.between(0, 5) {
            0 => Vec::new(),
            1..=2 => packets[packets.len() - 1].clone(),
            _ => Case::random(random).packet,
        });
    }
    packets
}

/// Draws the size of a room: the size of one of the packets, a byte less or more, any size below it, 0, or enough for any packet.
fn size_for(random: &mut Random, packets: &[Vec<u8>]) -> usize {
    let size = packets[random.place(packets.len())].len();
    match random.between(0, 11) {
        0..=2 => size,
        3 => size.saturating_sub(1),
        4 => size + 1,
        5 => random.place(size + 1),
        6 => 0,
        _ => LARGEST_PACKET,
    }
}

/// Draws the first state: fresh, or one time in four of phase 2 with a refusal that no completion gives.
fn start(random: &mut Random) -> Result<(Intake, Sheet), String> {
    if random.one_in(4) {
        let (refusal, place) = (random.of_any_size().max(NO_REFUSAL), random.of_any_size());
        return Ok((judged(random.of_any_size(), refusal, place), Sheet::NoVerdict));
    }
    let fresh = gathering(0);
    require(Archive::fresh() == fresh && Second::fresh() == fresh, "fresh is not all 0")?;
    Ok((fresh, Sheet::Early))
}

/// Cuts a packet into deliveries: at once, byte by byte, or in parts of any sizes.
fn cut<'a>(random: &mut Random, packet: &'a [u8]) -> Vec<&'a [u8]> {
    let most = match random.between(0, 7) {
        0 => packet.len(),
        1 => 1,
        2 => 9,
        _ => random.place(packet.len() + 1),
    };
    let most = most.max(packet.len() / DELIVERIES).max(1);
    let least = if random.one_in(2) { most } else { 1 };
    let (mut deliveries, mut left) = (Vec::new(), packet);
    while !left.is_empty() {
        let size = random.between(least as u32, most as u32) as usize;
        let (delivery, rest) = left.split_at(size.min(left.len()));
        deliveries.push(delivery);
        left = rest;
    }
    deliveries
}

impl Sequence {
    fn new(random: &mut Random, packets: &[Vec<u8>]) -> Result<Sequence, String> {
        let size = size_for(random, packets);
        let held = random.bytes(size);
        let (state, sheet) = start(random)?;
        let intakes = Intakes::new(random, state, &held);
        Ok(Sequence { intakes, held, joined: Vec::new(), judged: Vec::new(), last: None, sheet, since: Since::default() })
    }

    /// Delivers a packet and completes it, then asks questions, and sometimes completes with no bytes.
    fn take(&mut self, random: &mut Random, packet: &[u8], tally: &mut Tally) -> Result<(), String> {
        for delivery in cut(random, packet) {
            self.meanwhile(random, tally)?;
            self.deliver(delivery, tally)?;
        }
        self.meanwhile(random, tally)?;
        self.complete(tally)?;
        for _ in 0..random.between(0, 3) {
            self.ask(random, tally)?;
            self.meanwhile(random, tally)?;
        }
        if random.one_in(6) {
            self.complete(tally)?;
        }
        Ok(())
    }

    /// Now and then makes a delivery of no bytes or a question.
    fn meanwhile(&mut self, random: &mut Random, tally: &mut Tally) -> Result<(), String> {
        match random.between(0, 11) {
            0 => self.deliver(&[], tally),
            1 => self.ask(random, tally),
            _ => Ok(()),
        }
    }

    fn passed(&self) -> bool {
        self.joined.len() > self.held.len()
    }

    fn deliver(&mut self, delivery: &[u8], tally: &mut Tally) -> Result<(), String> {
        let (phase, nothing) = (self.intakes.state.phase, delivery.is_empty());
        tally.count_events(&[
            (Event::NothingOnTheWay, nothing && phase == 0),
            (Event::NothingPastTheEnd, nothing && phase == 1),
            (Event::NothingAfterVerdict, nothing && phase == 2),
            (Event::StillPastTheEnd, !nothing && self.passed() && delivery.len() <= self.held.len()),
        ]);
        let expected = self.delivered(delivery);
        let state = self.intakes.deliver(delivery)?;
        same("a delivery", state, expected)?;
        require(
            self.intakes.room() == self.held,
            "after a delivery the room holds other bytes than the joined ones and those it had",
        )
    }

    /// Returns the state that a delivery must lead to, and notes the bytes that it must write.
    fn delivered(&mut self, delivery: &[u8]) -> Intake {
        if delivery.is_empty() {
            self.since.nothing = true;
            return self.intakes.state;
        }
        self.sheet = Sheet::Early;
        self.since.deliveries += 1;
        let begin = self.joined.len();
        self.joined.extend(delivery);
        if self.passed() {
            return PASSED;
        }
        self.held[begin..self.joined.len()].copy_from_slice(delivery);
        gathering(self.joined.len() as u32)
    }

    fn complete(&mut self, tally: &mut Tally) -> Result<(), String> {
        let at_once = Archive::packet_to_sheet(&self.joined, &mut [0; LARGEST_SHEET]);
        let expected = match self.passed() {
            true => judged(0, 8, 0),
            false => judged(self.joined.len() as u32, at_once.refusal, at_once.place),
        };
        let state = self.intakes.complete()?;
        same("a completion", state, expected)?;
        require(self.intakes.room() == self.held, "a completion changed the room")?;
        self.count_verdict(state, at_once.refusal == 0, tally);
        self.sheet = if state.refusal == 0 { Sheet::Judged } else { Sheet::Refused(verdict(state)) };
        self.judged = std::mem::take(&mut self.joined);
        self.last = Some(state.refusal);
        self.since = Since::default();
        Ok(())
    }

    /// Counts a verdict; `whole` says whether the joined bytes are accepted when they are given at once.
    fn count_verdict(&self, state: Intake, whole: bool, tally: &mut Tally) {
        let (length, room, deliveries) = (self.joined.len(), self.held.len(), self.since.deliveries);
        let accepted = state.refusal == 0;
        tally.count(&Question::without_train(Operation::Completion, &self.joined), &verdict(state));
        tally.count_events(&[
            (Event::InParts, accepted && deliveries > 1),
            (Event::ByteByByte, accepted && deliveries == length),
            (Event::ExactRoom, accepted && length == room),
            (Event::LargerRoom, accepted && length < room),
            (Event::ShortByOne, length == room + 1),
            (Event::LongWhole, length > room && whole),
            (Event::LongDamaged, length > room && !whole),
            (Event::NextAfterAccepted, accepted && self.last == Some(0)),
            (Event::NextAfterRefused, accepted && ![None, Some(0), Some(8)].contains(&self.last)),
            (Event::NextAfterLong, accepted && self.last == Some(8)),
            (Event::CompletedTwice, length == 0 && self.last.is_some()),
        ]);
    }

    fn ask(&mut self, random: &mut Random, tally: &mut Tally) -> Result<(), String> {
        let taken = self.taken(random);
        let size = room_for(random, &Question::without_train(Operation::PacketToSheet, &self.judged));
        let mut lent = Rooms::random(random, size);
        let mut at_once = lent.bytes().to_vec();
        let expected = self.asked(taken, &mut at_once);
        let answer = self.intakes.sheet(taken, &mut lent)?;
        same("a question", answer, expected)?;
        require(lent.bytes() == at_once, "the sheet's room holds other bytes than after the joined bytes")?;
        require(self.intakes.room() == self.held, "a question changed the room that took the packet")?;
        self.count_answer(taken, answer, tally);
        self.since.questions += 1;
        Ok(())
    }

    /// Draws how many bytes of the room that took the packet are handed over: all, the packet's, a byte less, or any count.
    fn taken(&self, random: &mut Random) -> usize {
        let room = self.held.len();
        match random.between(0, 5) {
            0 => self.judged.len().min(room),
            1 => self.judged.len().saturating_sub(1).min(room),
            2 => random.place(room + 1),
            _ => room,
        }
    }

    /// Returns the answer that a question must get, and writes the bytes that it must write.
    fn asked(&self, taken: usize, room: &mut [u8]) -> Answer {
        match self.sheet {
            Sheet::Refused(refused) => refused,
            Sheet::Judged if taken >= self.judged.len() => Archive::packet_to_sheet(&self.judged, room),
            Sheet::Judged | Sheet::Early | Sheet::NoVerdict => Answer::refused(14, 0),
        }
    }

    fn count_answer(&self, taken: usize, answer: Answer, tally: &mut Tally) {
        let (given, again) = (answer.refusal == 0, self.since.questions > 0);
        let (packet, events) = match self.sheet {
            Sheet::Early => (&self.joined, self.early()),
            Sheet::NoVerdict => (&self.joined, vec![(Event::WildRefusal, true)]),
            Sheet::Refused(Answer { refusal, .. }) => (
                &self.judged,
                vec![
                    (Event::RefusedAgain, refusal != 8),
                    (Event::RefusedTwice, again),
                    (Event::LongAgain, refusal == 8),
                    (Event::RefusedCutShort, taken < self.judged.len()),
                ],
            ),
            Sheet::Judged => (
                &self.judged,
                vec![
                    (Event::Given, given),
                    (Event::GivenAgain, given && again),
                    (Event::GivenAfterNothing, given && self.since.nothing),
                    (Event::CutShort, answer.refusal == 14),
                    (Event::ShortRoom, answer.refusal == 8),
                ],
            ),
        };
        tally.count(&Question::without_train(Operation::TakenSheet, packet), &answer);
        tally.count_events(&events);
    }

    /// Returns the events of a question that comes too early.
    fn early(&self) -> Vec<(Event, bool)> {
        let gathering = self.since.deliveries > 0 && !self.passed();
        vec![
            (Event::BeforeAll, self.since.deliveries == 0),
            (Event::BeforeFirst, gathering && self.last.is_none()),
            (Event::AfterNext, gathering && self.last.is_some()),
            (Event::PastTheEnd, self.passed()),
        ]
    }
}

fn same<T: std::fmt::Debug + PartialEq>(call: &str, gave: T, expected: T) -> Result<(), String> {
    match gave == expected {
        true => Ok(()),
        false => Err(format!("{call} gave {gave:?}, the joined bytes at once {expected:?}")),
    }
}

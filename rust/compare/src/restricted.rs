//! Restricted speeds on random runs with a journey that fits them, then with faults in the journey, then with bytes that are broken: both programs
//! must agree on every answer, and the answers must be what the permitted speed and the faults ask for.

use crate::archive::Archive;
use crate::case::{any_kind, FASTEST};
use crate::check::{converted, require, LARGEST_PACKET, LARGEST_SHEET};
use crate::damage::{spoil_fields, spoil_packet, spoil_sheet};
use crate::legs::{within, Fault, Fitted, FRONT, SPEED, TYPE};
use crate::program::{Answer, Program, Run, Train, JOURNEY, KIND_PACKET, KIND_SHEET, LENT, UNKNOWN_KIND};
use crate::random::Random;
use crate::restricted_event::{RestrictedEvent, RestrictedTally};
use crate::runs::{broken, LONGEST_TRAIN};
use crate::second_program::Second;
use std::fmt;

/// The highest speed of a sheet in km/h, and the most constraints of a journey's segment.
const HIGHEST: u32 = 604;
const MOST: usize = 31;
/// How many segments of 31 constraints each no packet holds.
const TOO_MANY: usize = 29;

/// A question as both programs get it.
#[derive(Clone)]
pub struct Asked {
    pub kind: u32,
    pub count: u32,
    pub segments: [Vec<u8>; LENT],
    pub journey: Vec<u8>,
    pub leg: u32,
    pub train: Train,
    pub x: u32,
}

impl fmt::Display for Asked {
    fn fmt(&self, f: &mut fmt::Formatter) -> fmt::Result {
        write!(f, "kind {}, a run of {}, leg {}, {:?} at {}", self.kind, self.count, self.leg, self.train, self.x)?;
        self.segments.iter().try_for_each(|segment| write!(f, "\n  segment {segment:02X?}"))?;
        write!(f, "\n  journey {:02X?}", self.journey)
    }
}

impl Asked {
    /// Writes a question in a medium.
    fn of(kind: u32, fitted: &Fitted) -> Asked {
        let written = |draft: &crate::draft::Draft| if kind == KIND_PACKET { draft.packet() } else { draft.sheet() };
        let [first, second, third, fourth] = &fitted.segments;
        let segments = [first, second, third, fourth].map(written);
        let (journey, train) = (written(&fitted.journey()), fitted.train.clone());
        Asked { kind, count: fitted.count, segments, journey, leg: fitted.leg, train, x: fitted.x }
    }

    fn run(&self) -> Run<'_> {
        let [first, second, third, fourth] = &self.segments;
        Run { count: self.count, lent: [first, second, third, fourth] }
    }

    /// Returns the archive's permitted speed.
    fn permitted(&self) -> Answer {
        Archive::permitted_speed(self.kind, self.run(), &self.train, self.x)
    }

    /// Returns the archive's answer.
    fn answer(&self) -> Answer {
        Archive::restricted_speed(self.kind, self.run(), &self.journey, self.leg, &self.train, self.x)
    }

    /// Puts the question to both programs.
    pub fn compare(&self, tally: &mut RestrictedTally) -> Result<Answer, String> {
        let answer = self.answer();
        let expected = Second::restricted_speed(self.kind, self.run(), &self.journey, self.leg, &self.train, self.x);
        self.require(answer == expected, &format!("the archive gave {answer:?}, the second program {expected:?}"))?;
        tally.answer(self.kind, &answer);
        Ok(answer)
    }

    fn require(&self, holds: bool, otherwise: &str) -> Result<(), String> {
        require(holds, otherwise).map_err(|why| format!("{why}: restricted speed, {self}"))
    }
}

/// Checks a random question, as packets and as sheets.
pub fn check(random: &mut Random, tally: &mut RestrictedTally) -> Result<(), String> {
    let fitted = Fitted::random(random);
    for kind in [KIND_PACKET, KIND_SHEET] {
        whole(kind, &fitted, tally)?;
        faulty(random, kind, &fitted, tally)?;
        damaged(random, kind, &fitted, tally)?;
        pairs(random, kind, &fitted, tally)?;
    }
    lowered(&fitted, tally)
}

/// Checks a question whose journey fits: it is refused with 16, as the permitted speed is, or with 26, and else answered, never above the permitted
/// speed, and with it where the journey has no constraints.
fn whole(kind: u32, fitted: &Fitted, tally: &mut RestrictedTally) -> Result<(), String> {
    let asked = Asked::of(kind, fitted);
    let (answer, permitted) = (asked.compare(tally)?, asked.permitted());
    if permitted.refusal > 0 {
        return asked.require(answer == permitted, "a journey that fits is not refused as the permitted speed is");
    }
    let (location, train) = (fitted.location(), u64::from(fitted.train.length));
    if fitted.before > 0 && location < train {
        tally.count(&[(RestrictedEvent::TailBefore, true)]);
        return asked.require(answer == Answer::refused(26, 0), "a tail before the run is not refused with 26");
    }
    asked.require(answer.refusal == 0 && answer.value <= permitted.value, "not answered up to the permitted speed")?;
    let plain = without(fitted, |_| false).answered(kind);
    asked.require(plain == permitted, "without constraints it is not the permitted speed")?;
    tally.count(&[
        (RestrictedEvent::Answered, true),
        (RestrictedEvent::Unconstrained, true),
        (RestrictedEvent::LongAtStart, fitted.before == 0 && location < train),
        (RestrictedEvent::TailJustPast, fitted.before > 0 && location == train),
    ]);
    count_answered(kind, fitted, answer, permitted, tally);
    Ok(())
}

/// Returns the question without the constraints of the journey's segments, but for those at some numbers of the journey.
fn without(fitted: &Fitted, kept: impl Fn(usize) -> bool) -> Fitted {
    let mut other = fitted.clone();
    let legs = other.legs.iter_mut().enumerate().filter(|(number, _)| !kept(*number));
    legs.for_each(|(_, leg)| leg.constraints.clear());
    other
}

impl Fitted {
    /// Returns the archive's answer in a medium.
    fn answered(&self, kind: u32) -> Answer {
        Asked::of(kind, self).answer()
    }

    /// Returns the question with all its constraints of a speed changed.
    fn changed(&self, change: impl Fn(&mut [u32; 8])) -> Fitted {
        let mut other = self.clone();
        let constraints = other.legs.iter_mut().flat_map(|leg| &mut leg.constraints);
        constraints.filter(|constraint| constraint[TYPE] == 0).for_each(change);
        other
    }
}

/// Counts what an answer shows of the constraints.
fn count_answered(kind: u32, fitted: &Fitted, answer: Answer, permitted: Answer, tally: &mut RestrictedTally) {
    let (below, run) = (answer.value < permitted.value, fitted.before..fitted.before + fitted.run());
    let constraints = || fitted.legs[run.clone()].iter().flat_map(|leg| &leg.constraints);
    let of_speed = constraints().any(|constraint| constraint[TYPE] == 0);
    let lower = |constraint: &[u32; 8]| constraint[TYPE] == 0 && i64::from(constraint[SPEED]) < answer.value;
    let others = (0..fitted.legs.len()).filter(|number| !run.contains(number));
    let free = Fitted { train: Train { maximum: FASTEST, ..fitted.train.clone() }, ..fitted.clone() };
    let by_maximum = answer.value == i64::from(fitted.train.maximum) && {
        let (free, profile) = (free.answered(kind), Asked::of(kind, &free).permitted());
        answer.value < free.value && free.value < profile.value
    };
    let further = Fitted { x: fitted.x + 1, ..fitted.clone() };
    let below_by =
        [RestrictedEvent::BelowOne, RestrictedEvent::BelowTwo, RestrictedEvent::BelowThree, RestrictedEvent::BelowFour];
    tally.count(&[
        (RestrictedEvent::NoLower, !below && of_speed),
        (RestrictedEvent::BelowPackets, below && kind == KIND_PACKET),
        (RestrictedEvent::BelowSheets, below && kind == KIND_SHEET),
        (below_by[fitted.run() - 1], below),
        (RestrictedEvent::NoMultiple, below && kind == KIND_SHEET && answer.value % 5 > 0),
        (RestrictedEvent::Standstill, below && answer.value == 0),
        (RestrictedEvent::ByMaximum, by_maximum),
        (RestrictedEvent::OtherTypes, constraints().any(|constraint| constraint[TYPE] > 0)),
        (RestrictedEvent::OtherLegs, others.into_iter().any(|number| fitted.legs[number].constraints.iter().any(lower))),
    ]);
    if below {
        let earlier = without(fitted, |number| number != fitted.leg as usize).answered(kind);
        let no_delay = fitted.changed(|constraint| constraint[FRONT] = 1).answered(kind);
        let next = (further.answered(kind), Asked::of(kind, &further).permitted());
        tally.count(&[
            (RestrictedEvent::ByEarlier, earlier == answer),
            (RestrictedEvent::ByDelay, no_delay.value > answer.value),
            (RestrictedEvent::ByRange, next.0.refusal == 0 && next.0 == next.1),
        ]);
    }
}

/// Checks a question with faults in the journey, or with another leg: it is refused for the fault that is judged first.
fn faulty(random: &mut Random, kind: u32, fitted: &Fitted, tally: &mut RestrictedTally) -> Result<(), String> {
    let mut other = fitted.clone();
    let faults: Vec<Fault> = (0..random.pick(&[1, 1, 2])).map(|_| other.fault(random)).collect();
    let asked = Asked::of(kind, &other);
    let answer = asked.compare(tally)?;
    if (1..=LENT as u32).contains(&fitted.count) {
        let order = |fault: &&Fault| (fault.place, fault.refusal);
        let first = faults.iter().min_by_key(order).expect("there is a fault");
        // the same field of the version can be changed twice, and then it is right again
        let undone =
            faults.len() == 2 && faults[0].refusal == 23 && faults[1].refusal == 23 && faults[0].place == faults[1].place;
        asked.require(undone || answer == Answer::refused(first.refusal, 0), &format!("not refused as {first:?}"))?;
        let alone = faults.len() == 1;
        tally.count(&[
            (first.event, alone),
            (RestrictedEvent::LaterFault, alone && first.place > 0),
            (RestrictedEvent::FirstFault, faults.iter().any(|fault| fault.refusal != first.refusal)),
            (RestrictedEvent::FaultAndTrain, !undone && asked.permitted().refusal == 10),
        ]);
    }
    other.leg = other.other_leg(random);
    other_leg(kind, fitted, &other, tally)
}

/// Checks a question with another leg: where the run does not lie in the journey, it is refused with 22 before all faults.
fn other_leg(kind: u32, fitted: &Fitted, other: &Fitted, tally: &mut RestrictedTally) -> Result<(), String> {
    let asked = Asked::of(kind, other);
    let answer = asked.compare(tally)?;
    let (past, before) = (other.leg as usize >= other.legs.len(), (other.leg as usize) + 1 < other.run());
    if (past || before) && (1..=LENT as u32).contains(&other.count) {
        asked.require(answer == Answer::refused(22, 0), "a run outside the journey is not refused with 22")?;
        tally.count(&[
            (RestrictedEvent::PastJourney, past),
            (RestrictedEvent::BeforeJourney, before),
            (RestrictedEvent::LegCut, other.leg != fitted.leg && other.leg & 255 == fitted.leg),
        ]);
    }
    Ok(())
}

/// Checks a question with a broken segment or a broken journey, beside a fault and a leg that is none: it is refused for the first that is broken.
fn damaged(random: &mut Random, kind: u32, fitted: &Fitted, tally: &mut RestrictedTally) -> Result<(), String> {
    let mut other = fitted.clone();
    other.fault(random);
    if random.one_in(2) {
        other.leg = u32::MAX;
    }
    let mut asked = Asked::of(kind, &other);
    asked.journey = broken_journey(random, kind, &other);
    if random.one_in(4) {
        let place = random.place(LENT);
        let (packet, sheet) = broken(random, &fitted.segments[place]);
        asked.segments[place] = if kind == KIND_PACKET { packet } else { sheet };
    }
    let answer = asked.compare(tally)?;
    let any_kind = any_kind(random);
    if any_kind >= UNKNOWN_KIND {
        let unknown = Asked { kind: any_kind, ..asked.clone() }.compare(tally)?;
        asked.require(unknown == Answer::refused(15, 0), "an unknown kind is not refused with 15")?;
    }
    let own = Asked { train: Train { length: 1, cant: 80, maximum: FASTEST, ..fitted.train.clone() }, x: 0, ..asked.clone() }
        .permitted();
    if own.refusal > 0 {
        tally.count(&[(RestrictedEvent::OwnAndFault, own.refusal < 15)]);
        return asked.require(answer == own, "not refused as the first of its segments that is refused");
    }
    match journey_refusal(kind, &asked.journey) {
        Some(refused) => {
            tally.journey(kind, &refused);
            tally.count(&[(RestrictedEvent::JourneyAndLeg, asked.leg == u32::MAX)]);
            asked.require(answer == refused, "not refused as the journey is")
        }
        None => Ok(()),
    }
}

/// Returns how a journey is refused for its bytes alone, by the archive's conversion: also with 2 where it is a segment.
fn journey_refusal(kind: u32, journey: &[u8]) -> Option<Answer> {
    let (convert, size): (fn(&[u8], &mut [u8]) -> Answer, usize) = match kind {
        KIND_PACKET => (Archive::packet_to_sheet, LARGEST_SHEET),
        _ => (Archive::sheet_to_packet, LARGEST_PACKET),
    };
    let answer = convert(journey, &mut vec![0; size]);
    let judged = if kind == KIND_PACKET { journey.len() >= 15 } else { journey.first().map_or(false, |byte| *byte < 128) };
    if judged && journey[0] != JOURNEY {
        return Some(Answer::refused(2, 0));
    }
    Some(answer).filter(|answer| answer.refusal > 0)
}

/// Breaks a journey: fields, bytes, a body that is too long, a segment in its place, noise or nothing at all.
fn broken_journey(random: &mut Random, kind: u32, fitted: &Fitted) -> Vec<u8> {
    let mut draft = fitted.journey();
    match random.between(0, 127) {
        0..=47 => spoil_fields(random, &mut draft),
        48..=63 => draft = fitted.segments[random.place(LENT)].clone(),
        64..=79 => {
            let size = random.pick(&[0, 1, 14, 15, 17, 60]);
            return random.bytes(size);
        }
        80 => {
            let mut long = fitted.clone();
            let mut full = long.legs[0].clone();
            full.constraints = vec![[0, 3, 0, 0, 0, 5, 0, 0]; MOST];
            long.legs.extend(vec![full; TOO_MANY]);
            draft = long.journey();
        }
        _ => {
            let mut bytes = if kind == KIND_PACKET { draft.packet() } else { draft.sheet() };
            if kind == KIND_PACKET {
                spoil_packet(random, &mut bytes);
            } else {
                spoil_sheet(random, &mut bytes);
            }
            return bytes;
        }
    }
    if kind == KIND_PACKET {
        draft.packet()
    } else {
        draft.sheet()
    }
}

/// Checks pairs of questions that are equal but for one thing: a longer train is never faster, one restriction more never faster, higher restrictions
/// are never slower.
fn pairs(random: &mut Random, kind: u32, fitted: &Fitted, tally: &mut RestrictedTally) -> Result<(), String> {
    let answer = fitted.answered(kind);
    if answer.refusal > 0 {
        return Ok(());
    }
    let length = fitted.train.length;
    let most = random.pick(&[length + 3, length * 2, LONGEST_TRAIN]).min(LONGEST_TRAIN);
    let train = Train { length: random.with_ends(length, most), ..fitted.train.clone() };
    let longer = Fitted { train, ..fitted.clone() };
    let mut more = fitted.clone();
    let place = random.place(more.run());
    let restriction = within(random, more.length(place));
    let constraints = &mut more.run_legs()[place].constraints;
    if constraints.len() < MOST {
        constraints.insert(random.place(constraints.len() + 1), restriction);
    }
    let by = random.with_ends(1, HIGHEST);
    let raised = fitted.changed(|constraint| constraint[SPEED] = (constraint[SPEED] + by).min(HIGHEST));
    for (other, rises, [both, differ], otherwise) in [
        (longer, false, [RestrictedEvent::Longer, RestrictedEvent::LongerSlower], "a longer train is faster"),
        (more, false, [RestrictedEvent::OneMore, RestrictedEvent::OneMoreSlower], "one restriction more is faster"),
        (raised, true, [RestrictedEvent::Raised, RestrictedEvent::RaisedFaster], "higher restrictions are slower"),
    ] {
        let asked = Asked::of(kind, &other);
        let changed = asked.compare(tally)?;
        let (slower, faster) = if rises { (answer, changed) } else { (changed, answer) };
        tally.count(&[(both, changed.refusal == 0), (differ, changed.refusal == 0 && slower.value < faster.value)]);
        asked
            .require(changed.refusal > 0 || slower.value <= faster.value, &format!("{otherwise}: {changed:?} for {answer:?}"))?;
    }
    Ok(())
}

/// Checks that the packets of the sheets give the lower of the train's maximum and the greatest multiple of 5 not above what the sheets give without
/// it, or the sheets' refusal.
fn lowered(fitted: &Fitted, tally: &mut RestrictedTally) -> Result<(), String> {
    let asked = Asked::of(KIND_SHEET, fitted);
    let packet = |sheet: &Vec<u8>| converted(Archive::sheet_to_packet, sheet, LARGEST_PACKET).expect("a whole sheet is accepted");
    let [first, second, third, fourth] = &asked.segments;
    let segments = [first, second, third, fourth].map(packet);
    let packets = Asked { kind: KIND_PACKET, segments, journey: packet(&asked.journey), ..asked.clone() };
    let (by_sheets, by_packets) = (asked.answer(), packets.answer());
    let free = Asked { train: Train { maximum: FASTEST, ..fitted.train.clone() }, ..asked.clone() }.answer();
    let expected = match by_sheets.refusal {
        0 => Answer::success((free.value / 5 * 5).min(fitted.train.maximum.into())),
        _ => by_sheets,
    };
    tally.count(&[(RestrictedEvent::Lowered, by_packets.value < by_sheets.value)]);
    packets.require(by_packets == expected, "the speed from the sheets' packets is not the lowered one")
}

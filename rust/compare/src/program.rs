//! The common interface of both programs: the operations, and a question that either answers.

pub use second::{Intake, Train, KIND_PACKET, KIND_SHEET, LENT};

/// The packet number of a journey.
pub const JOURNEY: u8 = 4;

/// An answer: a refusal with its place, or 0 with a length, a speed or an altitude.
#[derive(Clone, Copy, Debug, PartialEq, Eq)]
pub struct Answer {
    pub refusal: u32,
    pub place: u32,
    pub value: i64,
}

impl Answer {
    pub fn success(value: i64) -> Answer {
        Answer { refusal: 0, place: 0, value }
    }

    pub fn refused(refusal: u32, place: u32) -> Answer {
        Answer { refusal, place, value: 0 }
    }
}

/// The first number after the refusals, which are 1 to 16.
pub const NO_REFUSAL: u32 = 17;

/// The refusals that are given at a bit or a byte; the place of every other is 0.
pub const PLACED: [u32; 6] = [4, 5, 6, 7, 9, 13];

#[derive(Clone, Copy, Debug, PartialEq, Eq)]
pub enum Operation {
    PacketToSheet,
    SheetToPacket,
    /// A speed question about one segment of this kind.
    PermittedSpeed(u32),
    AltitudeOfPacket,
    /// The verdict on a packet that an intake took.
    Completion,
    /// The sheet of a packet that an intake took and judged.
    TakenSheet,
}

/// The least kind that is neither a packet nor a sheet.
pub const UNKNOWN_KIND: u32 = 2;

/// The operations that are counted apart: a speed question by its kind, where all unknown kinds count as one.
pub const OPERATIONS: [Operation; 8] = [
    Operation::PacketToSheet,
    Operation::SheetToPacket,
    Operation::PermittedSpeed(KIND_PACKET),
    Operation::PermittedSpeed(KIND_SHEET),
    Operation::PermittedSpeed(UNKNOWN_KIND),
    Operation::AltitudeOfPacket,
    Operation::Completion,
    Operation::TakenSheet,
];

impl Operation {
    /// Returns the place among the operations that are counted apart.
    pub fn row(self) -> usize {
        let told = match self {
            Operation::PermittedSpeed(kind) => Operation::PermittedSpeed(kind.min(UNKNOWN_KIND)),
            other => other,
        };
        OPERATIONS.iter().position(|operation| *operation == told).expect("each operation has its row")
    }

    /// Returns the refusals that the operation can give, and 0: about a journey's bytes, or about all other bytes.
    pub fn refusals(self, journey: bool) -> &'static [u32] {
        match (self, journey) {
            (Operation::PacketToSheet | Operation::Completion, false) => &[0, 1, 2, 3, 4, 5, 6, 7, 8, 13],
            (Operation::SheetToPacket, false) => &[0, 2, 4, 5, 8, 9],
            (Operation::PermittedSpeed(KIND_PACKET), false) => &[0, 1, 2, 3, 4, 5, 6, 7, 10, 11, 13],
            (Operation::PermittedSpeed(KIND_SHEET), false) => &[0, 2, 4, 5, 9, 10, 11],
            (Operation::AltitudeOfPacket, false) => &[0, 1, 2, 3, 4, 5, 6, 7, 13],
            (Operation::TakenSheet, false) => &[0, 1, 2, 3, 4, 5, 6, 7, 8, 13, 14],
            (Operation::PacketToSheet | Operation::Completion, true) => &[0, 1, 3, 4, 5, 6, 7, 8, 13],
            (Operation::TakenSheet, true) => &[0, 1, 3, 4, 5, 6, 7, 8, 13, 14],
            (Operation::SheetToPacket, true) => &[0, 4, 5, 8, 9, 12],
            (Operation::PermittedSpeed(KIND_PACKET) | Operation::AltitudeOfPacket, true) => &[1, 2],
            (Operation::PermittedSpeed(KIND_SHEET), true) => &[2],
            (Operation::PermittedSpeed(_), _) => &[15],
        }
    }
}

/// Returns the refusals that a speed question about a run of segments of a kind can give, and 0.
pub fn run_refusals(kind: u32) -> &'static [u32] {
    match kind {
        KIND_PACKET => &[0, 1, 2, 3, 4, 5, 6, 7, 10, 11, 13, 16],
        KIND_SHEET => &[0, 2, 4, 5, 9, 10, 11, 16],
        _ => &[15],
    }
}

/// The segments that a speed question lends, and how many of them it counts.
#[derive(Clone, Copy)]
pub struct Run<'a> {
    pub count: u32,
    pub lent: [&'a [u8]; LENT],
}

impl<'a> Run<'a> {
    /// Makes a run of one segment; the others are not lent.
    pub fn one(segment: &'a [u8]) -> Run<'a> {
        Run { count: 1, lent: [segment, &[], &[], &[]] }
    }
}

/// Returns whether a completion can give this refusal, or 0, at this place.
pub fn completion_gives(refusal: u32, place: u32) -> bool {
    Operation::Completion.refusals(false).contains(&refusal) && (place == 0 || PLACED.contains(&refusal))
}

/// A question to one operation. The train and x matter to a speed alone.
pub struct Question<'a> {
    pub operation: Operation,
    pub input: &'a [u8],
    pub train: Train,
    pub x: u32,
}

impl<'a> Question<'a> {
    /// Returns whether the bytes begin with a journey's packet number.
    pub fn is_journey(&self) -> bool {
        self.input.first() == Some(&JOURNEY)
    }

    /// Makes a question to an operation that needs no train.
    pub fn without_train(operation: Operation, input: &'a [u8]) -> Question<'a> {
        let train = Train { length: 0, cant: 0, maximum: 0, freight_p: false, freight_g: false, passenger: false };
        Question { operation, input, train, x: 0 }
    }
}

pub trait Program {
    fn packet_to_sheet(packet: &[u8], room: &mut [u8]) -> Answer;
    fn sheet_to_packet(sheet: &[u8], room: &mut [u8]) -> Answer;
    fn permitted_speed(kind: u32, run: Run, train: &Train, x: u32) -> Answer;
    fn restricted_speed(kind: u32, run: Run, journey: &[u8], leg: u32, train: &Train, x: u32) -> Answer;
    fn check_steps(kind: u32, run: Run, train: &Train, starts: &[u32], speeds: &[u32]) -> Answer;
    fn altitude_of_packet(packet: &[u8]) -> Answer;
    fn fresh() -> Intake;
    fn deliver(intake: Intake, delivery: &[u8], room: &mut [u8]) -> Intake;
    fn complete(intake: Intake, room: &[u8]) -> Intake;
    fn sheet(intake: Intake, taken: &[u8], room: &mut [u8]) -> Answer;

    /// Answers a question; the room matters to a conversion and to the sheet of a packet that was taken.
    fn answer(question: &Question, room: &mut [u8]) -> Answer {
        let Question { operation, input, train, x } = question;
        match operation {
            Operation::PacketToSheet => Self::packet_to_sheet(input, room),
            Operation::SheetToPacket => Self::sheet_to_packet(input, room),
            Operation::PermittedSpeed(kind) => Self::permitted_speed(*kind, Run::one(input), train, *x),
            Operation::AltitudeOfPacket => Self::altitude_of_packet(input),
            Operation::Completion => verdict(Self::taken(input, &mut vec![0; input.len()])),
            Operation::TakenSheet => {
                let mut taken = vec![0; input.len()];
                let judged = Self::taken(input, &mut taken);
                Self::sheet(judged, &taken, room)
            }
        }
    }

    /// Returns the state after a packet was delivered at once, and completed.
    fn taken(packet: &[u8], room: &mut [u8]) -> Intake {
        let gathered = Self::deliver(Self::fresh(), packet, room);
        Self::complete(gathered, room)
    }
}

/// Returns the verdict in a state: a packet's length, or its refusal.
pub fn verdict(Intake { length, refusal, place, .. }: Intake) -> Answer {
    match refusal {
        0 => Answer { refusal, place, value: length.into() },
        _ => Answer::refused(refusal, place),
    }
}

//! The second program under the common interface.

use crate::program::{Answer, Intake, Program, Run, Train};
use second::{Refused, Told};

pub struct Second;

impl Program for Second {
    fn packet_to_sheet(packet: &[u8], room: &mut [u8]) -> Answer {
        answer(second::packet_to_sheet(packet, room).map(|length| length as i64))
    }

    fn sheet_to_packet(sheet: &[u8], room: &mut [u8]) -> Answer {
        answer(second::sheet_to_packet(sheet, room).map(|length| length as i64))
    }

    fn permitted_speed(kind: u32, Run { count, lent }: Run, train: &Train, x: u32) -> Answer {
        answer(second::permitted_speed(kind, count, lent, train, x))
    }

    fn restricted_speed(kind: u32, Run { count, lent }: Run, journey: &[u8], leg: u32, train: &Train, x: u32) -> Answer {
        answer(second::restricted_speed(kind, count, lent, journey, leg, train, x))
    }

    fn check_steps(kind: u32, Run { count, lent }: Run, train: &Train, starts: &[u32], speeds: &[u32]) -> Answer {
        answer(second::check_steps(kind, count, lent, train, starts, speeds).map(|()| 0u32))
    }

    fn altitude_of_packet(packet: &[u8]) -> Answer {
        answer(second::altitude_of_packet(packet))
    }

    fn fresh() -> Intake {
        Intake::fresh()
    }

    fn deliver(intake: Intake, delivery: &[u8], room: &mut [u8]) -> Intake {
        intake.deliver(delivery, room)
    }

    fn complete(intake: Intake, room: &[u8]) -> Intake {
        intake.complete(room)
    }

    fn sheet(intake: Intake, taken: &[u8], room: &mut [u8]) -> Answer {
        match intake.sheet(taken, room) {
            Ok(length) => Answer::success(length as i64),
            Err(Told { refusal, place }) => Answer::refused(refusal, place),
        }
    }
}

/// Makes an answer of a result: a refusal has length, speed or altitude 0, success has place 0.
fn answer(result: Result<impl Into<i64>, Refused>) -> Answer {
    match result {
        Ok(value) => Answer::success(value.into()),
        Err(refused) => Answer::refused(refused.refusal as u32, refused.place as u32),
    }
}

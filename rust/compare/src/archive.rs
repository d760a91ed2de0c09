//! The archive's operations, by the names and layouts that the server links.

use crate::program::{Answer, Intake, Program, Run, Train};

#[repr(C)]
struct Converted {
    refusal: u32,
    place: u32,
    length: u32,
}

#[repr(C)]
struct Speed {
    refusal: u32,
    place: u32,
    speed: u32,
}

#[repr(C)]
struct Checked {
    refusal: u32,
    place: u32,
}

#[repr(C)]
struct Altitude {
    refusal: u32,
    place: u32,
    altitude: i32,
}

#[repr(C)]
struct Card {
    length: u32,
    cant: u32,
    maximum: u32,
    freight_p: bool,
    freight_g: bool,
    passenger: bool,
}

#[repr(C)]
struct State {
    phase: u32,
    length: u32,
    refusal: u32,
    place: u32,
}

extern "C" {
    fn seglink_packet_to_sheet(packet: *const u8, packet_len: usize, room: *mut u8, room_len: usize) -> Converted;
    fn seglink_sheet_to_packet(sheet: *const u8, sheet_len: usize, room: *mut u8, room_len: usize) -> Converted;
    fn seglink_permitted_speed(
        kind: u32,
        count: u32,
        first: *const u8,
        first_len: usize,
        second: *const u8,
        second_len: usize,
        third: *const u8,
        third_len: usize,
        fourth: *const u8,
        fourth_len: usize,
        train: Card,
        x: u32,
    ) -> Speed;
    fn seglink_restricted_speed(
        kind: u32,
        count: u32,
        first: *const u8,
        first_len: usize,
        second: *const u8,
        second_len: usize,
        third: *const u8,
        third_len: usize,
        fourth: *const u8,
        fourth_len: usize,
        journey: *const u8,
        journey_len: usize,
        leg: u32,
        train: Card,
        x: u32,
    ) -> Speed;
    fn seglink_check_steps(
        kind: u32,
        count: u32,
        first: *const u8,
        first_len: usize,
        second: *const u8,
        second_len: usize,
        third: *const u8,
        third_len: usize,
        fourth: *const u8,
        fourth_len: usize,
        train: Card,
        starts: *const u32,
        starts_len: usize,
        speeds: *const u32,
        speeds_len: usize,
    ) -> Checked;
    fn seglink_altitude_of_packet(packet: *const u8, packet_len: usize) -> Altitude;
    fn seglink_intake_fresh() -> State;
    fn seglink_intake_deliver(intake: State, delivery: *const u8, delivery_len: usize, room: *mut u8, room_len: usize) -> State;
    fn seglink_intake_complete(intake: State, room: *const u8, room_len: usize) -> State;
    fn seglink_intake_sheet(intake: State, taken: *const u8, taken_len: usize, room: *mut u8, room_len: usize) -> Converted;
}

pub struct Archive;

// Each call hands over its slices as pointer and length; the operations take any bytes and any room.
impl Program for Archive {
    fn packet_to_sheet(packet: &[u8], room: &mut [u8]) -> Answer {
        converted(unsafe { seglink_packet_to_sheet(packet.as_ptr(), packet.len(), room.as_mut_ptr(), room.len()) })
    }

    fn sheet_to_packet(sheet: &[u8], room: &mut [u8]) -> Answer {
        converted(unsafe { seglink_sheet_to_packet(sheet.as_ptr(), sheet.len(), room.as_mut_ptr(), room.len()) })
    }

    fn permitted_speed(kind: u32, Run { count, lent }: Run, train: &Train, x: u32) -> Answer {
        let [(a, a_len), (b, b_len), (c, c_len), (d, d_len)] = lent.map(|segment| (segment.as_ptr(), segment.len()));
        let asked = unsafe { seglink_permitted_speed(kind, count, a, a_len, b, b_len, c, c_len, d, d_len, card(train), x) };
        let Speed { refusal, place, speed } = asked;
        Answer { refusal, place, value: speed.into() }
    }

    fn restricted_speed(kind: u32, Run { count, lent }: Run, journey: &[u8], leg: u32, train: &Train, x: u32) -> Answer {
        let [(a, a_len), (b, b_len), (c, c_len), (d, d_len)] = lent.map(|segment| (segment.as_ptr(), segment.len()));
        let (j, j_len, train) = (journey.as_ptr(), journey.len(), card(train));
        let asked = unsafe {
            seglink_restricted_speed(kind, count, a, a_len, b, b_len, c, c_len, d, d_len, j, j_len, leg, train, x)
        };
        let Speed { refusal, place, speed } = asked;
        Answer { refusal, place, value: speed.into() }
    }

    fn check_steps(kind: u32, Run { count, lent }: Run, train: &Train, starts: &[u32], speeds: &[u32]) -> Answer {
        let [(a, a_len), (b, b_len), (c, c_len), (d, d_len)] = lent.map(|segment| (segment.as_ptr(), segment.len()));
        let (from, steps, of, numbers) = (starts.as_ptr(), starts.len(), speeds.as_ptr(), speeds.len());
        let Checked { refusal, place } = unsafe {
            seglink_check_steps(kind, count, a, a_len, b, b_len, c, c_len, d, d_len, card(train), from, steps, of, numbers)
        };
        Answer { refusal, place, value: 0 }
    }

    fn altitude_of_packet(packet: &[u8]) -> Answer {
        let Altitude { refusal, place, altitude } = unsafe { seglink_altitude_of_packet(packet.as_ptr(), packet.len()) };
        Answer { refusal, place, value: altitude.into() }
    }

    fn fresh() -> Intake {
        after(unsafe { seglink_intake_fresh() })
    }

    fn deliver(intake: Intake, delivery: &[u8], room: &mut [u8]) -> Intake {
        let (bytes, length) = (delivery.as_ptr(), delivery.len());
        after(unsafe { seglink_intake_deliver(state(intake), bytes, length, room.as_mut_ptr(), room.len()) })
    }

    fn complete(intake: Intake, room: &[u8]) -> Intake {
        after(unsafe { seglink_intake_complete(state(intake), room.as_ptr(), room.len()) })
    }

    fn sheet(intake: Intake, taken: &[u8], room: &mut [u8]) -> Answer {
        let (bytes, length) = (taken.as_ptr(), taken.len());
        converted(unsafe { seglink_intake_sheet(state(intake), bytes, length, room.as_mut_ptr(), room.len()) })
    }
}

fn converted(Converted { refusal, place, length }: Converted) -> Answer {
    Answer { refusal, place, value: length.into() }
}

fn card(train: &Train) -> Card {
    let Train { length, cant, maximum, freight_p, freight_g, passenger } = *train;
    Card { length, cant, maximum, freight_p, freight_g, passenger }
}

fn state(Intake { phase, length, refusal, place }: Intake) -> State {
    State { phase, length, refusal, place }
}

/// Turns the state that a call returned into the common type.
fn after(State { phase, length, refusal, place }: State) -> Intake {
    Intake { phase, length, refusal, place }
}

//! The functions of the static library as C declares them, and a safe function for each: the only unsafe code of the crate.
//! Rust's types keep what the header asks of a caller: a slice's pointer is not null, also if the slice is empty; a bool is 0 or 1.
#![allow(unsafe_code)]

use crate::{Key, Train};

#[repr(C)]
pub(crate) struct Converted {
    pub(crate) refusal: u32,
    pub(crate) place: u32,
    pub(crate) length: u32,
}

#[repr(C)]
pub(crate) struct Speed {
    pub(crate) refusal: u32,
    pub(crate) place: u32,
    pub(crate) speed: u32,
}

#[repr(C)]
pub(crate) struct Checked {
    pub(crate) refusal: u32,
    pub(crate) place: u32,
}

#[repr(C)]
pub(crate) struct Altitude {
    pub(crate) refusal: u32,
    pub(crate) place: u32,
    pub(crate) altitude: i32,
}

/// State of an intake; only the library makes one.
#[derive(Clone, Copy, Debug)]
#[repr(C)]
pub(crate) struct State {
    _phase: u32,
    pub(crate) length: u32,
    pub(crate) refusal: u32,
    pub(crate) place: u32,
}

/// How many segments a speed question lends.
const LENT: usize = 4;

#[repr(C)]
pub(crate) struct Shelved {
    pub(crate) refusal: u32,
    pub(crate) place: u32,
    pub(crate) used: u32,
}

#[repr(C)]
struct Part {
    bytes: *const u8,
    length: usize,
}

// Declarations as in include/seglink.h.
extern "C" {
    fn seglink_packet_to_sheet(packet: *const u8, packet_len: usize, room: *mut u8, room_len: usize) -> Converted;
    fn seglink_sheet_to_packet(sheet: *const u8, sheet_len: usize, room: *mut u8, room_len: usize) -> Converted;
    fn seglink_permitted_speed(
        kind: u32,
        count: u32,
        first: *const u8,
        first_len: usize,
        second: *const u8,
        second_len: usize,
        third: *const u8,
        third_len: usize,
        fourth: *const u8,
        fourth_len: usize,
        train: Train,
        x: u32,
    ) -> Speed;
    fn seglink_restricted_speed(
        kind: u32,
        count: u32,
        first: *const u8,
        first_len: usize,
        second: *const u8,
        second_len: usize,
        third: *const u8,
        third_len: usize,
        fourth: *const u8,
        fourth_len: usize,
        journey: *const u8,
        journey_len: usize,
        leg: u32,
        train: Train,
        x: u32,
    ) -> Speed;
    fn seglink_check_steps(
        kind: u32,
        count: u32,
        first: *const u8,
        first_len: usize,
        second: *const u8,
        second_len: usize,
        third: *const u8,
        third_len: usize,
        fourth: *const u8,
        fourth_len: usize,
        train: Train,
        starts: *const u32,
        starts_len: usize,
        speeds: *const u32,
        speeds_len: usize,
    ) -> Checked;
    fn seglink_altitude_of_packet(packet: *const u8, packet_len: usize) -> Altitude;
    fn seglink_version() -> u32;
    fn seglink_intake_fresh() -> State;
    fn seglink_intake_deliver(intake: State, delivery: *const u8, delivery_len: usize, room: *mut u8, room_len: usize) -> State;
    fn seglink_intake_complete(intake: State, room: *const u8, room_len: usize) -> State;
    fn seglink_intake_sheet(intake: State, taken: *const u8, taken_len: usize, room: *mut u8, room_len: usize) -> Converted;
    fn seglink_shelf_add(store: *mut u8, store_len: usize, used: u32, sheet: *const u8, sheet_len: usize) -> Shelved;
    fn seglink_shelf_remove(store: *mut u8, store_len: usize, used: u32, key: Key) -> Shelved;
    fn seglink_shelf_lookup_into(
        part: *mut Part,
        yard: *const u8,
        yard_len: usize,
        yard_used: u32,
        standard: *const u8,
        standard_len: usize,
        standard_used: u32,
        key: Key,
    ) -> u32;
}

pub(crate) fn packet_to_sheet(packet: &[u8], room: &mut [u8]) -> Converted {
    // SAFETY: each pointer comes with its own slice's length and is not null; `&mut` shares no byte with `&`; neither is kept.
    unsafe { seglink_packet_to_sheet(packet.as_ptr(), packet.len(), room.as_mut_ptr(), room.len()) }
}

pub(crate) fn sheet_to_packet(sheet: &[u8], room: &mut [u8]) -> Converted {
    // SAFETY: each pointer comes with its own slice's length and is not null; `&mut` shares no byte with `&`; neither is kept.
    unsafe { seglink_sheet_to_packet(sheet.as_ptr(), sheet.len(), room.as_mut_ptr(), room.len()) }
}

/// Returns how many segments a run has, and what is lent: a pointer and a length for each of the first four, empty ones where there are fewer.
fn lend(segments: &[&[u8]]) -> (u32, [(*const u8, usize); LENT]) {
    let count = u32::try_from(segments.len()).unwrap_or(u32::MAX);
    let mut lent: [&[u8]; LENT] = [&[]; LENT];
    lent.iter_mut().zip(segments).for_each(|(lent, segment)| *lent = segment);
    (count, lent.map(|segment| (segment.as_ptr(), segment.len())))
}

/// Lends the first four of the segments, and empty ones where there are fewer; the library counts all of them.
pub(crate) fn permitted_speed(kind: u32, segments: &[&[u8]], train: Train, x: u32) -> Speed {
    let (count, [(first, first_len), (second, second_len), (third, third_len), (fourth, fourth_len)]) = lend(segments);
    // SAFETY: each pointer comes with its own slice's length, is not null and is only read; Train has the C layout.
    unsafe {
        seglink_permitted_speed(kind, count, first, first_len, second, second_len, third, third_len, fourth, fourth_len, train, x)
    }
}

/// Lends the segments as [`permitted_speed`] does, and the journey.
pub(crate) fn restricted_speed(kind: u32, segments: &[&[u8]], journey: &[u8], leg: u32, train: Train, x: u32) -> Speed {
    let (count, [(first, first_len), (second, second_len), (third, third_len), (fourth, fourth_len)]) = lend(segments);
    // SAFETY: each pointer comes with its own slice's length, is not null and is only read; Train has the C layout.
    unsafe {
        seglink_restricted_speed(
            kind,
            count,
            first,
            first_len,
            second,
            second_len,
            third,
            third_len,
            fourth,
            fourth_len,
            journey.as_ptr(),
            journey.len(),
            leg,
            train,
            x,
        )
    }
}

/// Lends the segments as [`permitted_speed`] does, and the starts and speeds.
pub(crate) fn check_steps(kind: u32, segments: &[&[u8]], train: Train, starts: &[u32], speeds: &[u32]) -> Checked {
    let (count, [(first, first_len), (second, second_len), (third, third_len), (fourth, fourth_len)]) = lend(segments);
    // SAFETY: each pointer comes with its own slice's length, is not null and is only read; Train has the C layout.
    unsafe {
        seglink_check_steps(
            kind,
            count,
            first,
            first_len,
            second,
            second_len,
            third,
            third_len,
            fourth,
            fourth_len,
            train,
            starts.as_ptr(),
            starts.len(),
            speeds.as_ptr(),
            speeds.len(),
        )
    }
}

pub(crate) fn altitude_of_packet(packet: &[u8]) -> Altitude {
    // SAFETY: the pointer comes with its slice's length, is not null and is only read.
    unsafe { seglink_altitude_of_packet(packet.as_ptr(), packet.len()) }
}

pub(crate) fn version() -> u32 {
    // SAFETY: nothing is handed over.
    unsafe { seglink_version() }
}

pub(crate) fn intake_fresh() -> State {
    // SAFETY: nothing is handed over.
    unsafe { seglink_intake_fresh() }
}

pub(crate) fn intake_deliver(intake: State, delivery: &[u8], room: &mut [u8]) -> State {
    // SAFETY: each pointer comes with its own slice's length and is not null; `&mut` shares no byte with `&`; neither is kept.
    unsafe { seglink_intake_deliver(intake, delivery.as_ptr(), delivery.len(), room.as_mut_ptr(), room.len()) }
}

pub(crate) fn intake_complete(intake: State, room: &[u8]) -> State {
    // SAFETY: the pointer comes with its slice's length, is not null and is only read.
    unsafe { seglink_intake_complete(intake, room.as_ptr(), room.len()) }
}

pub(crate) fn intake_sheet(intake: State, taken: &[u8], room: &mut [u8]) -> Converted {
    // SAFETY: each pointer comes with its own slice's length and is not null; `&mut` shares no byte with `&`; neither is kept.
    unsafe { seglink_intake_sheet(intake, taken.as_ptr(), taken.len(), room.as_mut_ptr(), room.len()) }
}

pub(crate) fn shelf_add(store: &mut [u8], used: u32, sheet: &[u8]) -> Shelved {
    // SAFETY: each pointer comes with its own slice's length and is not null; `&mut` shares no byte with `&`; neither is kept.
    unsafe { seglink_shelf_add(store.as_mut_ptr(), store.len(), used, sheet.as_ptr(), sheet.len()) }
}

pub(crate) fn shelf_remove(store: &mut [u8], used: u32, key: Key) -> Shelved {
    // SAFETY: the pointer comes with its slice's length and is not null; it is not kept; Key has the C layout.
    unsafe { seglink_shelf_remove(store.as_mut_ptr(), store.len(), used, key) }
}

/// Returns a lookup's refusal and its part, which lies in one of the two stores.
pub(crate) fn shelf_lookup<'a>(
    yard: &'a [u8],
    yard_used: u32,
    standard: &'a [u8],
    standard_used: u32,
    key: Key,
) -> (u32, &'a [u8]) {
    let mut part = Part { bytes: yard.as_ptr(), length: 0 };
    let (first, second) = ((yard.as_ptr(), yard.len()), (standard.as_ptr(), standard.len()));
    // SAFETY: each pointer comes with its own slice's length, is not null and is only read; the part is the callee's alone; Key has the C layout.
    let refusal =
        unsafe { seglink_shelf_lookup_into(&mut part, first.0, first.1, yard_used, second.0, second.1, standard_used, key) };
    // SAFETY: the library is proved to hand back a part of the yard's store or of the default store; both are lent for 'a and not changed.
    (refusal, unsafe { core::slice::from_raw_parts(part.bytes, part.length) })
}

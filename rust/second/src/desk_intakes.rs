//! Tests of packets taken in deliveries: every sentence of the request, with its states, its answers and the bytes of the room.

use crate::desk::{packet_with, sample, sheet, SHEET};
use crate::desk_journeys::{JOURNEY, PACKET};
use crate::*;

/// Byte that fills a room before it is lent.
const FILL: u8 = 0xA5;
const FRESH: Intake = gathering(0);
const PASSED: Intake = Intake { phase: 1, ..FRESH };
const LONG: Intake = judged(0, 8, 0);
const EARLY: Result<usize, Told> = Err(Told { refusal: 14, place: 0 });

const fn gathering(length: u32) -> Intake {
    Intake { phase: 0, length, refusal: 0, place: 0 }
}

const fn judged(length: u32, refusal: u32, place: u32) -> Intake {
    Intake { phase: 2, length, refusal, place }
}

/// An intake with its room.
struct Taking {
    state: Intake,
    room: Vec<u8>,
}

impl Taking {
    fn new(size: usize) -> Taking {
        Taking { state: Intake::fresh(), room: vec![FILL; size] }
    }

    fn deliver(&mut self, delivery: &[u8]) -> Intake {
        self.state = self.state.deliver(delivery, &mut self.room);
        self.state
    }

    fn complete(&mut self) -> Intake {
        self.state = self.state.complete(&self.room);
        self.state
    }

    /// Asks for the sheet, and checks that a refusal leaves the room as it was.
    fn sheet(&self) -> Result<Vec<u8>, Told> {
        let mut room = vec![FILL; 100];
        let answer = self.state.sheet(&self.room, &mut room);
        assert!(room[answer.unwrap_or(0)..].iter().all(|byte| *byte == FILL));
        answer.map(|length| room[..length].to_vec())
    }

    fn refused(&self) -> Option<(u32, u32)> {
        self.sheet().err().map(|told| (told.refusal, told.place))
    }
}

/// Returns a room of `size` bytes that begins with the packet, with the fill behind it.
fn before_fill(packet: &[u8], size: usize) -> Vec<u8> {
    let mut room = packet.to_vec();
    room.resize(size, FILL);
    room
}

#[test]
fn fresh_is_all_0() {
    assert_eq!(Intake::fresh(), FRESH);
}

#[test]
fn every_cut_gives_the_packet_s_own_verdict_and_sheet() {
    for (packet, numbers) in [(sample(), sheet(&SHEET)), (PACKET.to_vec(), sheet(&JOURNEY))] {
        for cut in 0..=packet.len() {
            let mut taking = Taking::new(50);
            assert_eq!(taking.deliver(&packet[..cut]), gathering(cut as u32));
            assert_eq!(taking.room, before_fill(&packet[..cut], 50));
            assert_eq!(taking.deliver(&[]), gathering(cut as u32));
            assert_eq!(taking.deliver(&packet[cut..]), gathering(packet.len() as u32));
            assert_eq!(taking.complete(), judged(packet.len() as u32, 0, 0));
            assert_eq!(taking.room, before_fill(&packet, 50));
            assert_eq!(taking.sheet(), Ok(numbers.clone()));
            assert_eq!(taking.sheet(), Ok(numbers.clone()));
        }
    }
}

#[test]
fn a_packet_comes_byte_by_byte_in_a_room_of_its_size() {
    let mut taking = Taking::new(39);
    sample().iter().for_each(|byte| assert_eq!(taking.deliver(&[*byte]).phase, 0));
    assert_eq!(taking.complete(), judged(39, 0, 0));
    assert_eq!(taking.room, sample());
}

#[test]
fn a_damaged_packet_is_refused_with_its_number_and_place_and_so_is_its_sheet() {
    let padded = packet_with(&sample(), (306, 1), 1);
    for (packet, refusal, place) in [(padded, 7, 306), (sample()[..38].to_vec(), 3, 0), (PACKET[..14].to_vec(), 1, 0)] {
        let mut taking = Taking::new(39);
        taking.deliver(&packet[..9]);
        taking.deliver(&packet[9..]);
        assert_eq!(taking.complete(), judged(packet.len() as u32, refusal, place));
        assert_eq!(taking.refused(), Some((refusal, place)));
        assert_eq!(taking.refused(), Some((refusal, place)));
    }
}

#[test]
fn a_delivery_past_the_room_s_end_and_each_after_it_write_nothing() {
    let mut taking = Taking::new(38);
    taking.deliver(&sample()[..30]);
    assert_eq!(taking.deliver(&sample()[30..]), PASSED);
    for delivery in [&[][..], &[1], &[1; 38]] {
        assert_eq!(taking.deliver(delivery), PASSED);
        assert_eq!(taking.refused(), Some((14, 0)));
        assert_eq!(taking.room, before_fill(&sample()[..30], 38));
    }
    // 8 comes before the packet's own refusal
    assert_eq!(taking.complete(), LONG);
    assert_eq!(taking.refused(), Some((8, 0)));
    assert_eq!(taking.room, before_fill(&sample()[..30], 38));
}

#[test]
fn after_a_verdict_the_next_packet_starts_afresh() {
    let mut taking = Taking::new(42);
    let (journey, unknown, long) = (PACKET.to_vec(), vec![5; 15], vec![6; 43]);
    for (packet, length, refusal) in [(sample(), 39, 0), (journey, 42, 0), (unknown, 15, 2), (long, 0, 8), (sample(), 39, 0)] {
        let held = taking.room.clone();
        taking.deliver(&packet);
        assert_eq!(taking.complete(), judged(length, refusal, 0));
        let (taken, stays) = (&packet[..length as usize], &held[length as usize..]);
        assert_eq!(taking.room, [taken, stays].concat());
    }
}

#[test]
fn the_sheet_can_be_asked_for_until_the_next_bytes_or_the_next_completion() {
    let mut taking = Taking::new(39);
    assert_eq!(taking.refused(), Some((14, 0)));
    taking.deliver(&sample());
    assert_eq!(taking.refused(), Some((14, 0)));
    let accepted = taking.complete();
    assert_eq!(taking.deliver(&[]), accepted);
    assert_eq!(taking.sheet(), Ok(sheet(&SHEET)));
    assert_eq!(taking.deliver(&[6]), gathering(1));
    assert_eq!(taking.refused(), Some((14, 0)));
    taking.state = accepted;
    assert_eq!(taking.complete(), judged(0, 1, 0));
    assert_eq!(taking.refused(), Some((1, 0)));
}

#[test]
fn a_sheet_needs_the_packet_s_bytes_and_a_room_of_its_own() {
    let mut room = [FILL; 25];
    let accepted = judged(39, 0, 0);
    assert_eq!(accepted.sheet(&sample()[..38], &mut room), EARLY);
    assert_eq!(accepted.sheet(&sample(), &mut room[..24]), Err(Told { refusal: 8, place: 0 }));
    assert_eq!(room, [FILL; 25]);
    assert_eq!(judged(39, 7, 306).sheet(&[], &mut room), Err(Told { refusal: 7, place: 306 }));
    assert_eq!(accepted.sheet(&[sample(), vec![1; 9]].concat(), &mut room), Ok(25));
}

#[test]
fn every_state_has_its_outcome() {
    let wild = Intake { phase: 3, length: 7, refusal: 9, place: 11 };
    let mut room = [FILL; 9];
    assert_eq!(wild.deliver(&[], &mut room), wild);
    assert_eq!(wild.sheet(&sample(), &mut room), EARLY);
    assert_eq!(wild.deliver(&[1, 2], &mut room), gathering(9));
    assert_eq!(room, [FILL, FILL, FILL, FILL, FILL, FILL, FILL, 1, 2]);
    assert_eq!(wild.deliver(&[1, 2, 3], &mut room), PASSED);
    assert_eq!(wild.complete(&room), judged(7, 1, 0));
    assert_eq!(Intake { phase: u32::MAX, length: 39, ..wild }.complete(&sample()), judged(39, 0, 0));
    for length in [10, u32::MAX] {
        assert_eq!(gathering(length).deliver(&[1], &mut room), PASSED);
        assert_eq!(gathering(length).complete(&room), LONG);
        assert_eq!(judged(length, 0, 0).sheet(&room, &mut [0; 9]), EARLY);
        assert_eq!(judged(length, 0, 5).deliver(&[4], &mut room), gathering(1));
    }
    let past = Intake { phase: 1, length: 3, refusal: 4, place: 5 };
    assert_eq!(past.deliver(&[], &mut room), past);
    assert_eq!(past.deliver(&[1], &mut room), PASSED);
    assert_eq!(past.complete(&room), LONG);
    assert_eq!(room, [4, FILL, FILL, FILL, FILL, FILL, FILL, 1, 2]);
}

#[test]
fn a_refusal_or_place_that_no_completion_gives_is_no_verdict() {
    let mut room = [FILL; 25];
    for (refusal, place) in
        [(0, 1), (1, 1), (2, 5), (3, u32::MAX), (8, 39), (9, 0), (12, 0), (14, 0), (15, 0), (77, 5), (u32::MAX, 0)]
    {
        assert_eq!(judged(39, refusal, place).sheet(&sample(), &mut room), EARLY, "{refusal} at {place}");
    }
    for (refusal, place) in [(1, 0), (2, 0), (3, 0), (4, 24), (5, u32::MAX), (6, 0), (7, 306), (8, 0), (13, 305)] {
        assert_eq!(judged(39, refusal, place).sheet(&sample(), &mut room), Err(Told { refusal, place }));
    }
    assert_eq!(room, [FILL; 25]);
    let unjudged = judged(39, 77, 5);
    assert_eq!(unjudged.deliver(&[], &mut room), unjudged);
    assert_eq!(unjudged.complete(&sample()), judged(0, 1, 0));
    assert_eq!(unjudged.deliver(&[4], &mut room), gathering(1));
}

#[test]
fn a_state_counts_4_294_967_295_bytes() {
    // the system gives memory only for the pages of the room that are written
    let mut room = vec![0; 1 << 32];
    let last = gathering(u32::MAX - 1).deliver(&[9], &mut room);
    assert_eq!(last, gathering(u32::MAX));
    assert_eq!(room[u32::MAX as usize - 1..], [9, 0]);
    assert_eq!(last.deliver(&[9], &mut room), PASSED);
    assert_eq!(gathering(u32::MAX - 1).deliver(&[9, 9], &mut room), PASSED);
    assert_eq!(room[u32::MAX as usize - 1..], [9, 0]);
}

//! Tests of packets that an intake with its own room takes in deliveries.
use crate::journeys::{journey, PACKET, SHEET};
use crate::segments::{largest, packet, DESK_PACKET, DESK_SHEET};
use crate::told;
use seglink::{sheet_of, Intake, Refusal, LARGEST_JOURNEY_PACKET, LARGEST_PACKET};

/// Makes an intake that has taken `bytes` as one delivery.
fn taking(capacity: usize, bytes: &[u8]) -> Intake {
    let mut intake = Intake::new(capacity);
    intake.deliver(bytes);
    intake
}

#[test]
fn every_cut_gives_the_packet_and_its_sheet() {
    for (packet, sheet) in [(&DESK_PACKET[..], &DESK_SHEET[..]), (&PACKET, &SHEET)] {
        for cut in 0..=packet.len() {
            let mut intake = taking(packet.len(), &packet[..cut]);
            intake.deliver(&[]);
            intake.deliver(&packet[cut..]);
            assert_eq!(intake.complete(), Ok(packet));
            assert_eq!(intake.sheet().unwrap(), sheet);
        }
    }
}

#[test]
fn the_largest_packets_come_byte_by_byte() {
    for (packet, capacity) in [(packet(&largest()), LARGEST_PACKET), (packet(&journey(20, 186, 550)), LARGEST_JOURNEY_PACKET)] {
        let mut intake = Intake::new(capacity);
        packet.iter().for_each(|byte| intake.deliver(&[*byte]));
        assert_eq!(intake.complete(), Ok(&packet[..]));
        assert_eq!(intake.sheet(), sheet_of(&packet));
    }
}

#[test]
fn a_refused_packet_has_no_sheet_but_its_refusal_again() {
    let mut padded = DESK_PACKET;
    padded[38] = 0x24;
    for (bytes, refusal, place) in
        [(&padded[..], Refusal::PaddingBit, 306), (&[], Refusal::ShortPacket, 0), (&PACKET[..41], Refusal::PacketLength, 0)]
    {
        let mut intake = taking(64, bytes);
        assert_eq!(told(intake.complete()), Err((refusal, place)));
        assert_eq!(told(intake.sheet()), Err((refusal, place)));
        assert_eq!(told(intake.sheet()), Err((refusal, place)));
    }
}

#[test]
fn a_capacity_of_the_packet_s_size_is_enough_and_one_less_is_not() {
    assert_eq!(taking(39, &DESK_PACKET).complete(), Ok(&DESK_PACKET[..]));
    for capacity in [0, 1, 38] {
        let mut intake = taking(capacity, &DESK_PACKET);
        // a short delivery after it is not taken for a packet of its own
        intake.deliver(&DESK_PACKET[..1]);
        assert_eq!(told(intake.sheet()), Err((Refusal::TooEarly, 0)));
        assert_eq!(told(intake.complete()), Err((Refusal::ShortRoom, 0)));
        assert_eq!(told(intake.sheet()), Err((Refusal::ShortRoom, 0)));
    }
}

#[test]
fn packets_follow_one_another() {
    let mut intake = Intake::new(42);
    for (bytes, verdict) in [
        (&DESK_PACKET[..], Ok(&DESK_PACKET[..])),
        (&PACKET, Ok(&PACKET)),
        (&[0; 43], Err((Refusal::ShortRoom, 0))),
        (&DESK_PACKET, Ok(&DESK_PACKET)),
        (&PACKET[..3], Err((Refusal::ShortPacket, 0))),
        (&PACKET, Ok(&PACKET)),
    ] {
        bytes.chunks(7).for_each(|delivery| intake.deliver(delivery));
        assert_eq!(told(intake.complete()), verdict);
    }
}

#[test]
fn the_sheet_is_given_from_completion_to_the_next_bytes_or_completion() {
    let early = Err((Refusal::TooEarly, 0));
    assert_eq!(told(Intake::new(39).sheet()), early);
    let mut intake = taking(39, &DESK_PACKET);
    assert_eq!(told(intake.sheet()), early);
    intake.complete().unwrap();
    intake.deliver(&[]);
    assert_eq!(intake.sheet().unwrap(), DESK_SHEET);
    let mut next = intake.clone();
    next.deliver(&DESK_PACKET[..1]);
    assert_eq!(told(next.sheet()), early);
    assert_eq!(told(intake.complete()), Err((Refusal::ShortPacket, 0)));
    assert_eq!(told(intake.sheet()), Err((Refusal::ShortPacket, 0)));
}

#[test]
fn a_sheet_asked_for_too_early_says_so() {
    let said = Intake::new(0).sheet().unwrap_err().to_string();
    assert!(said.starts_with("14: an intake's sheet is asked for before a completion, "), "{said}");
}

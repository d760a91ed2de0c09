//! Tests of what a Rust caller expects beside the answers: trains by constructors, refusals as numbers, errors and errors of input and output, results
//! without spare room, an intake that is written to.
use crate::segments::{DESK_PACKET, DESK_SHEET};
use seglink::{
    altitude_of_packet, packet_of, permitted_speed, sheet_of, Intake, Key, Kind, Refusal, Refused, Shelf, Train, UnknownRefusal,
};
use std::error::Error;
use std::io::{self, ErrorKind, Write};

#[test]
fn a_train_is_made_by_the_names_of_its_categories() {
    let made = |train: Train| (train.length, train.cant, train.maximum, train.freight_p, train.freight_g, train.passenger);
    const BARE: Train = Train::new(4000, 80, 160);
    assert_eq!(made(BARE), (4000, 80, 160, false, false, false));
    assert_eq!(made(BARE.freight_p()), (4000, 80, 160, true, false, false));
    assert_eq!(made(BARE.freight_g()), (4000, 80, 160, false, true, false));
    assert_eq!(made(BARE.passenger()), (4000, 80, 160, false, false, true));
    assert_eq!(made(BARE.freight_p().freight_g().passenger()), (4000, 80, 160, true, true, true));
}

#[test]
fn a_refusal_is_a_number_and_back() {
    for number in (1..=19).chain(21..=26) {
        let refusal = Refusal::try_from(number).unwrap();
        assert_eq!(u32::from(refusal), number);
        assert_eq!(refusal.to_string(), format!("{number}: {}", refusal.ground()));
    }
    assert_eq!(UnknownRefusal(0).to_string(), "no refusal has the number 0");
    let _: Box<dyn Error> = Refusal::try_from(u32::MAX).unwrap_err().into();
}

#[test]
fn a_refusal_of_a_value_names_no_field() {
    let mut sheet = DESK_SHEET.to_vec();
    sheet.splice(16..17, [0x84, 0x5D]); // V_STATIC 605
    assert_eq!(
        packet_of(&sheet).unwrap_err().to_string(),
        "4 at byte 16: a field is outside its range or set, or not 0 where it is not used"
    );
}

/// Returns the kind of a refusal as an error of input and output, which keeps the refusal and its words.
fn kind(refused: Refused) -> ErrorKind {
    let error = io::Error::from(refused);
    assert_eq!(error.get_ref().unwrap().downcast_ref::<Refused>(), Some(&refused));
    assert_eq!(error.to_string(), refused.to_string());
    error.kind()
}

#[test]
fn a_refusal_is_an_error_of_input_and_output() {
    let train = Train::new(200, 150, 600).passenger();
    assert_eq!(kind(altitude_of_packet(&[]).unwrap_err()), ErrorKind::InvalidData);
    assert_eq!(kind(packet_of(&[]).unwrap_err()), ErrorKind::InvalidData);
    assert_eq!(kind(permitted_speed(Kind::Packet, &[], train, 0).unwrap_err()), ErrorKind::InvalidInput);
    assert_eq!(kind(permitted_speed(Kind::Packet, &[&DESK_PACKET], train, 1).unwrap_err()), ErrorKind::InvalidInput);
    assert_eq!(
        kind(permitted_speed(Kind::Packet, &[&DESK_PACKET], Train::new(0, 0, 0), 0).unwrap_err()),
        ErrorKind::InvalidInput
    );
    let key = Key { nid_c: 0, nid_sp: 0, major: 0, minor: 0 };
    assert_eq!(kind(Shelf::new(0).remove(key).unwrap_err()), ErrorKind::NotFound);
    assert_eq!(kind(Shelf::new(0).add(&DESK_SHEET).unwrap_err()), ErrorKind::InvalidInput);
}

#[test]
fn results_keep_no_spare_room() {
    let (sheet, packet) = (sheet_of(&DESK_PACKET).unwrap(), packet_of(&DESK_SHEET).unwrap());
    assert_eq!((sheet.len(), sheet.capacity()), (25, 25));
    assert_eq!((packet.len(), packet.capacity()), (39, 39));
    let mut intake = Intake::default();
    intake.deliver(&DESK_PACKET);
    intake.complete().unwrap();
    assert_eq!(intake.sheet().unwrap().capacity(), 25);
}

#[test]
fn an_intake_is_written_to_and_judges_at_completion() -> io::Result<()> {
    let mut intake = Intake::default();
    assert_eq!(io::copy(&mut &DESK_PACKET[..], &mut intake)?, 39);
    intake.flush()?;
    assert_eq!(intake.complete()?, DESK_PACKET);
    assert_eq!(intake.sheet()?, DESK_SHEET);
    let mut small = Intake::new(38);
    small.write_all(&DESK_PACKET)?;
    assert_eq!(small.complete().unwrap_err().refusal, Refusal::ShortRoom);
    Ok(())
}

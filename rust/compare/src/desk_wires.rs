//! Desk cases on the counts of wire changes: up to 31 of voltage and 31 of current.

use crate::desk::{accepted, draft, packet, sheet, Desk, Plan, DOCUMENT};
use crate::draft::{Draft, Kind};
use crate::program::Answer;

pub fn limits(cases: &mut Vec<Desk>) {
    for count in [23, 24, 30, 31] {
        accepted(cases, "voltage changes, 31 at most", &wired(count, 0));
        accepted(cases, "current changes, 31 at most", &wired(0, count));
        accepted(cases, "voltage changes beside 31 of current", &wired(count, 31));
        accepted(cases, "current changes beside 31 of voltage", &wired(31, count));
    }
    // five bits do not hold 32; a voltage change has five bytes
    for (voltages, currents, byte) in [(32, 0, 22), (0, 32, 24), (31, 32, 24 + 31 * 5)] {
        cases.push(sheet("32 wire changes", wired(voltages, currents).sheet(), Answer::refused(4, byte)));
    }
    for count in [24, 31] {
        // 15 bits follow the count of voltages in the packet, and a 0 in the sheet; nothing follows the count of currents
        for (nth, in_packet, in_sheet) in [(0, (6, 290), (5, 23)), (1, (6, 305), (9, 25))] {
            let (draft, refused) = (counted(nth, count), |(refusal, place)| Answer::refused(refusal, place));
            cases.push(packet("wire changes that are not there", draft.packet(), refused(in_packet)));
            cases.push(sheet("wire changes that are not there", draft.sheet(), refused(in_sheet)));
        }
    }
}

/// Makes the document's segment with changes of voltage and of current, the last a centimetre before its end.
fn wired(voltages: u32, currents: u32) -> Draft {
    draft(Plan { voltages, currents, length: 1 + voltages.max(currents), ..DOCUMENT })
}

/// Makes the document's segment with another count of voltage changes or of current changes, and no changes.
fn counted(nth: usize, count: u32) -> Draft {
    let mut draft = draft(DOCUMENT);
    let place = draft.places(Kind::WireCount)[nth];
    let field = &mut draft.fields[place];
    (field.value, field.number) = (count, count.into());
    draft
}

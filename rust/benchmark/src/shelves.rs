//! Times of a lookup in a full store, beside the judge's own passes over its sheets.

use crate::measure::{medians, unknown, Medians, Round};
use compare::archive::Archive;
use compare::program::Program;
use compare::random::Random;
use compare::segments::{segment, Sizes};
use compare::shelf_calls::{key_of, Key, Shelves};
use std::time::Instant;

/// Bytes of a full store.
const STORE: usize = 65_536;
/// Places of NID_C and NID_SP among the fields of a segment.
const KEY: std::ops::Range<usize> = 6..8;
/// How often a round goes over the store.
const TIMES: usize = 20;

/// Fills a store with sheets of rising keys and prints a row: a lookup of a key that is not kept beside an empty default store, and a judge's
/// pass over each of its sheets. The passes are conversions into no room, which are refused as soon as the sheet is judged.
pub fn rows(name: &str, mut sheet: impl FnMut(usize) -> Vec<u8>) {
    let mut store = vec![0; STORE];
    let (mut used, mut sheets) = (0, Vec::new());
    loop {
        let sheet = sheet(sheets.len());
        let answer = Archive::add(&mut store, used, &sheet);
        if answer.refusal == 8 {
            break;
        }
        assert!(answer.refusal == 0, "the sheet is accepted");
        used = answer.value as u32;
        sheets.push(sheet);
    }
    let absent = Key { nid_c: 1_023, ..key_of(&sheets[0]).expect("it is accepted") };
    let lookup: Round = Box::new(|| {
        let began = Instant::now();
        for _ in 0..TIMES {
            assert!(unknown(Archive::lookup((&store, used), (&[], 0), unknown(absent))).refusal == 17, "the key is not kept");
        }
        began.elapsed()
    });
    let judged: Round = Box::new(|| {
        let began = Instant::now();
        for sheet in (0..TIMES).flat_map(|_| &sheets) {
            let answer = unknown(Archive::sheet_to_packet(unknown(sheet), &mut []));
            assert!(answer.refusal == 8, "the sheet is judged, then the room");
        }
        began.elapsed()
    });
    let bytes = used as usize - 4 * sheets.len();
    println!("\n{name}: {} sheets in a store of {STORE} bytes, on average {} bytes", sheets.len(), bytes / sheets.len());
    println!("{:18}{:>14}{:>12}{:>14}{:>12}{:>8}", "", "judge ns", "ns a sheet", "lookup ns", "ns a sheet", "ratio");
    print!("{:18}", "lookup");
    for Medians { time, ratio } in medians(&mut [judged, lookup]) {
        print!("{:>14.0}{:>12.1}", time / TIMES as f64, time / (TIMES * sheets.len()) as f64);
        if ratio != 1.0 {
            print!("{ratio:>8.2}");
        }
    }
    println!();
}

/// Draws the sheet of a segment of these sizes, with a key above all keys of a smaller `nth`.
pub fn keyed(random: &mut Random, sizes: Sizes, nth: usize) -> Vec<u8> {
    let mut draft = segment(random, sizes);
    for (field, value) in draft.fields[KEY].iter_mut().zip([1, nth as u32]) {
        field.value = value;
        field.number = value.into();
    }
    draft.sheet()
}

//! Times of an intake that takes packets at once and byte by byte, beside plain copies of these bytes, and times of its judgement.

use crate::measure::{medians, unknown, Medians, Round};
use compare::archive::Archive;
use compare::check::LARGEST_PACKET;
use compare::intakes::gathering;
use compare::program::Program;
use std::time::Instant;

/// How often a round goes over the packets: the time of one copy is too short to measure.
const TIMES: usize = 50;

/// Prints three rows: packets taken at once, packets taken byte by byte, and their completion.
pub fn rows(name: &str, packets: &[Vec<u8>]) {
    let bytes = packets.concat().len();
    println!("\n{name}: {} packets taken in, on average {} bytes", packets.len(), bytes / packets.len());
    println!("{:18}{:>14}{:>12}{:>14}{:>12}{:>8}", "", "archive ns", "ns a byte", "copy ns", "ns a byte", "ratio");
    for (title, size) in [("at once", LARGEST_PACKET), ("byte by byte", 1)] {
        let archive = round(packets, size, Archive::fresh(), Archive::deliver);
        let copy = round(packets, size, 0, copied);
        row(title, &medians(&mut [archive, copy]), packets.len(), bytes);
    }
    row("completion", &medians(&mut [completions(packets)]), packets.len(), bytes);
}

/// Makes a round of deliveries of `size` bytes each; every packet starts from a fresh state.
fn round<'a, S: Copy + 'a>(packets: &'a [Vec<u8>], size: usize, fresh: S, deliver: fn(S, &[u8], &mut [u8]) -> S) -> Round<'a> {
    let mut room = [0; LARGEST_PACKET];
    Box::new(move || {
        let began = Instant::now();
        for packet in (0..TIMES).flat_map(|_| packets) {
            unknown(packet.chunks(size).fold(fresh, |state, delivery| deliver(state, delivery, &mut room)));
        }
        let took = began.elapsed();
        let last = &packets[packets.len() - 1];
        assert!(room[..last.len()] == last[..], "the room holds the last packet");
        took
    })
}

/// Copies a delivery after the bytes that are in the room. It is not inlined, so that it costs a call as a delivery does.
#[inline(never)]
fn copied(begin: usize, delivery: &[u8], room: &mut [u8]) -> usize {
    let end = begin + delivery.len();
    room[begin..end].copy_from_slice(delivery);
    end
}

/// Makes a round of completions; the room of each is the packet itself.
fn completions(packets: &[Vec<u8>]) -> Round<'_> {
    Box::new(move || {
        let began = Instant::now();
        for packet in (0..TIMES).flat_map(|_| packets) {
            let judged = unknown(Archive::complete(gathering(packet.len() as u32), packet));
            assert!(judged.refusal == 0, "the packet is accepted");
        }
        began.elapsed()
    })
}

/// Prints a row: the archive's time for a packet and for a byte, and the copy's with its ratio, or dashes if nothing is copied.
fn row(title: &str, programs: &[Medians], packets: usize, bytes: usize) {
    print!("{title:18}");
    for Medians { time, .. } in programs {
        print!("{:>14.0}{:>12.2}", time / (TIMES * packets) as f64, time / (TIMES * bytes) as f64);
    }
    match programs {
        [_, copy] => println!("{:>8.2}", copy.ratio),
        _ => println!("{:>14}{:>12}{:>8}", "-", "-", "-"),
    }
}

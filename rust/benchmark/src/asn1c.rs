//! asn1c's codec of the segment: it reads a packet after L_PACKET_ATO into a structure, and writes it from the structure.

use std::os::raw::c_void;
use std::ptr::NonNull;
use std::time::{Duration, Instant};

/// Bytes of NID_PACKET_ATO and L_PACKET_ATO, which the codec does not take.
const BYTES_BEFORE: usize = 3;
const LARGEST_PACKET: usize = 2_073;
/// How many bytes of packets, about, are held as structures at a time: for speed, few enough to stay in the processor's cache.
const BATCH_BYTES: usize = 2_000;

extern "C" {
    fn asn1c_read(bytes: *const u8, bytes_len: usize) -> Option<NonNull<c_void>>;
    fn asn1c_write(segment: NonNull<c_void>, room: *mut u8, room_len: usize) -> usize;
    fn asn1c_free(segment: NonNull<c_void>);
}

/// A structure that the codec made; it is freed when dropped.
pub struct Structure(NonNull<c_void>);

impl Structure {
    fn read(packet: &[u8]) -> Structure {
        let bytes = &packet[BYTES_BEFORE..];
        Structure(unsafe { asn1c_read(bytes.as_ptr(), bytes.len()) }.expect("asn1c reads the packet"))
    }

    fn write(&self, room: &mut [u8]) -> usize {
        unsafe { asn1c_write(self.0, room.as_mut_ptr(), room.len()) }
    }
}

impl Drop for Structure {
    fn drop(&mut self) {
        unsafe { asn1c_free(self.0) }
    }
}

/// Returns the structure of a packet; stops the program if the codec does not write the packet's bytes from it.
pub fn checked(packet: &[u8]) -> Structure {
    let mut room = [0; LARGEST_PACKET];
    let structure = Structure::read(packet);
    let length = structure.write(&mut room);
    assert!(room[..length] == packet[BYTES_BEFORE..], "asn1c gives the bytes of the packet {packet:02X?}");
    structure
}

/// Measures how long the codec takes to read all packets and to write them; the time to free the structures is not counted.
pub fn round(packets: &[Vec<u8>]) -> (Duration, Duration) {
    let mut room = [0; LARGEST_PACKET];
    let (mut reading, mut writing) = (Duration::ZERO, Duration::ZERO);
    for batch in packets.chunks(1 + BATCH_BYTES / packets[0].len()) {
        let mut structures = Vec::with_capacity(batch.len());
        let began = Instant::now();
        structures.extend(batch.iter().map(|packet| Structure::read(packet)));
        reading += began.elapsed();
        let began = Instant::now();
        for structure in &structures {
            assert!(structure.write(&mut room) > 0, "asn1c writes the packet");
        }
        writing += began.elapsed();
    }
    (reading, writing)
}

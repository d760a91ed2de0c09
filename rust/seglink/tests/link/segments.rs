//! Segments for the tests, written from the build definition: their fields in order, as a packet and as a sheet.

/// A field: its width and value in the packet, and its number in the sheet.
#[derive(Clone, Copy)]
pub struct Field {
    pub width: usize,
    pub value: u32,
    pub number: u32,
}

pub const DESK_PACKET: [u8; 39] = [
    0x06, 0x00, 0xB9, 0x00, 0x01, 0x23, 0x45, 0x00, 0x00, 0x01, 0x00, 0x00, 0x00, 0x00, 0x07, // header
    0x00, 0x00, 0x00, 0x00, 0x00, 0x00, 0x00, 0x00, 0x00, 0x00, 0x40, 0x00, 0x00, 0x00, 0x00, 0x00, // identity
    0x01, 0x00, 0x00, 0x00, 0x00, 0x3F, 0xF0, 0x00, // speed, voltage, current
];

pub const DESK_SHEET: [u8; 25] =
    [0x06, 0xC5, 0xC6, 0x04, 0x01, 0x00, 0x00, 0x07, 0, 0, 0, 0, 0x01, 0, 0, 0, 0x50, 0, 0, 0, 0, 0, 0, 0, 0];

const CANT: [u32; 11] = [80, 100, 130, 150, 165, 180, 210, 225, 245, 275, 300];
/// How many fields of the packet's header the sheet has: all but L_PACKET_ATO.
const HEADER_FIELDS: usize = 6;
/// Place of the count of voltage changes in a segment without entries and changes of speed.
const VOLTAGE_COUNT: usize = 20;

pub fn same(width: usize, value: u32) -> Field {
    Field { width, value, number: value }
}

pub fn speed(kmh: u32) -> Field {
    Field { width: 7, value: kmh / 5, number: kmh }
}

/// A current without limit.
pub const NO_LIMIT: Field = Field { width: 10, value: 1023, number: 0 };

/// Returns the fields of an element of the speed profile; an entry is Q_DIFF, class and km/h.
pub fn element(kmh: u32, front: u32, entries: &[(u32, u32, u32)]) -> Vec<Field> {
    let mut fields = vec![speed(kmh), same(1, front), same(5, entries.len() as u32)];
    for &(q_diff, class, kmh) in entries {
        let number = if q_diff == 0 { CANT[class as usize] } else { class };
        fields.extend([same(2, q_diff), Field { width: 4, value: class, number }, speed(kmh)]);
    }
    fields
}

/// Returns the fields of the desk segment with another length, altitude (as it is sent) and speed profile.
pub fn segment(l_sp: u32, altitude: u32, start: &[Field], changes: &[(u32, Vec<Field>)]) -> Vec<Field> {
    let mut fields = vec![same(8, 6), same(32, 0x0001_2345), same(24, 1), same(15, 0), same(17, 0), same(8, 7)];
    fields.extend([
        same(10, 0),
        same(32, 0),
        same(8, 0),
        same(8, 0),
        same(24, l_sp),
        same(24, 0),
        same(7, 0),
        same(20, altitude),
    ]);
    fields.extend(start);
    fields.push(same(5, changes.len() as u32));
    for (location, element) in changes {
        fields.push(same(24, *location));
        fields.extend(element);
    }
    fields.extend([same(4, 0), same(10, 0), same(5, 0), NO_LIMIT, same(5, 0)]);
    fields
}

/// Returns the fields of the desk segment with a length of 1,000 cm and changes of voltage and of current, each with other figures.
pub fn wired(voltages: u32, currents: u32) -> Vec<Field> {
    let mut fields = segment(1000, 0, &element(80, 0, &[]), &[]);
    fields.truncate(VOLTAGE_COUNT);
    fields.push(same(5, voltages));
    for i in 1..=voltages {
        fields.extend([same(24, i), Field { width: 4, value: 5, number: 750 }, same(10, i + 20)]);
    }
    fields.extend([NO_LIMIT, same(5, currents)]);
    for i in 1..=currents {
        fields.extend([same(24, i + 100), Field { width: 10, value: i * 30, number: i * 300 + 1 }]);
    }
    fields
}

/// Returns the fields of the largest segment: every list is full, and every number has as many groups as its field allows.
pub fn largest() -> Vec<Field> {
    let mut fields = vec![same(8, 6), same(32, u32::MAX), same(24, 16_777_215), same(15, 32_767), same(17, 86_399), same(8, 255)];
    fields.extend([same(10, 1023), same(32, u32::MAX), same(8, 255), same(8, 255), same(24, 16_777_215)]);
    fields.extend([same(24, 16_777_215), same(7, 112), same(20, 1_048_575)]);
    let volts = Field { width: 4, value: 1, number: 25_000 };
    let amperes = Field { width: 10, value: 1000, number: 10_001 };
    fields.extend(full_list(&element(600, 1, &[(0, 10, 600); 31])));
    fields.extend(full_list(&[volts, same(10, 1023)]));
    fields.extend(full_list(&[amperes]));
    fields
}

/// Returns the fields of a list: `start` at the segment's start, and 31 changes that repeat it.
fn full_list(start: &[Field]) -> Vec<Field> {
    let mut fields = start.to_vec();
    fields.push(same(5, 31));
    for i in 0..31 {
        fields.push(same(24, 2_097_152 + i));
        fields.extend(start);
    }
    fields
}

/// Returns the packet of the fields: each field most significant bit first, the top bit of each byte first.
pub fn packet(fields: &[Field]) -> Vec<u8> {
    let body: usize = fields[HEADER_FIELDS..].iter().map(|field| field.width).sum();
    let mut all = fields.to_vec();
    all.insert(1, same(16, body as u32));
    let bits: Vec<bool> = all.iter().flat_map(|field| (0..field.width).rev().map(move |i| field.value >> i & 1 == 1)).collect();
    bits.chunks(8).map(|byte| byte.iter().enumerate().map(|(i, &bit)| (bit as u8) << (7 - i)).sum()).collect()
}

/// Returns the first bit of a field in the packet, where L_PACKET_ATO follows the first field.
pub fn bit_of(fields: &[Field], index: usize) -> u32 {
    let before: usize = fields[..index].iter().map(|field| field.width).sum();
    before as u32 + if index > 0 { 16 } else { 0 }
}

/// Returns the first byte of a field's number in the sheet.
pub fn byte_of(fields: &[Field], index: usize) -> u32 {
    sheet(&fields[..index]).len() as u32
}

/// Returns the sheet of the fields: numbers in groups of seven bits, lowest group first; the top bit of a group is 1 if another follows.
pub fn sheet(fields: &[Field]) -> Vec<u8> {
    let mut bytes = Vec::new();
    for field in fields {
        let mut number = field.number;
        while number > 127 {
            bytes.push((128 + number % 128) as u8);
            number /= 128;
        }
        bytes.push(number as u8);
    }
    bytes
}

//! A segment or a journey as a list of fields, each with its value in the packet and its number in the sheet, which may be right or wrong.

/// Kinds of fields that differ in their ranges or sets.
#[derive(Clone, Copy, Debug, PartialEq, Eq)]
pub enum Kind {
    PacketNumber,
    Operational,
    /// Every value of the field's width is allowed.
    Plain,
    Seconds,
    Length,
    UtcOffset,
    Speed,
    Front,
    /// A count of changes of speed, of entries, of timing points or of temporary constraints: 0 to 31.
    Count,
    QDiff,
    Cant,
    Category,
    Location,
    Voltage,
    Traction,
    /// A count of changes of voltage or of current: 0 to 31; at first 23 was the largest.
    WireCount,
    Current,
    Status,
    SegmentCount,
    ArrivalSeconds,
    Alignment,
    StopKind,
    Information,
    /// One of the last eight fields of a passing point: 0.
    PassedBy,
    /// The first field of a temporary constraint.
    ConstraintType,
    Range,
    /// Where a constraint starts.
    Start,
    /// Where a constraint ends: past its start if it has one.
    End,
    Adhesion,
    /// A field that a constraint does not use: 0.
    Unused,
    /// A constraint's current, which no type uses: 1,023 in the packet, 0 in the sheet.
    UnusedCurrent,
}

#[derive(Clone)]
pub struct Field {
    pub kind: Kind,
    pub width: u32,
    pub value: u32,
    /// The number in the sheet, which may be larger than a sheet's numbers can be.
    pub number: u64,
    /// How many zero groups follow the shortest form.
    pub zero_groups: u32,
}

#[derive(Clone, Default)]
pub struct Draft {
    pub fields: Vec<Field>,
}

pub const CANTS: [u32; 11] = [80, 100, 130, 150, 165, 180, 210, 225, 245, 275, 300];
pub const VOLTAGES: [u32; 6] = [0, 25_000, 15_000, 3_000, 1_500, 750];

/// How many fields of the header the sheet has; L_PACKET_ATO is worked out when the packet is written.
const HEADER_FIELDS: usize = 6;
const COUNTED_BITS: u32 = 16;
const CONSTRAINT_FIELDS: usize = 8;

/// A temporary constraint by its numbers in the sheet, from Q_TC_Type to M_CURRENT.
pub type Constraint = [u32; CONSTRAINT_FIELDS];

impl Draft {
    /// Adds a field whose number equals its value.
    pub fn same(&mut self, kind: Kind, width: u32, value: u32) {
        self.field(kind, width, value, value);
    }

    pub fn speed(&mut self, speed: u32) {
        self.field(Kind::Speed, 7, speed / 5, speed);
    }

    /// Adds Q_DIFF and the class: with Q_DIFF 0 the place of a cant deficiency in the table, else a category.
    pub fn class(&mut self, q_diff: u32, class: u32) {
        self.same(Kind::QDiff, 2, q_diff);
        match q_diff {
            0 => self.field(Kind::Cant, 4, class, CANTS[class as usize]),
            _ => self.same(Kind::Category, 4, class),
        }
    }

    /// Replaces the Q_DIFF and the class of an entry; `place` is the place of its Q_DIFF.
    pub fn replace_class(&mut self, place: usize, q_diff: u32, class: u32) {
        let mut other = Draft::default();
        other.class(q_diff, class);
        self.fields.splice(place..place + 2, other.fields);
    }

    /// Returns the segment without the entries by cant deficiency that name less than `cant` millimetres.
    pub fn without_lower(&self, cant: u32) -> Draft {
        let mut kept = Draft::default();
        let mut left = &self.fields[..];
        while let Some((field, after)) = left.split_first() {
            // an entry is Q_DIFF, the class and V_DIFF
            let lower = field.kind == Kind::QDiff && after[0].kind == Kind::Cant && after[0].number < cant.into();
            if lower {
                kept.count_one_less();
            } else {
                kept.fields.push(field.clone());
            }
            left = if lower { &after[2..] } else { after };
        }
        kept
    }

    /// Lowers the last count, which counts the entries after it, by 1.
    fn count_one_less(&mut self) {
        let count = self.fields.iter_mut().rfind(|field| field.kind == Kind::Count).expect("entries are counted");
        count.value -= 1;
        count.number -= 1;
    }

    pub fn voltage(&mut self, place: u32, traction: u32) {
        self.field(Kind::Voltage, 4, place, VOLTAGES[place as usize]);
        self.same(Kind::Traction, 10, traction);
    }

    /// Adds a current by its number in the sheet: 0 for no limit, else amperes + 1.
    pub fn current(&mut self, number: u32) {
        self.amperes(Kind::Current, number);
    }

    fn amperes(&mut self, kind: Kind, number: u32) {
        let value = number.checked_sub(1).map_or(1_023, |amperes| amperes / 10);
        self.field(kind, 10, value, number);
    }

    /// Adds a temporary constraint; its type and its range say which of its fields are used.
    pub fn constraint(&mut self, [tc_type, range, start, end, front, speed, adhesion, current]: Constraint) {
        let used = |used: bool, kind| if used { kind } else { Kind::Unused };
        self.same(Kind::ConstraintType, 2, tc_type);
        self.same(Kind::Range, 2, range);
        self.same(used(range == 0 || range == 2, Kind::Start), 24, start);
        self.same(used(range == 1 || range == 2, Kind::End), 24, end);
        self.same(used(tc_type == 0, Kind::Front), 1, front);
        self.field(used(tc_type == 0, Kind::Speed), 7, speed / 5, speed);
        self.same(used(tc_type == 1, Kind::Adhesion), 3, adhesion);
        self.amperes(Kind::UnusedCurrent, current);
    }

    fn field(&mut self, kind: Kind, width: u32, value: u32, number: u32) {
        self.fields.push(Field { kind, width, value, number: number.into(), zero_groups: 0 });
    }

    /// Returns the places of a kind's fields.
    pub fn places(&self, kind: Kind) -> Vec<usize> {
        (0..self.fields.len()).filter(|place| self.fields[*place].kind == kind).collect()
    }

    /// Returns the values of a kind's fields.
    pub fn values(&self, kind: Kind) -> Vec<u32> {
        self.places(kind).into_iter().map(|place| self.fields[place].value).collect()
    }

    /// Returns the kind of each field, its first bit in the packet, where L_PACKET_ATO follows the first field, and its number's first byte in
    /// the sheet.
    pub fn begins(&self) -> Vec<(Kind, u32, u32)> {
        let (mut bit, mut sheet, mut begins) = (0, Vec::new(), Vec::new());
        for field in &self.fields {
            begins.push((field.kind, bit, sheet.len() as u32));
            bit += field.width + if bit == 0 { COUNTED_BITS } else { 0 };
            write_number(&mut sheet, field.number, field.zero_groups);
        }
        begins
    }

    /// Returns the first bit and the first byte of each field of a temporary constraint.
    pub fn constraint_places(&self) -> Vec<(u32, u32)> {
        let (mut places, mut left) = (Vec::new(), 0);
        for (kind, bit, byte) in self.begins() {
            left = if kind == Kind::ConstraintType { CONSTRAINT_FIELDS } else { left.saturating_sub(1) };
            if left > 0 {
                places.push((bit, byte));
            }
        }
        places
    }

    /// Returns the bytes of the counts of wire changes: a segment has two, a journey none.
    pub fn wire_count_bytes(&self) -> Vec<u32> {
        self.begins().into_iter().filter(|(kind, ..)| *kind == Kind::WireCount).map(|(_, _, byte)| byte).collect()
    }

    pub fn packet(&self) -> Vec<u8> {
        let (header, body) = self.fields.split_at(HEADER_FIELDS);
        let length = body.iter().map(|field| field.width).sum();
        let mut bits = vec![(8, header[0].value), (COUNTED_BITS, length)];
        bits.extend(self.fields[1..].iter().map(|field| (field.width, field.value)));
        packed(&bits)
    }

    pub fn sheet(&self) -> Vec<u8> {
        let mut sheet = Vec::new();
        for field in &self.fields {
            write_number(&mut sheet, field.number, field.zero_groups);
        }
        sheet
    }
}

/// Returns the bytes of fields, each a width and a value, one after the other and padded with zero bits.
fn packed(fields: &[(u32, u32)]) -> Vec<u8> {
    let mut bytes = Vec::new();
    let (mut held, mut count) = (0u64, 0);
    for (width, value) in fields {
        held = held << width | u64::from(*value) & ((1 << width) - 1);
        count += width;
        while count >= 8 {
            count -= 8;
            bytes.push((held >> count) as u8);
        }
    }
    if count > 0 {
        bytes.push((held << (8 - count)) as u8);
    }
    bytes
}

pub fn write_number(sheet: &mut Vec<u8>, number: u64, zero_groups: u32) {
    let mut left = number;
    while left > 127 {
        sheet.push(left as u8 | 0x80);
        left >>= 7;
    }
    sheet.push(left as u8);
    for _ in 0..zero_groups {
        *sheet.last_mut().expect("a group was written") |= 0x80;
        sheet.push(0);
    }
}

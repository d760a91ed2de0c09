//! The walk: every field of a packet or sheet by its path, place and value, as far as there are bits or bytes. It follows counts, and judges nothing.
use crate::field::Field;
use crate::medium::Medium;
use crate::table::{Node, D_LOCATION, HEADER, JOURNEY, N_ITER, SEGMENT};
use std::rc::Rc;

/// The packet number of a journey.
const JOURNEY_NUMBER: u64 = 4;

/// A field where the walk met it.
pub struct Found {
    /// The list's item in which the field stands, as `speed[2].`; empty where it stands in none.
    item: Rc<str>,
    pub field: &'static Field,
    /// First bit of a packet or first byte of a sheet, counted from 0.
    pub place: usize,
    /// Its bits or bytes, and its value; none where it does not end before the packet or sheet does.
    pub read: Option<(u64, usize)>,
    /// Whether the fields before it use it.
    used: bool,
}

impl Found {
    /// Returns the field's name after the lists that it stands in, as `speed[2].D_Location`.
    pub fn path(&self) -> String {
        let mut path = String::new();
        self.put_path(&mut path);
        path
    }

    /// Writes the path after a text.
    pub fn put_path(&self, text: &mut String) {
        *text += &self.item;
        *text += self.field.name;
    }

    /// Says what a sheet's number means; empty where the number says all.
    pub fn meaning(&self, number: u32) -> String {
        if self.used {
            self.field.meaning(number)
        } else {
            "not used".into()
        }
    }

    /// Returns the value, if the field is whole.
    pub fn value(&self) -> Option<u64> {
        self.read.map(|(value, _)| value)
    }

    /// Returns the list in which the field stands, as `segment[0].point`; empty where it stands in none.
    fn list(&self) -> &str {
        self.item.rfind('[').map_or("", |at| &self.item[..at])
    }

    /// Returns whether another field counts the items of a list in which this one stands: `speed.N_ITER` counts `speed[2]`.
    pub fn is_counted_by(&self, count: &Found) -> bool {
        let list = count.item.strip_suffix('.').filter(|list| !list.ends_with(']'));
        list.and_then(|list| self.item.strip_prefix(list)).map_or(false, |left| left.starts_with('['))
    }

    /// Returns whether this field's rule names another field, of its list or of none.
    pub fn rule_names(&self, other: &Found) -> bool {
        self.field.rule.contains(other.field.name) && ["", self.list()].contains(&other.list())
    }
}

/// The fields of a packet or sheet, in order. The last one has no value if it does not fit.
pub struct Walk<'a> {
    medium: Medium,
    bytes: &'a [u8],
    pub found: Vec<Found>,
    /// The first bit or byte after the last field that was read.
    pub end: usize,
}

impl<'a> Walk<'a> {
    /// Walks over a packet or a sheet: as a journey if it says so, else as a segment.
    pub fn over(medium: Medium, bytes: &'a [u8]) -> Walk<'a> {
        let mut walk = Walk { medium, bytes, found: Vec::new(), end: 0 };
        let whole = "".into();
        if walk.nodes(&whole, &HEADER).is_some() {
            let body: &[Node] = if walk.is_journey() { &JOURNEY } else { &SEGMENT };
            walk.nodes(&whole, body);
        }
        walk
    }

    /// Returns whether the packet number is a journey's.
    pub fn is_journey(&self) -> bool {
        self.found.first().and_then(Found::value) == Some(JOURNEY_NUMBER)
    }

    /// Returns whether the last field is whole and nothing is left after it.
    pub fn is_whole(&self) -> bool {
        self.found.last().map_or(false, |last| last.read.is_some()) && self.end == self.medium.end(self.bytes)
    }

    /// Returns which field starts at a place.
    pub fn at(&self, place: usize) -> Option<usize> {
        self.found.iter().position(|found| found.place == place)
    }

    /// Walks over nodes of a list's item; none where a field does not fit.
    fn nodes(&mut self, item: &Rc<str>, nodes: &'static [Node]) -> Option<()> {
        nodes.iter().try_for_each(|node| self.node(item, node))
    }

    /// Walks over one node of a list's item.
    fn node(&mut self, item: &Rc<str>, node: &'static Node) -> Option<()> {
        match node {
            Node::Field(field) => self.field(item, field).map(drop),
            Node::InPacket(field) => match self.medium {
                Medium::Packet => self.field(item, field).map(drop),
                Medium::Sheet => Some(()),
            },
            Node::Either(zero, other) => {
                let before = self.found.last().and_then(Found::value);
                self.field(item, if before == Some(0) { zero } else { other }).map(drop)
            }
            Node::Items { name, count, item: nodes } => {
                let items = self.field(&format!("{item}{name}.").into(), count)?;
                (0..items).try_for_each(|nth| self.nodes(&format!("{item}{name}[{nth}].").into(), nodes))
            }
            Node::Changes { name, element } => {
                self.nodes(&format!("{item}{name}[0].").into(), element)?;
                let changes = self.field(&format!("{item}{name}.").into(), &N_ITER)?;
                (1..=changes).try_for_each(|nth| {
                    let change = format!("{item}{name}[{nth}].").into();
                    self.field(&change, &D_LOCATION)?;
                    self.nodes(&change, element)
                })
            }
        }
    }

    /// Reads a field and notes it, whole or not; returns its value if it is whole.
    fn field(&mut self, item: &Rc<str>, field: &'static Field) -> Option<u64> {
        let read = self.medium.read(self.bytes, self.end, field);
        let used = field.used.map_or(true, |(name, values)| self.nearest(name).map_or(true, |value| values.contains(&value)));
        self.found.push(Found { item: item.clone(), field, place: self.end, read, used });
        let (value, size) = read?;
        self.end += size;
        Some(value)
    }

    /// Returns the value of the last field of a name.
    fn nearest(&self, name: &str) -> Option<u64> {
        self.found.iter().rev().find(|found| found.field.name == name).and_then(Found::value)
    }
}

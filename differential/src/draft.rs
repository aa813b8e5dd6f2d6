//! A plan to be encoded: its parts as lists, and the bit writer that packs them.

use crate::layout::{CHANNEL, JOB, LINK, STEP};
use std::ops::Range;

/// A plan before it is packed. The counts of the head are the lengths of the lists.
#[derive(Clone, Debug)]
pub struct Draft {
    pub nodes: u32,
    /// 0 every, 1 none.
    pub kind: u32,
    /// Event e has weight 2^e.
    pub alphabet: u32,
    pub jobs: Vec<Job>,
    pub steps: Vec<Arc>,
    /// The event of each channel.
    pub channels: Vec<u32>,
    pub calls: Vec<Arc>,
    pub accepts: Vec<Arc>,
    pub items: Vec<Item>,
}

#[derive(Clone, Debug, PartialEq, Eq)]
pub struct Job {
    pub size: u32,
    pub entry: u32,
    /// That of a standing job repeats its entry.
    pub exit: u32,
    pub standing: bool,
}

impl Job {
    /// Makes it a standing job.
    pub fn stand(&mut self) {
        self.standing = true;
        self.exit = self.entry;
    }

    /// Whether its entry and its exit are among these nodes.
    pub fn is_within(&self, span: &Range<u32>) -> bool {
        span.contains(&self.entry) && span.contains(&self.exit)
    }
}

/// The nodes of each job, by the sizes.
pub fn spans(jobs: &[Job]) -> Vec<Range<u32>> {
    let spans = jobs.iter().scan(0, |start, job| {
        *start += job.size;
        Some(*start - job.size..*start)
    });
    spans.collect()
}

/// A local step, a call or an accept.
#[derive(Clone, Debug, PartialEq, Eq)]
pub struct Arc {
    pub from: u32,
    pub to: u32,
    /// The event of a step, the channel of a call or accept.
    pub label: u32,
}

/// An item of the pattern, in postfix order.
#[derive(Clone, Debug)]
pub enum Item {
    Empty,
    /// One event of a set; event e has weight 2^e.
    Events(u32),
    Sequence,
    Choice,
    Star,
}

/// Items as the independent implementation has them.
pub fn as_read(items: &[Item]) -> Vec<reference::Item> {
    let each = items.iter().map(|item| match *item {
        Item::Empty => reference::Item::Empty,
        Item::Events(set) => reference::Item::Events(set),
        Item::Sequence => reference::Item::Sequence,
        Item::Choice => reference::Item::Choice,
        Item::Star => reference::Item::Star,
    });
    each.collect()
}

impl Draft {
    /// The packed plan. A number too large for its field loses its high bits.
    pub fn encode(&self) -> Vec<u8> {
        let mut bits = Bits::default();
        self.write_head(&mut bits);
        bits.events(self.alphabet);
        for job in &self.jobs {
            let fields = [job.size, job.entry, job.exit, job.standing.into()];
            bits.record(fields, JOB);
        }
        bits.arcs(&self.steps, STEP);
        for &event in &self.channels {
            bits.record([event], CHANNEL);
        }
        bits.arcs(&self.calls, LINK);
        bits.arcs(&self.accepts, LINK);
        bits.fill();
        for item in &self.items {
            bits.item(item);
        }
        bits.fill();
        bits.bytes
    }

    fn write_head(&self, bits: &mut Bits) {
        bits.field(self.jobs.len() as u32, 5);
        bits.field(self.nodes, 9);
        bits.field(self.steps.len() as u32, 9);
        bits.field(self.calls.len() as u32, 8);
        bits.field(self.accepts.len() as u32, 8);
        bits.field(self.channels.len() as u32, 7);
        bits.field(self.kind, 1);
        bits.field(self.items.len() as u32, 7);
    }
}

/// A bit writer, the most significant bit first.
#[derive(Default)]
struct Bits {
    bytes: Vec<u8>,
    /// Bits of the last byte that are taken; 0 when it is full or there is none.
    taken: u32,
}

impl Bits {
    fn bit(&mut self, one: bool) {
        if self.taken == 0 {
            self.bytes.push(0);
        }
        if let Some(last) = self.bytes.last_mut() {
            *last |= u8::from(one) << (7 - self.taken);
        }
        self.taken = (self.taken + 1) % 8;
    }

    fn field(&mut self, value: u32, width: usize) {
        for place in (0..width).rev() {
            self.bit(value >> place & 1 == 1);
        }
    }

    fn record<const FIELDS: usize>(&mut self, values: [u32; FIELDS], widths: [usize; FIELDS]) {
        for (value, width) in values.into_iter().zip(widths) {
            self.field(value, width);
        }
    }

    /// A set of events: the first bit is event 1, the last one event 31.
    fn events(&mut self, set: u32) {
        for event in 1..32 {
            self.bit(set >> event & 1 == 1);
        }
    }

    fn arcs(&mut self, arcs: &[Arc], widths: [usize; 3]) {
        for arc in arcs {
            self.record([arc.from, arc.to, arc.label], widths);
        }
    }

    fn item(&mut self, item: &Item) {
        match *item {
            Item::Empty => self.field(0, 3),
            Item::Events(set) => {
                self.field(1, 3);
                self.events(set);
            }
            Item::Sequence => self.field(2, 3),
            Item::Choice => self.field(3, 3),
            Item::Star => self.field(4, 3),
        }
    }

    /// Leaves the rest of the last byte zero.
    fn fill(&mut self) {
        self.taken = 0;
    }
}

/// Plan P, as the rules print it.
pub const PRINTED: [u8; 22] = [
    0x08, 0x08, 0x02, 0x00, 0x00, 0x00, 0x06, 0x00, 0x00, 0x00, 0x00, 0x08, 0x00, 0x04, 0x00, 0x02,
    0x10, 0x30, 0x00, 0x00, 0x00, 0x00,
];

#[cfg(test)]
mod tests {
    use super::*;

    #[test]
    fn the_printed_plan() {
        let draft = Draft {
            nodes: 2,
            kind: 0,
            alphabet: 1 << 1,
            jobs: vec![Job {
                size: 2,
                entry: 0,
                exit: 1,
                standing: false,
            }],
            steps: vec![Arc {
                from: 0,
                to: 1,
                label: 1,
            }],
            channels: vec![],
            calls: vec![],
            accepts: vec![],
            items: vec![Item::Events(1 << 1)],
        };
        assert_eq!(draft.encode(), PRINTED);
    }
}

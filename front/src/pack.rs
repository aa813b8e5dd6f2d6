//! A plan as bytes, under one of its rules.
use crate::model::{Item, Kind, Model, Move, Rule};

/// The bytes of the plan with the rule's kind, alphabet and pattern.
pub fn pack(model: &Model, rule: &Rule) -> Vec<u8> {
    let mut bits = Bits::default();
    head(&mut bits, model, rule);
    bits.set(rule.alphabet);
    jobs(&mut bits, model);
    moves(&mut bits, &model.steps, 5);
    for channel in &model.channels {
        bits.field(channel.event, 5);
    }
    moves(&mut bits, &model.calls, 6);
    moves(&mut bits, &model.accepts, 6);
    bits.fill();
    for item in &rule.items {
        bits.item(*item);
    }
    bits.fill();
    bits.bytes
}

fn head(bits: &mut Bits, model: &Model, rule: &Rule) {
    bits.field(model.jobs.len(), 5);
    bits.field(model.jobs.iter().map(|job| job.nodes.len()).sum(), 9);
    bits.field(model.steps.len(), 9);
    bits.field(model.calls.len(), 8);
    bits.field(model.accepts.len(), 8);
    bits.field(model.channels.len(), 7);
    bits.field(usize::from(rule.kind == Kind::Never), 1);
    bits.field(rule.items.len(), 7);
}

fn jobs(bits: &mut Bits, model: &Model) {
    let mut first = 0;
    for job in &model.jobs {
        bits.field(job.nodes.len(), 9);
        bits.field(first + job.entry, 8);
        bits.field(first + job.exit, 8);
        bits.field(usize::from(job.standing), 1);
        first += job.nodes.len();
    }
}

fn moves(bits: &mut Bits, moves: &[Move], width: u32) {
    for m in moves {
        bits.field(m.from, 8);
        bits.field(m.to, 8);
        bits.field(m.label, width);
    }
}

/// Bits in a row, the most significant of each byte first.
#[derive(Default)]
struct Bits {
    bytes: Vec<u8>,
    /// How many bits of the last byte are still free.
    free: u32,
}

impl Bits {
    fn bit(&mut self, one: bool) {
        if self.free == 0 {
            self.bytes.push(0);
            self.free = 8;
        }
        self.free -= 1;
        if let Some(last) = self.bytes.last_mut() {
            *last |= u8::from(one) << self.free;
        }
    }

    /// A number in a field of so many bits.
    fn field(&mut self, value: usize, width: u32) {
        for weight in (0..width).rev() {
            self.bit(value >> weight & 1 == 1);
        }
    }

    /// A set of events: one bit for each of 1 to 31.
    fn set(&mut self, events: u32) {
        for event in 1..=31 {
            self.bit(events >> event & 1 == 1);
        }
    }

    fn item(&mut self, item: Item) {
        let kind = match item {
            Item::Empty => 0,
            Item::Events(_) => 1,
            Item::Sequence => 2,
            Item::Choice => 3,
            Item::Star => 4,
        };
        self.field(kind, 3);
        if let Item::Events(events) = item {
            self.set(events);
        }
    }

    /// Goes on with the next byte.
    fn fill(&mut self) {
        self.free = 0;
    }
}

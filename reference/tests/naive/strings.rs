//! The pattern's language and its states, read from the items by derivatives.

use std::collections::BTreeSet;
use std::rc::Rc;

use reference::Item;

/// A pattern, or what of it may follow a part already read. Events items have
/// their positions.
#[derive(Clone, Debug, PartialEq, Eq, PartialOrd, Ord, Hash)]
pub enum Rest {
    Empty,
    Events(usize, u32),
    Sequence(Rc<Rest>, Rc<Rest>),
    Choice(Rc<Rest>, Rc<Rest>),
    Star(Rc<Rest>),
}

impl Rest {
    pub fn of(items: &[Item]) -> Rest {
        let (mut operands, mut positions) = (vec![], 0);
        for &item in items {
            let mut newest = || Rc::new(operands.pop().unwrap());
            let operand = match item {
                Item::Empty => Rest::Empty,
                Item::Events(events) => {
                    positions += 1;
                    Rest::Events(positions, events)
                }
                Item::Star => Rest::Star(newest()),
                Item::Sequence | Item::Choice => {
                    let (newer, older) = (newest(), newest());
                    match item {
                        Item::Sequence => Rest::Sequence(older, newer),
                        _ => Rest::Choice(older, newer),
                    }
                }
            };
            operands.push(operand);
        }
        operands.pop().unwrap()
    }

    fn then(self, newer: &Rc<Rest>) -> Rest {
        match self {
            Rest::Empty => (**newer).clone(),
            older => Rest::Sequence(Rc::new(older), newer.clone()),
        }
    }

    /// Whether the empty string belongs to the language.
    pub fn may_end(&self) -> bool {
        match self {
            Rest::Empty | Rest::Star(_) => true,
            Rest::Events(..) => false,
            Rest::Sequence(older, newer) => older.may_end() && newer.may_end(),
            Rest::Choice(older, newer) => older.may_end() || newer.may_end(),
        }
    }

    /// The positions that an event may be first, with what may follow then.
    fn after(&self, event: u64) -> Vec<(usize, Rest)> {
        let then = |first: &Rest, newer: &Rc<Rest>| {
            let after = first.after(event).into_iter();
            let joined = after.map(|(position, rest)| (position, rest.then(newer)));
            joined.collect::<Vec<_>>()
        };
        match self {
            Rest::Events(position, set) if set >> event & 1 == 1 => vec![(*position, Rest::Empty)],
            Rest::Empty | Rest::Events(..) => vec![],
            Rest::Choice(older, newer) => [older.after(event), newer.after(event)].concat(),
            Rest::Star(each) => then(each, &Rc::new(self.clone())),
            Rest::Sequence(older, newer) if older.may_end() => {
                [then(older, newer), newer.after(event)].concat()
            }
            Rest::Sequence(older, newer) => then(older, newer),
        }
    }
}

/// A string as read: the positions that its last event may be, 0 at the
/// beginning, each with what may follow.
pub type Read = BTreeSet<(usize, Rest)>;

pub fn longer(read: &Read, event: u64) -> Read {
    let after = read.iter().flat_map(|(_, rest)| rest.after(event));
    after.collect()
}

pub fn positions(read: &Read) -> BTreeSet<usize> {
    read.iter().map(|&(position, _)| position).collect()
}

/// The sets of positions in the order of their numbers.
pub fn states(beginning: &Read, alphabet: &[u64]) -> Vec<BTreeSet<usize>> {
    let mut met = vec![beginning.clone()];
    let mut states = vec![positions(beginning)];
    let mut number = 0;
    while number < met.len() {
        for &event in alphabet {
            let moved = longer(&met[number], event);
            if !states.contains(&positions(&moved)) {
                states.push(positions(&moved));
                met.push(moved);
            }
        }
        number += 1;
    }
    states
}

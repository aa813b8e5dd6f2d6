//! Faults made on purpose in the items of the pattern: refusals 12 to 14 and 16.
//!
//! Each function says whether the plan allowed its fault.

use crate::draft::{Draft, Item};
use crate::layout::MOST_ITEMS;
use crate::pattern::{binary, counting};
use crate::random::Random;

/// Makes the fault of this refusal, if it is one of these.
pub fn make(refusal: u32, draft: &mut Draft, random: &mut Random) -> bool {
    match refusal {
        12 => strange_event(draft, random),
        13 => few_operands(draft, random),
        14 => many_operands(draft, random),
        16 => many_states(draft, random),
        _ => false,
    }
}

/// An event outside the alphabet in a set, taken from the alphabet if need be.
fn strange_event(draft: &mut Draft, random: &mut Random) -> bool {
    let event = match random.event_of(!draft.alphabet) {
        0 => random.within(1..=31),
        event => event,
    };
    draft.alphabet &= !(1 << event);
    let operand = |item: &&mut Item| matches!(item, Item::Empty | Item::Events(_));
    let mut operands: Vec<&mut Item> = draft.items.iter_mut().filter(operand).collect();
    if operands.is_empty() {
        return false;
    }
    let item = random.pick_mut(&mut operands);
    let set = if let Item::Events(set) = item {
        *set
    } else {
        0
    };
    **item = Item::Events(set | 1 << event);
    true
}

/// An operator at the beginning, after the first operand or at the end.
fn few_operands(draft: &mut Draft, random: &mut Random) -> bool {
    let items = &mut draft.items;
    let any = random.pick(&[Item::Sequence, Item::Choice, Item::Star]);
    match random.below(3) {
        _ if items.len() == MOST_ITEMS => items[0] = any,
        0 => items.insert(0, any),
        1 => items.insert(1, binary(random)),
        _ => items.push(binary(random)),
    }
    true
}

/// One operand more, or one operator of two operands less.
fn many_operands(draft: &mut Draft, random: &mut Random) -> bool {
    let items = &mut draft.items;
    if items.len() < MOST_ITEMS {
        items.insert(random.index(items.len() + 1), Item::Empty);
    } else if let Some(last) = items.last_mut() {
        *last = match last {
            Item::Star => Item::Empty,
            _ => Item::Star,
        };
    }
    true
}

fn many_states(draft: &mut Draft, random: &mut Random) -> bool {
    let a = random.within(1..=31);
    let b = a % 31 + 1;
    draft.alphabet |= 1 << a | 1 << b;
    draft.items = counting(a, b, random.within(5..=30));
    true
}

//! Patterns of many shapes and numbers of states, as postfix items.

use differential::draft::Item;

/// The set of one event.
pub fn only(event: u32) -> u32 {
    1 << event
}

/// One event of each set in turn.
pub fn sequence(sets: &[u32]) -> Vec<Item> {
    let mut items = vec![];
    for &set in sets {
        items.push(Item::Events(set));
        if items.len() > 1 {
            items.push(Item::Sequence);
        }
    }
    items
}

pub fn star(mut items: Vec<Item>) -> Vec<Item> {
    items.push(Item::Star);
    items
}

pub fn then(mut first: Vec<Item>, rest: Vec<Item>) -> Vec<Item> {
    first.extend(rest);
    first.push(Item::Sequence);
    first
}

pub fn or(mut one: Vec<Item>, other: Vec<Item>) -> Vec<Item> {
    one.extend(other);
    one.push(Item::Choice);
    one
}

/// Any string of events 1 and 2 with an event 1 in the place `back` before the last: 2^(back + 1) + 1 states.
pub fn looking_back(back: usize) -> Vec<Item> {
    let both = only(1) | only(2);
    let mut end = vec![only(1)];
    end.resize(1 + back, both);
    then(star(sequence(&[both])), sequence(&end))
}

/// Events 1 in a number that `one` or `other` divides, once `head` events 2 have come: with a head, 2 + head +
/// lcm(one, other) states, the empty set of positions among them.
pub fn cycles(head: usize, one: usize, other: usize) -> Vec<Item> {
    let cycle = |length| star(sequence(&vec![only(1); length]));
    let both = or(cycle(one), cycle(other));
    match head {
        0 => both,
        _ => then(sequence(&vec![only(2); head]), both),
    }
}

/// As many states, with positions that no string enters, and exactly 64 items: a choice of the items, 62 at most, and
/// sets that hold no event. The empty string may come to belong to the language.
pub fn padded(items: Vec<Item>) -> Vec<Item> {
    let left = 63 - items.len();
    let nothing = sequence(&vec![0; left.div_ceil(2)]);
    match left % 2 {
        0 => or(items, star(nothing)),
        _ => or(items, nothing),
    }
}

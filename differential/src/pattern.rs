//! Random patterns: well-formed postfix items of many shapes.

use crate::draft::Item;
use crate::layout::MOST_ITEMS;
use crate::random::Random;

/// A pattern of at least `length` items over the alphabet.
pub fn pattern(alphabet: u32, length: usize, random: &mut Random) -> Vec<Item> {
    let mut items = match random.weighted(&[8, 2, 3, 2, 2, 2]) {
        0 => tree(alphabet, length, random),
        1 => comb(alphabet, length, random),
        2 => counter(alphabet, random),
        3 => clocks(alphabet, random),
        4 => liberal(alphabet, length, random),
        _ => barren(alphabet, length, random),
    };
    lengthen(&mut items, length, random);
    items
}

/// A set of events of the alphabet, the empty one too.
pub fn events(alphabet: u32, random: &mut Random) -> Item {
    let one = 1 << random.event_of(alphabet) & alphabet;
    Item::Events(match random.weighted(&[4, 2, 2, 2, 1]) {
        0 => one,
        1 => one | 1 << random.event_of(alphabet) & alphabet,
        2 => random.bits() as u32 & alphabet,
        3 => alphabet,
        _ => 0,
    })
}

fn leaf(alphabet: u32, random: &mut Random) -> Item {
    if random.one_in(8) {
        Item::Empty
    } else {
        events(alphabet, random)
    }
}

/// A binary operator, a sequence more often than a choice.
pub fn binary(random: &mut Random) -> Item {
    random.pick(&[Item::Sequence, Item::Sequence, Item::Choice])
}

/// A random expression of exactly `length` items.
fn tree(alphabet: u32, length: usize, random: &mut Random) -> Vec<Item> {
    if length == 1 {
        return vec![leaf(alphabet, random)];
    }
    if length == 2 || random.one_in(5) {
        let mut items = tree(alphabet, length - 1, random);
        items.push(Item::Star);
        return items;
    }
    let older = 1 + random.index(length - 2);
    let mut items = tree(alphabet, older, random);
    items.extend(tree(alphabet, length - 1 - older, random));
    items.push(binary(random));
    items
}

/// All operands first, then the operators: the deepest pile of operands.
fn comb(alphabet: u32, length: usize, random: &mut Random) -> Vec<Item> {
    let operands = length.div_ceil(2);
    let mut items: Vec<Item> = (0..operands).map(|_| leaf(alphabet, random)).collect();
    items.extend((1..operands).map(|_| binary(random)));
    items
}

/// As many positions as a pattern may have, one event each, in sequence: all operands first, or each operator as soon as it can come.
pub fn longest(alphabet: u32, random: &mut Random) -> Vec<Item> {
    let sets = MOST_ITEMS / 2;
    let one = |random: &mut Random| Item::Events(1 << random.event_of(alphabet) & alphabet);
    let piled = random.pick(&[1, sets]);
    let mut items: Vec<Item> = (0..piled).map(|_| one(random)).collect();
    for _ in piled..sets {
        items.extend([one(random), Item::Sequence]);
    }
    items.extend((1..piled).map(|_| Item::Sequence));
    let length = random.pick(&[items.len(), MOST_ITEMS]);
    lengthen(&mut items, length, random);
    items
}

/// Star of {a,b}, then {a}, then {a,b} some times: states by powers of two.
pub fn counting(a: u32, b: u32, times: u32) -> Vec<Item> {
    let both = 1 << a | 1 << b;
    let mut items = vec![
        Item::Events(both),
        Item::Star,
        Item::Events(1 << a),
        Item::Sequence,
    ];
    for _ in 0..times {
        items.extend([Item::Events(both), Item::Sequence]);
    }
    items
}

fn counter(alphabet: u32, random: &mut Random) -> Vec<Item> {
    let (a, b) = (random.event_of(alphabet), random.event_of(alphabet));
    if a == 0 {
        return vec![Item::Empty];
    }
    let times = random.pick(&[1, 2, 3, 4, 4, 5, 6]);
    counting(a, b, times)
}

/// Two stars of a repeated set beside each other: as many states as the
/// lengths' least common multiple, with one or two more.
fn clocks(alphabet: u32, random: &mut Random) -> Vec<Item> {
    let near_most = [(7, 9), (5, 12), (4, 15), (7, 8), (5, 13)];
    let (first, second) = match random.one_in(2) {
        true => random.pick(&near_most),
        false => (1 + random.index(12), 1 + random.index(12)),
    };
    let set = match random.one_in(2) {
        true => Item::Events(alphabet),
        false => events(alphabet, random),
    };
    clocks_of(&set, first, second)
}

/// Two such stars of these lengths.
pub fn clocks_of(set: &Item, first: usize, second: usize) -> Vec<Item> {
    let mut items = repeated(set, first);
    items.push(Item::Star);
    items.extend(repeated(set, second));
    items.extend([Item::Star, Item::Choice]);
    items
}

fn repeated(item: &Item, times: usize) -> Vec<Item> {
    let mut items = vec![item.clone()];
    for _ in 1..times {
        items.extend([item.clone(), Item::Sequence]);
    }
    items
}

/// A choice with every string: all states accept.
fn liberal(alphabet: u32, length: usize, random: &mut Random) -> Vec<Item> {
    let mut items = tree(alphabet, length.saturating_sub(3).max(1), random);
    items.extend([Item::Events(alphabet), Item::Star, Item::Choice]);
    items
}

/// A sequence with an empty set: no state accepts.
fn barren(alphabet: u32, length: usize, random: &mut Random) -> Vec<Item> {
    let mut items = tree(alphabet, length.saturating_sub(2).max(1), random);
    items.extend([Item::Events(0), Item::Sequence]);
    items
}

/// Adds items up to `length`: pairs that change no language but by the empty
/// string, and one star if the number is odd.
fn lengthen(items: &mut Vec<Item>, length: usize, random: &mut Random) {
    while items.len() + 2 <= length {
        items.extend([Item::Empty, binary(random)]);
    }
    if items.len() < length {
        items.push(Item::Star);
    }
}

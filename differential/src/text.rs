//! Texts that are handed to the judge in place of a plan's own items, and what is known of them from how they were made.

use crate::draft::Item;
use crate::layout::MOST_ITEMS;
use crate::pattern::{clocks_of, counting, pattern};
use crate::random::Random;
use crate::spelling::{self, lengthen, letter, meaning, typed, Typed, LETTERS};

/// Refusal 18 applies above this number of bytes.
pub const MOST_BYTES: usize = 255;

pub struct Text {
    pub bytes: Vec<u8>,
    /// Its items or its refusal, 18 to 20, where its making tells.
    pub reading: Option<Result<Vec<Item>, u32>>,
    /// It was made for more than 64 states.
    pub many_states: bool,
    /// It spells the plan's own items.
    pub own: bool,
    /// A letter outside the alphabet stands in `[^ ]`.
    pub strange_left_out: bool,
}

impl Text {
    /// Its items; none where its making does not tell them, or it has a refusal.
    pub fn items(&self) -> &[Item] {
        match &self.reading {
            Some(Ok(items)) => items,
            _ => &[],
        }
    }

    /// The refusal that it must give to a plan that none of 1 to 15 and 21 applies to, where its making tells.
    pub fn expected(&self) -> Option<u32> {
        match self.reading {
            Some(Err(refusal)) => Some(refusal),
            Some(Ok(_)) if self.many_states => Some(16),
            _ => None,
        }
    }
}

/// A text for a plan of this alphabet; now and then one that spells its own items, as far as they are known.
pub fn make(alphabet: u32, own: &[Item], random: &mut Random) -> Text {
    let made = match random.weighted(&[15, 60, 15, 10]) {
        0 => spelled(alphabet, own, random).or_else(|| any(alphabet, random)),
        1 => any(alphabet, random),
        2 => any(alphabet, random).map(|text| damaged(text, random)),
        _ => None,
    };
    made.unwrap_or_else(|| noise(alphabet, random))
}

/// The text of a plan's own items, if they can be spelled and it is short enough.
fn spelled(alphabet: u32, own: &[Item], random: &mut Random) -> Option<Text> {
    let typed = typed(own, alphabet, random)?;
    let bytes = spelling::text(&typed, random.one_in(4), random)?;
    let mut text = known(bytes, &typed, alphabet);
    text.own = matches!(text.reading, Some(Ok(_)));
    text.own.then_some(text)
}

/// A text of the grammar: of few or too many items or states, with or without a letter outside the alphabet, of any length.
fn any(alphabet: u32, random: &mut Random) -> Option<Text> {
    let letters = alphabet & LETTERS;
    let shape = random.weighted(&[16, 4, 2]);
    let mut items = match shape {
        0 => few_items(letters, random),
        1 => many_items(letters, random),
        _ => many_states(letters, random)?,
    };
    for item in &mut items {
        match item {
            // Events without a letter, which only `[^ ]` can name.
            Item::Events(set) if random.one_in(4) => *set |= alphabet & !LETTERS,
            _ => {}
        }
    }
    let mut typed = typed(&items, alphabet, random)?;
    if random.one_in(6) {
        type_strange_letter(&mut typed, alphabet, random);
    }
    let mut bytes = spelling::text(&typed, random.one_in(3), random)?;
    if random.one_in(5) {
        let beyond = 258 + random.index(5_000);
        let length = random.pick(&[254, 255, 255, 255, 256, 256, 257, beyond]);
        lengthen(&mut bytes, length, random);
    }
    let mut text = known(bytes, &typed, alphabet);
    text.many_states = shape == 2;
    Some(text)
}

/// What is known of a text that spells these.
fn known(bytes: Vec<u8>, typed: &[Typed], alphabet: u32) -> Text {
    let is_strange = |typed: &&Typed| typed.letters() & !alphabet != 0;
    let strange: Vec<&Typed> = typed.iter().filter(is_strange).collect();
    let reading = if bytes.len() > MOST_BYTES {
        Err(18)
    } else if typed.len() > MOST_ITEMS {
        Err(19)
    } else if !strange.is_empty() {
        Err(20)
    } else {
        Ok(meaning(typed, alphabet))
    };
    Text {
        strange_left_out: strange.iter().any(|typed| typed.without),
        ..unknown(bytes, Some(reading))
    }
}

/// A text of which no more is known than this reading, if any.
fn unknown(bytes: Vec<u8>, reading: Option<Result<Vec<Item>, u32>>) -> Text {
    Text {
        bytes,
        reading,
        many_states: false,
        own: false,
        strange_left_out: false,
    }
}

fn few_items(letters: u32, random: &mut Random) -> Vec<Item> {
    let most = random.pick(&[4, 12, 12, MOST_ITEMS]);
    pattern(letters, 1 + random.index(most), random)
}

/// More items than a pattern may have, or just as many, of two letters, so that the text may be short enough.
fn many_items(letters: u32, random: &mut Random) -> Vec<Item> {
    let two = 1 << random.event_of(letters) | 1 << random.event_of(letters);
    let more = MOST_ITEMS + 2 + random.index(150);
    let length = random.pick(&[MOST_ITEMS, MOST_ITEMS + 1, MOST_ITEMS + 1, more]);
    pattern(two & letters, length, random)
}

/// An automaton of more than 64 states; none where there is no letter.
fn many_states(letters: u32, random: &mut Random) -> Option<Vec<Item>> {
    let a = random.event_of(letters);
    let b = random.event_of(letters & !(1 << a));
    match (a, b) {
        (0, _) => None,
        (_, 0) => {
            let (first, second) = random.pick(&[(7, 10), (8, 9), (5, 13), (9, 11)]);
            Some(clocks_of(&Item::Events(1 << a), first, second))
        }
        _ => Some(counting(a, b, random.within(5..=30))),
    }
}

/// Types a letter outside the alphabet in a set, or in place of an empty string, if there is such a letter.
fn type_strange_letter(typed: &mut [Typed], alphabet: u32, random: &mut Random) {
    let strange = random.event_of(LETTERS & !alphabet);
    let operand = |typed: &&mut Typed| matches!(typed.item, Item::Empty | Item::Events(_));
    let mut operands: Vec<&mut Typed> = typed.iter_mut().filter(operand).collect();
    if strange == 0 || operands.is_empty() {
        return;
    }
    let operand = random.pick_mut(&mut operands);
    operand.item = Item::Events(operand.letters() | 1 << strange);
}

/// The text with one fault: surely a broken one, or a change that may leave it in the grammar.
fn damaged(mut text: Text, random: &mut Random) -> Text {
    let breaks = random.one_in(2);
    if breaks {
        break_grammar(&mut text.bytes, random);
    } else {
        change(&mut text.bytes, random);
    }
    let broken = breaks || text.bytes.is_empty();
    unknown(text.bytes, broken.then_some(Err(18)))
}

/// Bytes that no text has one behind the other, be it in a set or not.
const NEVER_TOGETHER: [&[u8]; 22] = [
    b"()", b"|()", b"();", b")(", b"(;", b"(|", b"(*", b";)", b"|)", b";;", b"||", b";|", b";*",
    b"*(", b"*a", b"a0", b"0a", b"00", b"a^", b"^^", b"^0", b"][",
];

/// A bracket too few or too many, a byte that no text has, or some that it has not together.
fn break_grammar(text: &mut Vec<u8>, random: &mut Random) {
    let is_bracket = |&at: &usize| b"()[]".contains(&text[at]);
    let brackets: Vec<usize> = (0..text.len()).filter(is_bracket).collect();
    if !brackets.is_empty() && random.one_in(4) {
        text.remove(random.pick(&brackets));
        return;
    }
    let more = match random.below(4) {
        0 => vec![random.pick(b"()[]")],
        1 => vec![random.pick(b" \t\n\0AZ19.+?-,:{`")],
        2 => vec![128 + random.below(128) as u8],
        _ => random.pick(&NEVER_TOGETHER).to_vec(),
    };
    let at = random.index(text.len() + 1);
    text.splice(at..at, more);
}

/// A byte dropped, doubled, changed or swapped with the next, or a cut.
fn change(text: &mut Vec<u8>, random: &mut Random) {
    let length = text.len();
    let at = random.index(length);
    match random.below(5) {
        0 => {
            text.remove(at);
        }
        1 => text.insert(at, text[at]),
        2 => text[at] = random.pick(b"az0;|*()[]^"),
        3 => text.swap(at, (at + 1) % length),
        _ => text.truncate(at),
    }
}

/// No byte at all, the characters of the grammar in any order, one of them again and again, or any bytes.
fn noise(alphabet: u32, random: &mut Random) -> Text {
    let characters = match random.event_of(alphabet & LETTERS) {
        0 => b"0;|*()[]^".to_vec(),
        event => [&[letter(event); 3], &b"0;|*()[]^"[..]].concat(),
    };
    let bytes = match random.weighted(&[1, 4, 1, 1]) {
        0 => Vec::new(),
        1 => (0..1 + random.index(9))
            .map(|_| random.pick(&characters))
            .collect(),
        2 => vec![random.pick(&characters); 1 + random.index(300)],
        _ => {
            let length = 1 + random.index(300);
            random.bytes(length)
        }
    };
    let broken = bytes.is_empty();
    unknown(bytes, broken.then_some(Err(18)))
}

#[cfg(test)]
mod tests {
    use super::*;
    use crate::draft::as_read;

    #[test]
    fn what_is_known_of_a_text_is_so() {
        let alphabet = 1 << 1 | 1 << 2 | 1 << 30;
        let random = &mut Random::new(1);
        for _ in 0..20_000 {
            let text = make(alphabet, &[], random);
            let read = reference::read_text(&text.bytes, alphabet);
            if let Some(reading) = text.reading {
                let due = reading.map(|items| as_read(&items));
                assert_eq!(read, due, "{}", text.bytes.escape_ascii());
            }
        }
    }
}

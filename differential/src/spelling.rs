//! Patterns spelled as text: from postfix items, whose meaning is known, to what a planner types.

use crate::draft::Item;
use crate::random::Random;

/// The events that have a letter: a to z are 1 to 26.
pub const LETTERS: u32 = (1 << 27) - 2;

/// An item as it is typed. The events of a set are its letters.
#[derive(Clone)]
pub struct Typed {
    pub item: Item,
    /// The letters are those that the set leaves out of the alphabet.
    pub without: bool,
}

impl Typed {
    /// The letters of a set; of any other item, none.
    pub fn letters(&self) -> u32 {
        match self.item {
            Item::Events(letters) => letters,
            _ => 0,
        }
    }
}

/// Chooses for each set whether its own letters are typed or those it leaves out; none where a set can be typed in neither way.
pub fn typed(items: &[Item], alphabet: u32, random: &mut Random) -> Option<Vec<Typed>> {
    let choose = |item: &Item| match *item {
        Item::Events(set) => choose_letters(set, alphabet, random),
        _ => Some(Typed {
            item: item.clone(),
            without: false,
        }),
    };
    items.iter().map(choose).collect()
}

fn choose_letters(set: u32, alphabet: u32, random: &mut Random) -> Option<Typed> {
    let left_out = alphabet & !set;
    let (can_list, can_leave_out) = (set & !LETTERS == 0, left_out & !LETTERS == 0);
    let without = can_leave_out && (!can_list || random.one_in(3));
    let letters = if without { left_out } else { set };
    (can_list || can_leave_out).then_some(Typed {
        item: Item::Events(letters),
        without,
    })
}

/// The items that a text of these means over the alphabet.
pub fn meaning(typed: &[Typed], alphabet: u32) -> Vec<Item> {
    let item = |typed: &Typed| match typed.item {
        Item::Events(letters) if typed.without => Item::Events(alphabet & !letters),
        ref item => item.clone(),
    };
    typed.iter().map(item).collect()
}

/// How tightly the parts of a piece of text hold together.
#[derive(Clone, Copy, PartialEq, Eq, PartialOrd, Ord)]
enum Binding {
    Choice,
    Sequence,
    Unit,
}

struct Piece {
    text: Vec<u8>,
    binding: Binding,
}

/// The text of these items; none where they do not make one expression. A wordy text has brackets and letters that it does not
/// need.
pub fn text(items: &[Typed], wordy: bool, random: &mut Random) -> Option<Vec<u8>> {
    let mut operands: Vec<Piece> = Vec::new();
    for typed in items {
        let mut piece = match typed.item {
            Item::Empty => unit(b"0"),
            Item::Events(letters) => unit(&set(letters, typed.without, wordy, random)),
            Item::Sequence => {
                let newer = operands.pop()?;
                joined(operands.pop()?, Binding::Sequence, newer)
            }
            Item::Choice => {
                let newer = operands.pop()?;
                joined(operands.pop()?, Binding::Choice, newer)
            }
            Item::Star => unit(&[&operands.pop()?.at_least(Binding::Unit)[..], b"*"].concat()),
        };
        while wordy && random.one_in(5) {
            piece = unit(&bracketed(&piece.text));
        }
        operands.push(piece);
    }
    let whole = operands.pop()?;
    operands.is_empty().then_some(whole.text)
}

impl Piece {
    /// The text, in brackets if it binds less tightly.
    fn at_least(self, least: Binding) -> Vec<u8> {
        if self.binding < least {
            bracketed(&self.text)
        } else {
            self.text
        }
    }
}

fn unit(text: &[u8]) -> Piece {
    Piece {
        text: text.to_vec(),
        binding: Binding::Unit,
    }
}

fn bracketed(text: &[u8]) -> Vec<u8> {
    [b"(", text, b")"].concat()
}

/// Two operands with the operator between them. Operators group to the left: the newer operand has to bind more tightly.
fn joined(older: Piece, binding: Binding, newer: Piece) -> Piece {
    let (operator, tighter) = match binding {
        Binding::Choice => (b"|", Binding::Sequence),
        _ => (b";", Binding::Unit),
    };
    let (older, newer) = (older.at_least(binding), newer.at_least(tighter));
    Piece {
        text: [&older[..], operator, &newer].concat(),
        binding,
    }
}

/// A letter alone or a set in square brackets. In a wordy text its letters come in any order and some more than once.
fn set(letters: u32, without: bool, wordy: bool, random: &mut Random) -> Vec<u8> {
    let mut list = Vec::new();
    for event in (1..=26).filter(|event| letters >> event & 1 == 1) {
        list.push(letter(event));
        while wordy && random.one_in(5) {
            list.push(letter(event));
        }
    }
    if list.len() == 1 && !without && !(wordy && random.one_in(3)) {
        return list;
    }
    if wordy {
        random.shuffle(&mut list);
    }
    let opening: &[u8] = if without { b"[^" } else { b"[" };
    [opening, &list, b"]"].concat()
}

/// The letter of an event from 1 to 26.
pub fn letter(event: u32) -> u8 {
    b'a' + (event - 1) as u8
}

/// Lengthens a grammatical text to this many bytes, or one less where that is not possible, with the same items: by brackets round
/// the whole or round its units.
pub fn lengthen(text: &mut Vec<u8>, length: usize, random: &mut Random) {
    if length.saturating_sub(text.len()) % 2 == 1 {
        double_a_letter(text, length);
    }
    while text.len() + 2 <= length {
        let most = (length - text.len()) / 2;
        let brackets = 1 + random.index(most);
        let (start, end) = match random.one_in(2) {
            true => (0, text.len()),
            false => random.pick(&units(text)),
        };
        text.splice(end..end, vec![b')'; brackets]);
        text.splice(start..start, vec![b'('; brackets]);
    }
}

/// Types the last letter of a unit twice, which takes one byte more, or three for a letter alone, if there is a letter and room.
fn double_a_letter(text: &mut Vec<u8>, room: usize) {
    let letter_of = |&(start, end): &(usize, usize)| {
        let mut letters = text[start..end].iter();
        let last = letters.rposition(u8::is_ascii_lowercase)?;
        Some((start + last, end - start == 1))
    };
    let Some((at, alone)) = units(text).iter().find_map(letter_of) else {
        return;
    };
    let letter = text[at];
    let doubled = match alone {
        true => vec![b'[', letter, letter, b']'],
        false => vec![letter, letter],
    };
    if text.len() - 1 + doubled.len() <= room {
        text.splice(at..=at, doubled);
    }
}

/// Where the letters, the sets and the empty strings of a grammatical text begin and end.
fn units(text: &[u8]) -> Vec<(usize, usize)> {
    let mut units = Vec::new();
    let mut open = None;
    for (at, byte) in text.iter().enumerate() {
        match (open, byte) {
            (None, b'[') => open = Some(at),
            (None, b'a'..=b'z' | b'0') => units.push((at, at + 1)),
            (Some(start), b']') => {
                units.push((start, at + 1));
                open = None;
            }
            _ => {}
        }
    }
    units
}

#[cfg(test)]
mod tests {
    use super::*;

    const A: Item = Item::Events(1 << 1);
    const B: Item = Item::Events(1 << 2);
    const BOTH: Item = Item::Events(1 << 1 | 1 << 2);

    /// The tidy text of items whose own letters are typed.
    fn tidy(items: &[Item]) -> String {
        let plain = |item: &Item| Typed {
            item: item.clone(),
            without: false,
        };
        let typed: Vec<Typed> = items.iter().map(plain).collect();
        let text = text(&typed, false, &mut Random::new(1));
        text.map_or("none".to_string(), |text| text.escape_ascii().to_string())
    }

    #[test]
    fn brackets_stand_where_the_grammar_asks_for_them() {
        use Item::{Choice, Empty, Sequence, Star};
        for (items, due) in [
            (vec![A], "a"),
            (vec![Empty, Star, Star], "0**"),
            (vec![Item::Events(0)], "[]"),
            (vec![A, B, Sequence, A, Sequence], "a;b;a"),
            (vec![A, B, A, Sequence, Sequence], "a;(b;a)"),
            (vec![A, B, Choice, A, Choice], "a|b|a"),
            (vec![A, B, A, Choice, Choice], "a|(b|a)"),
            (vec![A, B, Sequence, A, Choice], "a;b|a"),
            (vec![A, B, A, Sequence, Choice], "a|b;a"),
            (vec![A, B, Choice, A, Sequence], "(a|b);a"),
            (vec![A, B, A, Choice, Sequence], "a;(b|a)"),
            (vec![A, B, Sequence, Star], "(a;b)*"),
            (vec![BOTH, B, Star, Sequence], "[ab];b*"),
            (vec![A, B], "none"),
            (vec![A, Sequence], "none"),
            (vec![], "none"),
        ] {
            assert_eq!(tidy(&items), due);
        }
    }

    #[test]
    fn a_set_is_typed_where_letters_tell_it() {
        let (a, high, other) = (1 << 1, 1 << 27, 1 << 31);
        let random = &mut Random::new(1);
        for (set, alphabet, due) in [
            (a | high, a | high, Some((0, true))),
            (high, a | high, Some((a, true))),
            (high, a | high | other, None),
            (a, a | high, Some((a, false))),
        ] {
            let found = choose_letters(set, alphabet, random);
            let told = found.map(|typed| match typed.item {
                Item::Events(letters) => (letters, typed.without),
                item => panic!("{item:?}"),
            });
            assert_eq!(told, due);
        }
    }

    #[test]
    fn lengths_are_met() {
        let random = &mut Random::new(1);
        for (short, length, due) in [
            ("a;[b]", 254, 254),
            ("a;[b]", 255, 255),
            ("[^ab]|0", 256, 256),
            ("0;[]", 255, 254),
            ("a", 2, 1),
            ("a", 4, 4),
        ] {
            let mut text = short.as_bytes().to_vec();
            lengthen(&mut text, length, random);
            assert!(text.len() == due, "{short} has {} bytes", text.len());
        }
    }
}

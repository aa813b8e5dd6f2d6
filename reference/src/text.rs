//! Patterns typed as text, and the refusals 18 to 20.
//!
//! The text is read once, byte by byte. Operators and round brackets wait on
//! a stack; an operator becomes an item once both its operands are complete.

use crate::plan::{Item, MOST_ITEMS};

/// Refusal 18 applies above this number of bytes.
const MOST_BYTES: usize = 255;

/// The postfix items of a typed pattern, or the first of the refusals 18 to
/// 20 that applies. In the alphabet, as in a set, event e has weight 2^e.
pub fn read_text(text: &[u8], alphabet: u32) -> Result<Vec<Item>, u32> {
    // Refusal 18: the text is too long or breaks the grammar.
    if text.len() > MOST_BYTES {
        return Err(18);
    }
    let reading = Reading::of(text, alphabet).ok_or(18u32)?;
    // Refusal 19: it needs too many items.
    if reading.items.len() > MOST_ITEMS {
        return Err(19);
    }
    // Refusal 20: a letter is outside the alphabet.
    if reading.letters & !alphabet != 0 {
        return Err(20);
    }
    Ok(reading.items)
}

/// What may stand at the byte that is read next.
#[derive(Clone, Copy)]
enum Place {
    /// The beginning of a unit.
    Operand,
    /// Anything after a unit: a star, an operator or a closing bracket.
    Operator,
    /// The rest of a set in square brackets.
    Set(Listed),
}

/// A set in square brackets as far as it is read.
#[derive(Clone, Copy, Default)]
struct Listed {
    /// A byte was read after the opening bracket.
    begun: bool,
    /// It began with `^`.
    without: bool,
    letters: u32,
}

/// The operators between two operands; the later one binds tighter.
#[derive(Clone, Copy, PartialEq, Eq, PartialOrd, Ord)]
enum Operator {
    Choice,
    Sequence,
}

impl Operator {
    fn item(self) -> Item {
        match self {
            Operator::Choice => Item::Choice,
            Operator::Sequence => Item::Sequence,
        }
    }
}

/// What waits on the stack: an open round bracket, or an operator whose newer
/// operand is not complete.
#[derive(Clone, Copy)]
enum Waiting {
    Bracket,
    Operator(Operator),
}

struct Reading {
    alphabet: u32,
    items: Vec<Item>,
    waiting: Vec<Waiting>,
    /// All letters typed, those after `[^` too.
    letters: u32,
}

impl Reading {
    /// Reads the whole text, or gives `None` where it breaks the grammar. The
    /// number of items and strange letters are no matter here.
    fn of(text: &[u8], alphabet: u32) -> Option<Reading> {
        let mut reading = Reading {
            alphabet,
            items: Vec::new(),
            waiting: Vec::new(),
            letters: 0,
        };
        let mut place = Place::Operand;
        for &byte in text {
            place = match place {
                Place::Operand => reading.operand(byte)?,
                Place::Operator => reading.operator(byte)?,
                Place::Set(listed) => reading.listed(listed, byte)?,
            };
        }
        reading.release(Operator::Choice);
        let complete = matches!(place, Place::Operator) && reading.waiting.is_empty();
        complete.then_some(reading)
    }

    fn operand(&mut self, byte: u8) -> Option<Place> {
        match byte {
            b'a'..=b'z' => {
                let letter = self.letter(byte);
                Some(self.unit(Item::Events(letter)))
            }
            b'0' => Some(self.unit(Item::Empty)),
            b'[' => Some(Place::Set(Listed::default())),
            b'(' => {
                self.waiting.push(Waiting::Bracket);
                Some(Place::Operand)
            }
            _ => None,
        }
    }

    fn operator(&mut self, byte: u8) -> Option<Place> {
        match byte {
            // The last operand is the unit just read.
            b'*' => Some(self.unit(Item::Star)),
            b';' => Some(self.between(Operator::Sequence)),
            b'|' => Some(self.between(Operator::Choice)),
            b')' => {
                self.release(Operator::Choice);
                // Only the bracket it closes can be left on top.
                self.waiting.pop().map(|_| Place::Operator)
            }
            _ => None,
        }
    }

    fn listed(&mut self, mut listed: Listed, byte: u8) -> Option<Place> {
        match byte {
            b'a'..=b'z' => listed.letters |= self.letter(byte),
            b'^' if !listed.begun => listed.without = true,
            b']' if listed.without => {
                let rest = self.alphabet & !listed.letters;
                return Some(self.unit(Item::Events(rest)));
            }
            b']' => return Some(self.unit(Item::Events(listed.letters))),
            _ => return None,
        }
        listed.begun = true;
        Some(Place::Set(listed))
    }

    /// The set of a letter alone: a to z are the events 1 to 26.
    fn letter(&mut self, byte: u8) -> u32 {
        let letter = 2 << (byte - b'a');
        self.letters |= letter;
        letter
    }

    /// An item after which a unit is complete.
    fn unit(&mut self, item: Item) -> Place {
        self.items.push(item);
        Place::Operator
    }

    /// An operator between two operands. Those before it that bind as tightly
    /// have their operands: both operators group to the left.
    fn between(&mut self, operator: Operator) -> Place {
        self.release(operator);
        self.waiting.push(Waiting::Operator(operator));
        Place::Operand
    }

    /// Makes items of the operators on top of the stack, down to an open
    /// bracket or to one that binds less tightly than `least`.
    fn release(&mut self, least: Operator) {
        while let Some(&Waiting::Operator(top)) = self.waiting.last() {
            if top < least {
                break;
            }
            self.waiting.pop();
            self.items.push(top.item());
        }
    }
}

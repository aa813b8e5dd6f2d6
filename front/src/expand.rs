//! From the parts of a pattern to its items: what shorthand stands for, written out.
use crate::model::Item;
use crate::syntax::Part;

/// How many items a pattern needs, counted up to a thousand and one.
pub fn count(parts: &[Part]) -> usize {
    let mut operands: Vec<usize> = Vec::new();
    for part in parts {
        let last = match part {
            Part::Empty | Part::Event(_) | Part::Set { .. } => 0,
            _ => operands.pop().unwrap_or(0),
        };
        let needed = match part {
            Part::Empty | Part::Event(_) | Part::Set { .. } => 1,
            Part::Sequence | Part::Choice => operands.pop().unwrap_or(0) + last + 1,
            Part::Star => last + 1,
            Part::Plus => 2 * last + 2,
            Part::Optional => last + 2,
            Part::Times(times) => times * (last + 1) - 1,
        };
        operands.push(needed.min(MANY));
    }
    operands.pop().unwrap_or(0)
}

/// More items than are worth counting.
pub const MANY: usize = 1001;

/// The items of a pattern, whose parts name events by their place in `events`, which has the set of each. Watched are those of the alphabet.
pub fn expand(parts: &[Part], events: &[u32], alphabet: u32) -> Vec<Item> {
    let union = |range: &std::ops::Range<usize>| {
        let named = events.get(range.clone()).unwrap_or(&[]);
        named.iter().fold(0, |set, event| set | event)
    };
    let mut operands: Vec<Vec<Item>> = Vec::new();
    for part in parts {
        let expanded = match part {
            Part::Empty => vec![Item::Empty],
            Part::Event(at) => vec![Item::Events(union(&(*at..at + 1)))],
            Part::Set {
                except: false,
                events,
            } => vec![Item::Events(union(events))],
            Part::Set {
                except: true,
                events,
            } => vec![Item::Events(alphabet & !union(events))],
            Part::Sequence | Part::Choice => {
                let second = operands.pop().unwrap_or_default();
                let first = operands.pop().unwrap_or_default();
                joined(
                    first,
                    &second,
                    if matches!(part, Part::Sequence) {
                        Item::Sequence
                    } else {
                        Item::Choice
                    },
                )
            }
            repeated => repetition(repeated, operands.pop().unwrap_or_default()),
        };
        operands.push(expanded);
    }
    operands.pop().unwrap_or_default()
}

/// Two patterns with an operator behind them.
fn joined(mut first: Vec<Item>, second: &[Item], operator: Item) -> Vec<Item> {
    first.extend(second);
    first.push(operator);
    first
}

/// What `*`, `+`, `?` and `times` make of a pattern.
fn repetition(part: &Part, mut items: Vec<Item>) -> Vec<Item> {
    match part {
        Part::Plus => {
            let star = joined(items.clone(), &[], Item::Star);
            joined(items, &star, Item::Sequence)
        }
        Part::Optional => joined(items, &[Item::Empty], Item::Choice),
        Part::Times(times) => {
            let once = items.clone();
            for _ in 1..*times {
                items = joined(items, &once, Item::Sequence);
            }
            items
        }
        _ => joined(items, &[], Item::Star),
    }
}

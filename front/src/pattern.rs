//! The words of a pattern, from its items.
use crate::names::Names;
use traceflow::{Item, Kind, Plan};

/// What a plan asks of its runs, as a rule says it: `every prepared ; handed`.
pub fn demand(plan: &Plan, names: &Names) -> String {
    format!("{} {}", kind(plan.kind), short(plan, names))
}

/// The word for the kind of a rule.
pub fn kind(kind: Kind) -> &'static str {
    match kind {
        Kind::Every => "every",
        Kind::None => "never",
    }
}

/// How tightly the words of a pattern hold together.
#[derive(Clone, Copy, PartialEq, Eq, PartialOrd, Ord)]
enum Grip {
    Choice,
    Sequence,
    Times,
    Repeated,
}

/// A part of a pattern in words.
struct Part {
    words: String,
    grip: Grip,
    made: Made,
}

/// What shorthand can be made of a part. Equal words are of equal parts.
enum Made {
    /// `P*`, by the words of P.
    Star(String),
    /// P and again P, by the words of P and how often.
    Run(String, usize),
    Other,
}

/// The words of a pattern with all events of its sets.
pub fn words(items: &[Item], names: &Names) -> String {
    joined_up(items, &|set| listed(set, "", names))
}

/// The words of a plan's pattern. A large set, or that of all watched events, is told by those that are not in it, where these are fewer:
/// `[^prepared]`, `[^]`.
pub fn short(plan: &Plan, names: &Names) -> String {
    joined_up(&plan.items, &|set| {
        let others = plan.alphabet & !set;
        let (inside, outside) = (set.count_ones(), others.count_ones());
        let large = inside >= LARGE_SET && outside < inside;
        if large || inside > 1 && outside == 0 {
            listed(others, "^", names)
        } else {
            listed(set, "", names)
        }
    })
}

/// A set of so many events may be told by those that are not in it.
const LARGE_SET: u32 = 3;

/// The words of items, given those of their sets, with the fewest brackets for which they are read as these items: `;` and `|` group to the
/// left. `P ; P*` is told as `P+`, `P | 0` as `P?`, and P three times or more as `P times 3`: they stand for just that.
fn joined_up(items: &[Item], set_words: &dyn Fn(u32) -> String) -> String {
    let mut parts = Vec::new();
    for &item in items {
        let part = match item {
            Item::Empty => repeated("0".to_string()),
            Item::Events(set) => repeated(set_words(set)),
            Item::Star => starred(last(&mut parts)),
            Item::Sequence => {
                let second = last(&mut parts);
                in_sequence(last(&mut parts), second)
            }
            Item::Choice => {
                let second = last(&mut parts);
                chosen(last(&mut parts), second)
            }
        };
        parts.push(part);
    }
    last(&mut parts).words
}

/// One event alone is told by its name, others in square brackets behind a sign.
fn listed(set: u32, sign: &str, names: &Names) -> String {
    match names.events_of(set).as_slice() {
        [event] if sign.is_empty() => event.to_string(),
        events => format!("[{sign}{}]", events.join(" ")),
    }
}

fn repeated(words: String) -> Part {
    Part {
        words,
        grip: Grip::Repeated,
        made: Made::Other,
    }
}

fn starred(operand: Part) -> Part {
    let words = held(&operand, Grip::Repeated);
    Part {
        made: Made::Star(words.clone()),
        ..repeated(format!("{words}*"))
    }
}

fn in_sequence(first: Part, second: Part) -> Part {
    let unit = held(&first, Grip::Repeated);
    if matches!(&second.made, Made::Star(words) if *words == unit) {
        return repeated(format!("{unit}+"));
    }
    let (unit, count) = match first.made {
        Made::Run(ref words, count) => (words.clone(), count),
        _ => (unit, 1),
    };
    let both = joined(&first, " ; ", &second, Grip::Sequence, Grip::Times);
    if held(&second, Grip::Repeated) == unit {
        again(unit, count + 1, both)
    } else {
        both
    }
}

/// The same unit so often, one after the other; `both` tells it without shorthand.
fn again(unit: String, count: usize, both: Part) -> Part {
    let (words, grip) = match count {
        2 => (both.words, both.grip),
        _ => (format!("{unit} times {count}"), Grip::Times),
    };
    Part {
        words,
        grip,
        made: Made::Run(unit, count),
    }
}

fn chosen(first: Part, second: Part) -> Part {
    if second.words == "0" {
        return repeated(format!("{}?", held(&first, Grip::Repeated)));
    }
    joined(&first, " | ", &second, Grip::Choice, Grip::Sequence)
}

/// Two parts joined by an operator of the given grip. The right one has to hold together as `right` says, the left one as the operator.
fn joined(first: &Part, operator: &str, second: &Part, grip: Grip, right: Grip) -> Part {
    Part {
        words: format!("{}{operator}{}", held(first, grip), held(second, right)),
        grip,
        made: Made::Other,
    }
}

/// The words of a part, in brackets unless it holds together as asked.
fn held(part: &Part, asked: Grip) -> String {
    if part.grip < asked {
        format!("({})", part.words)
    } else {
        part.words.clone()
    }
}

/// The last part. Items that were read from a plan always have one.
fn last(parts: &mut Vec<Part>) -> Part {
    parts.pop().unwrap_or(repeated("[]".to_string()))
}

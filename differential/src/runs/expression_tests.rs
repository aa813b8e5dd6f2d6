//! Derivatives of small expressions, held against their strings written out.

use super::expression::{Expressions, Id};
use reference::Item;
use std::collections::{BTreeSet, HashSet};

/// Strings are compared up to this length.
const LONGEST: usize = 5;

/// Every item over events 1 and 2, a character for each.
const ITEMS: [char; 8] = ['e', '0', '1', '2', 'x', '.', '|', '*'];

fn item(character: char) -> Item {
    match character {
        'e' => Item::Empty,
        '0' => Item::Events(0),
        '1' => Item::Events(1 << 1),
        '2' => Item::Events(1 << 2),
        'x' => Item::Events(1 << 1 | 1 << 2),
        '.' => Item::Sequence,
        '|' => Item::Choice,
        _ => Item::Star,
    }
}

type Language = BTreeSet<Vec<u32>>;

fn joined(first: &Language, rest: &Language) -> Language {
    let pairs = first.iter().flat_map(|a| rest.iter().map(move |b| (a, b)));
    pairs
        .map(|(a, b)| [&a[..], &b[..]].concat())
        .filter(|string| string.len() <= LONGEST)
        .collect()
}

/// The strings of a pattern, by the rule for each item; none where an operator is short of operands, or one is left over.
fn enumerated(postfix: &str) -> Option<Language> {
    let mut operands: Vec<Language> = Vec::new();
    for character in postfix.chars() {
        let built = match item(character) {
            Item::Empty => Language::from([vec![]]),
            Item::Events(set) => (1..3)
                .filter(|event| set >> event & 1 == 1)
                .map(|event| vec![event])
                .collect(),
            Item::Sequence => {
                let newer = operands.pop()?;
                joined(&operands.pop()?, &newer)
            }
            Item::Choice => &operands.pop()? | &operands.pop()?,
            Item::Star => {
                let operand = operands.pop()?;
                let mut all = Language::from([vec![]]);
                for _ in 0..LONGEST {
                    all.extend(joined(&all, &operand));
                }
                all
            }
        };
        operands.push(built);
    }
    let whole = operands.pop()?;
    operands.is_empty().then_some(whole)
}

/// The strings whose derivative is nullable.
fn derived(expressions: &mut Expressions, whole: Id) -> Language {
    let mut language = Language::new();
    let mut waiting = vec![(whole, vec![])];
    while let Some((residual, string)) = waiting.pop() {
        if string.len() < LONGEST {
            for event in [1, 2] {
                let longer = [&string[..], &[event]].concat();
                waiting.push((expressions.derivative(residual, event), longer));
            }
        }
        if expressions.nullable(residual) {
            language.insert(string);
        }
    }
    language
}

/// How many expressions the derivatives come to, whatever the string.
fn residuals(expressions: &mut Expressions, whole: Id) -> usize {
    let mut met = HashSet::from([whole]);
    let mut waiting = vec![whole];
    while let Some(residual) = waiting.pop() {
        let next = [1, 2].map(|event| expressions.derivative(residual, event));
        waiting.extend(next.into_iter().filter(|&id| met.insert(id)));
    }
    met.len()
}

fn assert_language(postfix: &str) {
    let items: Vec<Item> = postfix.chars().map(item).collect();
    let mut expressions = Expressions::new();
    let built = expressions.of_items(&items);
    let language = built.map(|whole| derived(&mut expressions, whole));
    assert_eq!(language, enumerated(postfix), "{postfix}");
    if let Some(whole) = built {
        let residuals = residuals(&mut expressions, whole);
        assert!(residuals < 100, "{postfix}: {residuals} residuals");
    }
}

#[test]
fn small_patterns_have_the_language_of_their_items() {
    let mut patterns = vec![String::new()];
    for _ in 0..5 {
        let longer = patterns.iter().flat_map(|pattern| {
            let longer = |item| format!("{pattern}{item}");
            ITEMS.map(longer)
        });
        patterns = longer.collect();
        patterns.iter().for_each(|pattern| assert_language(pattern));
    }
}

#[test]
fn nested_patterns_have_the_language_of_their_items() {
    for pattern in [
        "1*2.*x.1|*",
        "x*1.x.x.*",
        "12.*1e|.2*|*",
        "1*2*.1*.*2.",
        "e1|e2|.*",
    ] {
        assert_language(pattern);
    }
}

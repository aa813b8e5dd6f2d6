//! The plans of which the most bytes decide the answer: every count is the largest, and as many items as possible are sets.

use crate::draft::{Draft, Item};
use crate::layout::MOST_ITEMS;
use crate::pattern::events;
use crate::program::line::answer;
use crate::random::Random;
use crate::sound::{sound, Scale};
use reference::Answer;

/// The length of the largest plans that are judged: 32 of the items are sets.
pub const JUDGED: usize = 1_627;

/// Plans that are drawn to find some of both verdicts.
const DRAWN: usize = 200;

/// So many of the largest plans that are verified, then as many that are inconclusive.
pub fn judged(each: usize, random: &mut Random) -> Vec<Vec<u8>> {
    let (mut verified, mut inconclusive) = (Vec::new(), Vec::new());
    for _ in 0..DRAWN {
        let plan = largest(random).encode();
        match answer(&plan) {
            Answer::Verified(_) if verified.len() < each => verified.push(plan),
            Answer::Inconclusive(_) if inconclusive.len() < each => inconclusive.push(plan),
            _ => {}
        }
        if verified.len() + inconclusive.len() == 2 * each {
            break;
        }
    }
    verified.append(&mut inconclusive);
    verified
}

/// A plan whose items are all sets, which is refused for the operands left. No answer depends on bytes that stand after so many.
pub fn all_sets(random: &mut Random) -> Vec<u8> {
    let mut draft = sound(Scale::Full, random);
    let set = |_| events(draft.alphabet, random);
    draft.items = (0..MOST_ITEMS).map(set).collect();
    draft.encode()
}

/// A plan as large as one that is judged can be, but it may have too many states.
fn largest(random: &mut Random) -> Draft {
    let mut draft = sound(Scale::Full, random);
    draft.items = items(draft.alphabet, random);
    draft
}

/// A pattern of 32 sets, 31 operators of two operands and one star.
fn items(alphabet: u32, random: &mut Random) -> Vec<Item> {
    let sequences = random.pick(&[0, 1, 2, 8]);
    let mut items = Vec::new();
    let (mut sets, mut operands) = (MOST_ITEMS / 2, 0);
    while sets > 0 || operands > 1 {
        if operands < 2 || sets > 0 && random.one_in(2) {
            items.push(events(alphabet, random));
            sets -= 1;
            operands += 1;
        } else {
            let sequence = random.index(8) < sequences;
            items.push(if sequence {
                Item::Sequence
            } else {
                Item::Choice
            });
            operands -= 1;
        }
    }
    items.insert(1 + random.index(items.len()), Item::Star);
    items
}

#[cfg(test)]
mod tests {
    use super::*;
    use crate::layout::COUNTS;

    #[test]
    fn the_largest_are_judged() {
        for seed in 0..20 {
            let plans = judged(3, &mut Random::new(seed));
            assert_eq!(plans.len(), 6);
            for plan in plans {
                assert_eq!(plan.len(), JUDGED);
                assert!(COUNTS.iter().all(|count| count.read(&plan) == count.most));
                assert!(!matches!(answer(&plan), Answer::Refused(_)));
            }
        }
    }

    /// Whether a cut at any length below that of the input changes its answer.
    fn needs_all(input: &[u8]) -> bool {
        let whole = answer(input);
        (0..input.len()).all(|length| answer(&input[..length]) != whole)
    }

    #[test]
    fn every_cut_changes_the_answer() {
        let random = &mut Random::new(7);
        for mut plan in judged(1, random) {
            assert!(needs_all(&plan));
            plan.push(0);
            assert!(needs_all(&plan));
        }
        let plan = all_sets(random);
        assert_eq!((plan.len(), answer(&plan)), (1_751, Answer::Refused(14)));
        assert!(needs_all(&plan));
    }
}

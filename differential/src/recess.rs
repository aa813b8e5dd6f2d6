//! Sound plans without jobs, as the planner exports them on recess days: no nodes, steps, calls or accepts, but any channels,
//! alphabet, kind and pattern.

use crate::draft::{Draft, Item};
use crate::layout::{MOST_CHANNELS, MOST_ITEMS};
use crate::pattern::pattern;
use crate::random::Random;
use crate::sound::{alphabet, any_event};

/// The refusals that a plan without jobs can be given under its own pattern: 6 and 21 are about jobs, 7 comes before 8 and 9, and 17 is
/// about nodes.
pub const REFUSALS: [u32; 13] = [1, 2, 3, 4, 5, 7, 10, 11, 12, 13, 14, 15, 16];

/// A plan without jobs that none of refusals 1 to 15 applies to.
pub fn recess(random: &mut Random) -> Draft {
    let alphabet = alphabet(random);
    let any = random.within(0..=MOST_CHANNELS);
    let channels = random.pick(&[0, 0, 1, any, MOST_CHANNELS]);
    let most = random.pick(&[1, 4, 12, 32, MOST_ITEMS]);
    let items = pattern(alphabet, 1 + random.index(most), random);
    Draft {
        channels: (0..channels)
            .map(|_| any_event(alphabet, 4, random))
            .collect(),
        ..of(random.within(0..=1), alphabet, items)
    }
}

/// The plan without jobs or channels of this kind, alphabet and pattern.
fn of(kind: u32, alphabet: u32, items: Vec<Item>) -> Draft {
    Draft {
        nodes: 0,
        kind,
        alphabet,
        jobs: vec![],
        steps: vec![],
        channels: vec![],
        calls: vec![],
        accepts: vec![],
        items,
    }
}

/// Plans with known verdicts: the pattern is the empty string, over no events, or event 1; of both kinds.
pub fn known() -> [Draft; 4] {
    let event = 1 << 1;
    [
        of(0, 0, vec![Item::Empty]),
        of(1, 0, vec![Item::Empty]),
        of(0, event, vec![Item::Events(event)]),
        of(1, event, vec![Item::Events(event)]),
    ]
}

#[cfg(test)]
mod tests {
    use super::*;
    use crate::case::faulty;
    use crate::refusals;
    use reference::{judge, Answer, Counts};

    #[test]
    fn the_known_verdicts() {
        let counts = |states| Counts {
            states,
            meetings: 0,
            ordering: 0,
            pairs: 0,
            fill: 0,
            final_set: 1,
        };
        let due = [
            Answer::Verified(counts(1)),
            Answer::Inconclusive(counts(1)),
            Answer::Inconclusive(counts(3)),
            Answer::Verified(counts(3)),
        ];
        assert_eq!(known().map(|draft| judge(&draft.encode(), &mut [])), due);
    }

    #[test]
    fn none_of_refusals_1_to_15_applies() {
        for number in 0..2_000 {
            let plan = recess(&mut Random::for_plan(7, number)).encode();
            let answer = judge(&plan, &mut []);
            assert!(
                matches!(
                    answer,
                    Answer::Refused(16) | Answer::Verified(_) | Answer::Inconclusive(_)
                ),
                "plan {number}: {answer:?}"
            );
        }
    }

    #[test]
    fn a_fault_made_on_purpose_is_answered_by_its_refusal() {
        let random = &mut Random::new(7);
        for fault in refusals::own() {
            let mut made = 0;
            for number in 0..200 {
                let case = faulty(recess(random), &[fault], random);
                if case.expected.is_some() {
                    let answer = judge(&case.plan, &mut case.row.clone());
                    assert_eq!(answer, Answer::Refused(fault), "plan {number}");
                    made += 1;
                }
            }
            assert_eq!(
                made > 0,
                REFUSALS.contains(&fault),
                "fault {fault}: {made} made"
            );
        }
    }
}

//! Ordering edges that carry less (order 3): by hand, and against a naive
//! fixpoint of the flow rules on plans thrown at random.

mod dice;
mod draft;
mod naive;

use std::collections::HashSet;

use dice::Dice;
use draft::{counts, events, Draft};
use naive::{Naive, Rule};
use reference::{Answer, Item};

/// The crate's verdict against the naive one under order 3. Gives whether the
/// plan is verified, and whether it would be under 01's rule.
fn compare(draft: &Draft) -> (bool, bool) {
    let naive = Naive::of(draft);
    let (answer, row) = draft.judge();
    let sets = naive.sets(Rule::IfHeld);
    assert_eq!(row, sets, "{draft:?}");
    let counts = counts(answer);
    let pairs: u32 = sets.iter().map(|set| set.count_ones()).sum();
    assert_eq!(counts.pairs, pairs);
    assert_eq!(counts.fill, naive.fill(pairs));
    assert_eq!(counts.final_set, naive.final_set(&sets));
    assert_eq!(counts.ordering as usize, naive.edges());
    let verified = matches!(answer, Answer::Verified(_));
    assert_eq!(verified, naive.verified(&sets));
    // The sets lie within those of 01's rule.
    let wider = naive.sets(Rule::Always);
    let mut both = sets.iter().zip(&wider);
    assert!(both.all(|(set, wider)| set & !wider == 0), "{draft:?}");
    (verified, naive.verified(&wider))
}

/// Judges a plan, which `compare` then checks, and gives its sets as lists.
fn sets(draft: &Draft) -> Vec<Vec<u64>> {
    compare(draft);
    lists(&draft.judge().1)
}

fn lists(row: &[u64]) -> Vec<Vec<u64>> {
    let list = |&set: &u64| (0..64).filter(|state| set >> state & 1 == 1).collect();
    row.iter().map(list).collect()
}

/// Jobs of these sizes, entry at the first node and exit at the last. The
/// pattern is 1 then 2 then 3: state 1 is met after 1, state 3 after 1, 2 and
/// state 4 after all three; state 2 is the empty set.
fn jobs(sizes: &[u64]) -> Draft {
    let mut first = 0;
    let mut jobs = vec![];
    for &size in sizes {
        jobs.push([size, first, first + size - 1]);
        first += size;
    }
    let two_jobs = Draft::two_jobs();
    Draft {
        jobs,
        ..Draft::new(&two_jobs.alphabet, &two_jobs.items)
    }
}

#[test]
fn only_nodes_that_hold_the_state() {
    // Node 3 is reached by event 2 alone, so it never holds state 0.
    let draft = Draft {
        steps: vec![[0, 1, 1], [2, 3, 2]],
        ..jobs(&[2, 2])
    };
    assert_eq!(
        sets(&draft),
        [vec![0, 2], vec![1, 2, 3], vec![0, 1], vec![2, 3]]
    );
    // A node that holds nothing is handed nothing.
    let mut out_of_reach = jobs(&[2, 2]);
    out_of_reach.steps = vec![[0, 1, 1]];
    assert_eq!(sets(&out_of_reach), [vec![0], vec![1], vec![0, 1], vec![]]);
    let naive = Naive::of(&out_of_reach);
    assert_eq!(lists(&naive.sets(Rule::Always))[3], [1]);
}

#[test]
fn held_only_through_another_ordering_edge() {
    // Node 4 stands still: 0, then 1 and 3 and 4 along ordering edges.
    let steps = vec![[0, 1, 1], [1, 2, 2], [2, 3, 3]];
    let expected = [vec![0], vec![1], vec![3], vec![4], vec![0, 1, 3, 4]];
    let mut draft = Draft {
        steps,
        ..jobs(&[4, 1])
    };
    assert_eq!(sets(&draft), expected);
    draft.steps.reverse();
    assert_eq!(sets(&draft), expected);
    // Without the first edge the later ones carry nothing: the first step is
    // quiet, so all states come from 0.
    draft.steps = vec![[0, 1, 0], [1, 2, 2], [2, 3, 3]];
    let expected = [vec![0], vec![0], vec![2], vec![2], vec![0, 2]];
    assert_eq!(sets(&draft), expected);
}

#[test]
fn held_later_than_the_move_is_made() {
    // The move from 0 to 1 is made at once. Node 5 comes to hold state 0 only
    // at the end of a chain of quiet steps, and still gets state 1.
    let chain = Draft {
        steps: vec![[0, 1, 1], [2, 3, 0], [3, 4, 0], [4, 5, 0]],
        ..jobs(&[2, 4])
    };
    let mut expected = vec![vec![0], vec![1]];
    expected.extend(vec![vec![0, 1]; 4]);
    assert_eq!(sets(&chain), expected);
    // Node 4 comes to hold state 1 by its own job's step, and gets 3 along the
    // ordering edges of the step 1 to 2 alone: node 3 never holds 1 or 3.
    let own_step = Draft {
        steps: vec![[0, 1, 0], [1, 2, 2], [3, 4, 1]],
        ..jobs(&[3, 2])
    };
    let expected = [
        vec![0, 1],
        vec![0, 1],
        vec![2, 3],
        vec![0, 2],
        vec![1, 2, 3],
    ];
    assert_eq!(sets(&own_step), expected);
    // The first job makes 3 of 1 long before node 6, at the end of a chain,
    // comes to hold 1. No step of the chain brings 3 there.
    let late = Draft {
        steps: vec![[0, 1, 1], [1, 2, 2], [3, 4, 0], [4, 5, 0], [5, 6, 1]],
        ..jobs(&[3, 4])
    };
    let expected = [
        vec![0, 1, 2],
        vec![1, 2],
        vec![2, 3],
        vec![0, 1, 2, 3],
        vec![0, 1, 2, 3],
        vec![0, 1, 2, 3],
        vec![1, 2, 3],
    ];
    assert_eq!(sets(&late), expected);
}

#[test]
fn held_only_through_a_meeting() {
    // Node 1 holds state 1 by the meeting, then gets 3 from the step 3 to 4.
    // Nodes 0 and 2 hold state 0 alone, of which nothing is made outside.
    let draft = Draft {
        channels: vec![1],
        calls: vec![[0, 1, 0]],
        accepts: vec![[2, 3, 0]],
        steps: vec![[3, 4, 2]],
        ..jobs(&[2, 3])
    };
    assert_eq!(
        sets(&draft),
        [vec![0], vec![1, 3], vec![0], vec![1], vec![3]]
    );
    // In the two jobs node 2 holds 3 by the meeting and gets 4.
    assert_eq!(sets(&Draft::two_jobs())[2], [3, 4]);
}

#[test]
fn a_meeting_by_a_state_held_along_an_ordering_edge() {
    // The meeting takes state 1 only: node 3 holds it by the ordering edge of
    // the step 0 to 1.
    let draft = Draft {
        steps: vec![[0, 1, 1]],
        channels: vec![2],
        calls: vec![[1, 2, 0]],
        accepts: vec![[3, 4, 0]],
        ..jobs(&[3, 2])
    };
    assert_eq!(
        sets(&draft),
        [vec![0], vec![1], vec![3], vec![0, 1], vec![3]]
    );
}

#[test]
fn handed_on_in_two_ways() {
    // Two moves make two states of one.
    let fork = Draft {
        steps: vec![[0, 1, 1], [0, 2, 2]],
        ..jobs(&[3, 1])
    };
    assert_eq!(sets(&fork), [vec![0], vec![1], vec![2], vec![0, 1, 2]]);
    // Two moves make the same state of one, and it counts once.
    let twice = Draft {
        steps: vec![[0, 1, 1], [0, 2, 1]],
        ..jobs(&[3, 1])
    };
    assert_eq!(sets(&twice), [vec![0], vec![1], vec![1], vec![0, 1]]);
    // Two moves make the same state of two: 2 of 0 by event 3, and of 1.
    let joined = Draft {
        steps: vec![[0, 1, 1], [0, 2, 3], [1, 2, 3]],
        ..jobs(&[3, 1])
    };
    assert_eq!(sets(&joined), [vec![0], vec![1], vec![2], vec![0, 1, 2]]);
    // Along an ordering edge and by the job's own quiet step.
    let own = Draft {
        steps: vec![[0, 1, 1], [2, 3, 0]],
        ..jobs(&[2, 2])
    };
    assert_eq!(sets(&own), [vec![0], vec![1], vec![0, 1], vec![0, 1]]);
}

#[test]
fn a_third_job() {
    // The meeting makes 2 of 0 and 3 of 1. Of the third job node 4 holds 0 and
    // not 1, node 5 holds 1 and not 0.
    let draft = Draft {
        channels: vec![2],
        calls: vec![[0, 1, 0]],
        accepts: vec![[2, 3, 0]],
        steps: vec![[4, 5, 1]],
        ..jobs(&[2, 2, 2])
    };
    let expected = [
        vec![0, 1],
        vec![2, 3],
        vec![0, 1],
        vec![2, 3],
        vec![0, 2],
        vec![1, 2, 3],
    ];
    assert_eq!(sets(&draft), expected);
    // 01's rule had handed all to both: the meeting's 2 and 3.
    let wider = lists(&Naive::of(&draft).sets(Rule::Always));
    assert!(wider[4..].iter().all(|set| set.ends_with(&[2, 3])));
}

#[test]
fn quiet_moves_have_no_ordering_edges() {
    let draft = Draft {
        steps: vec![[0, 1, 0], [1, 2, 4], [3, 4, 0]],
        ..jobs(&[3, 2])
    };
    assert_eq!(counts(draft.judge().0).ordering, 0);
    assert_eq!(sets(&draft), vec![vec![0]; 5]);
}

#[test]
fn verified_now_and_inconclusive_before() {
    let draft = Draft::two_jobs();
    assert_eq!(compare(&draft), (true, false));
    let naive = Naive::of(&draft);
    assert_eq!(naive.edges(), 6);
    let now = [vec![0], vec![1], vec![3, 4], vec![0, 1], vec![3], vec![4]];
    assert_eq!(lists(&naive.sets(Rule::IfHeld)), now);
    // The sets that 01 gave.
    let before = [
        vec![0, 2, 4],
        vec![1, 2, 4],
        vec![2, 3, 4],
        vec![0, 1, 2],
        vec![1, 2, 3],
        vec![1, 2, 4],
    ];
    assert_eq!(lists(&naive.sets(Rule::Always)), before);
}

#[test]
fn inconclusive_now_as_before() {
    // Nothing keeps 2 from coming before 1.
    let draft = Draft {
        steps: vec![[0, 1, 1], [2, 3, 2]],
        items: vec![events(&[1]), events(&[2]), Item::Sequence],
        ..jobs(&[2, 2])
    };
    assert_eq!(compare(&draft), (false, false));
    let wrong = |(nodes, state): &(Vec<usize>, usize)| *nodes == [1, 3] && *state == 2;
    assert!(Naive::of(&draft).reached().iter().any(wrong));
}

#[test]
fn small_plans_thrown_at_random() {
    let mut dice = Dice(3);
    let (mut gained, mut still, mut without_jobs) = (0, 0, [0; 2]);
    let mut standing = [0; 2];
    for _ in 0..20_000 {
        let draft = dice.small_plan();
        let answer = compare(&draft);
        if draft.jobs.is_empty() {
            without_jobs[usize::from(answer.0)] += 1;
        }
        if !draft.standing.is_empty() {
            standing[usize::from(answer.0)] += 1;
        }
        match answer {
            (true, false) => gained += 1,
            (false, false) => still += 1,
            // What 01's rule verified stays verified.
            (now, true) => assert!(now),
        }
    }
    assert!(gained > 100 && still > 1_000, "{gained} {still}");
    // Inconclusive, verified.
    assert!(without_jobs.iter().all(|&plans| plans > 100));
    assert!(standing.iter().all(|&plans| plans > 1_000), "{standing:?}");
}

#[test]
fn larger_plans_thrown_at_random() {
    let mut dice = Dice(6);
    let mut without_jobs = 0;
    for _ in 0..100 {
        let draft = Draft {
            items: Draft::many_states(4).items,
            alphabet: vec![1, 2],
            ..dice.plan(16, 16, 128)
        };
        compare(&draft);
        without_jobs += u32::from(draft.jobs.is_empty());
    }
    assert!((1..50).contains(&without_jobs), "{without_jobs}");
}

/// The order of the plan's lists changes no set.
#[test]
fn plans_turned_round() {
    let mut dice = Dice(4);
    for _ in 0..5_000 {
        let draft = dice.small_plan();
        let mut turned = draft.clone();
        turned.steps.reverse();
        turned.calls.reverse();
        turned.accepts.reverse();
        assert_eq!(draft.judge(), turned.judge());
    }
}

/// Complete runs are as safe as before: wherever a run stands, each node that
/// a job stands on holds the state reached.
#[test]
fn runs_of_small_plans() {
    let mut dice = Dice(5);
    let mut without_jobs = 0;
    for _ in 0..2_000 {
        let draft = dice.small_plan();
        let naive = Naive::of(&draft);
        let (answer, row) = draft.judge();
        let reached = naive.reached();
        if draft.jobs.is_empty() {
            // The one run is the empty one, and the verdict misses nothing.
            without_jobs += 1;
            assert_eq!(reached, HashSet::from([(vec![], 0)]));
            assert_eq!(matches!(answer, Answer::Verified(_)), naive.right(0));
        }
        for (nodes, state) in reached {
            assert!(nodes.iter().all(|&node| row[node] >> state & 1 == 1));
            if naive.complete(&nodes) && matches!(answer, Answer::Verified(_)) {
                assert!(naive.right(state));
            }
        }
    }
    assert!(without_jobs > 50, "{without_jobs}");
}

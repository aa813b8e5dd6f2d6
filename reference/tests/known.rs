//! The plans with known verdicts, with all values given for them.

mod draft;

use draft::{counts, events, set, Draft, NONE, P, UNTOUCHED};
use reference::{judge, pattern_part, Answer, Automaton, Counts, Item, Plan};

/// Alphabet empty, pattern the empty string.
fn empty() -> Draft {
    Draft::new(&[], &[Item::Empty])
}

fn automaton(draft: &Draft) -> Result<Automaton, u32> {
    Automaton::of(&Plan::read(&draft.bytes())?)
}

/// A refusal of 1 to 16: it leaves the row unchanged and the part is empty.
fn assert_refused(plan: &[u8], number: u32) {
    let mut row = [UNTOUCHED; 300];
    assert_eq!(judge(plan, &mut row), Answer::Refused(number));
    assert_eq!(row, [UNTOUCHED; 300]);
    assert_eq!(pattern_part(plan), 0..0);
}

#[test]
fn plan_p() {
    assert_eq!(Draft::p().bytes(), P);
    let (answer, row) = Draft::p().judge();
    let expected = Counts {
        states: 3,
        meetings: 0,
        ordering: 0,
        pairs: 2,
        fill: 33,
        final_set: 2,
    };
    assert_eq!(answer, Answer::Verified(expected));
    assert_eq!(row, [set(&[0]), set(&[1])]);
    assert_eq!(pattern_part(&P), 17..22);
}

#[test]
fn plan_p_of_kind_none() {
    let draft = Draft {
        kind: NONE,
        ..Draft::p()
    };
    let (answer, _) = draft.judge();
    assert!(matches!(answer, Answer::Inconclusive(_)));
    assert_eq!(counts(answer).final_set, set(&[1]));
}

#[test]
fn automaton_of_plan_p() {
    let automaton = automaton(&Draft::p()).unwrap();
    assert_eq!(automaton.states(), 3);
    assert_eq!([0, 1, 2].map(|state| automaton.next(state, 1)), [1, 2, 2]);
    assert_eq!([0, 1, 2].map(|state| automaton.next(state, 2)), [0, 1, 2]);
    assert_eq!(
        [0, 1, 2].map(|state| automaton.accepts(state)),
        [false, true, false]
    );
}

/// The values are those of order 3.
#[test]
fn two_jobs() {
    let (answer, row) = Draft::two_jobs().judge();
    let expected = Counts {
        states: 5,
        meetings: 1,
        ordering: 6,
        pairs: 8,
        fill: 27,
        final_set: set(&[4]),
    };
    assert_eq!(answer, Answer::Verified(expected));
    let sets = [
        set(&[0]),
        set(&[1]),
        set(&[3, 4]),
        set(&[0, 1]),
        set(&[3]),
        set(&[4]),
    ];
    assert_eq!(row, sets);
}

#[test]
fn one_node_that_is_entry_and_exit() {
    let every = Draft {
        jobs: vec![[1, 0, 0]],
        ..Draft::new(&[1], &[events(&[1])])
    };
    assert!(matches!(every.judge().0, Answer::Inconclusive(_)));
    let none = Draft {
        kind: NONE,
        ..every
    };
    assert!(matches!(none.judge().0, Answer::Verified(_)));
}

#[test]
fn one_quiet_step() {
    let draft = Draft {
        steps: vec![[0, 1, 0]],
        ..empty()
    };
    let (answer, _) = draft.judge();
    assert!(matches!(answer, Answer::Verified(_)));
    assert_eq!((counts(answer).pairs, counts(answer).fill), (2, 100));
}

#[test]
fn a_call_that_nobody_accepts() {
    let alone = Draft {
        channels: vec![0],
        calls: vec![[0, 1, 0]],
        ..empty()
    };
    let same_job = Draft {
        accepts: vec![[0, 1, 0]],
        ..alone.clone()
    };
    let expected = Counts {
        states: 1,
        meetings: 0,
        ordering: 0,
        pairs: 1,
        fill: 50,
        final_set: 0,
    };
    assert_eq!(alone.judge().0, Answer::Verified(expected));
    assert_eq!(same_job.judge().0, Answer::Verified(expected));
}

#[test]
fn eight_nodes_without_steps() {
    let draft = Draft {
        jobs: vec![[8, 0, 7]],
        ..empty()
    };
    let (answer, _) = draft.judge();
    assert!(matches!(answer, Answer::Verified(_)));
    assert_eq!((counts(answer).pairs, counts(answer).fill), (1, 13));
}

#[test]
fn many_states() {
    let four = Draft::many_states(4);
    assert_eq!(counts(four.judge().0).states, 33);
    assert_eq!(automaton(&four).unwrap().states(), 33);
    let five = Draft::many_states(5);
    assert_refused(&five.bytes(), 16);
    assert_eq!(automaton(&five), Err(16));
}

#[test]
fn plan_p_refused() {
    assert_refused(&P[..10], 1);
    let mut jobs = P;
    jobs[0] = 17 << 3;
    assert_refused(&jobs, 2);
    assert_refused(&P[..16], 3);
    let mut filling = P;
    filling[16] = 0x11;
    assert_refused(&filling, 4);
    let size = Draft {
        jobs: vec![[1, 0, 1]],
        ..Draft::p()
    };
    assert_refused(&size.bytes_with_nodes(2), 5);
    let back = Draft {
        steps: vec![[1, 0, 1]],
        ..Draft::p()
    };
    assert_refused(&back.bytes(), 8);
    assert_refused(&P[..21], 10);
    let mut last = P;
    last[21] = 0x01;
    assert_refused(&last, 15);
}

#[test]
fn plan_p_with_a_short_row() {
    let mut short = [UNTOUCHED];
    assert_eq!(judge(&P, &mut short), Answer::Refused(17));
    assert_eq!(short, [UNTOUCHED]);
    let mut enough = [UNTOUCHED; 2];
    assert!(matches!(judge(&P, &mut enough), Answer::Verified(_)));
}

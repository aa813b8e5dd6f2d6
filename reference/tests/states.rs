//! States as sets of positions, worked out by hand from the words of the
//! position construction.

mod draft;

use draft::{events, set, Draft};
use reference::{Automaton, Item, Plan};

/// The states of a plan's own pattern.
fn states(draft: &Draft) -> Vec<u64> {
    let plan = Plan::read(&draft.bytes()).unwrap();
    Automaton::of(&plan).unwrap().sets().to_vec()
}

fn of(alphabet: &[u64], items: &[Item]) -> Vec<u64> {
    states(&Draft::new(alphabet, items))
}

/// "State 0 is {0}." Event 1 leads to position 1, which nothing follows.
#[test]
fn plan_p() {
    assert_eq!(states(&Draft::p()), [set(&[0]), set(&[1]), set(&[])]);
}

/// 1, then 2, then 3. From {0}, event 1 meets {1}, and event 2 the empty set;
/// from {1}, event 2 meets {2}; from {2}, event 3 meets {3}.
#[test]
fn two_jobs() {
    let due = [set(&[0]), set(&[1]), set(&[]), set(&[2]), set(&[3])];
    assert_eq!(states(&Draft::two_jobs()), due);
}

/// Star of {1,2}, then {1}, then {1,2}: positions 1, 2 and 3. The beginning
/// and position 1 are followed by 1 and 2, position 2 by 3, position 3 by
/// none. {0} meets {1,2} and {1}; {1,2} meets all three and {1,3}; the others
/// meet none that is new.
#[test]
fn states_of_several_positions() {
    let due = [
        set(&[0]),
        set(&[1, 2]),
        set(&[1]),
        set(&[1, 2, 3]),
        set(&[1, 3]),
    ];
    assert_eq!(states(&Draft::many_states(1)), due);
}

/// "Watched events ascending": event 1, at position 2, is met before event 3,
/// at position 1.
#[test]
fn a_choice_whose_newer_operand_has_the_lower_event() {
    let items = [events(&[3]), events(&[1]), Item::Choice];
    let due = [set(&[0]), set(&[2]), set(&[1]), set(&[])];
    assert_eq!(of(&[1, 3], &items), due);
}

/// "A position with an empty set counted like any other": it is position 1.
/// The item of the empty string is no position.
#[test]
fn an_empty_set_of_events_is_a_position() {
    let none = [events(&[]), events(&[1]), Item::Choice];
    assert_eq!(of(&[1], &none), [set(&[0]), set(&[2]), set(&[])]);
    let empty = [Item::Empty, events(&[1]), Item::Choice];
    assert_eq!(of(&[1], &empty), [set(&[0]), set(&[1]), set(&[])]);
}

/// The empty set is a state "once it is met": under a star of the one watched
/// event, or where none is watched, it never is.
#[test]
fn the_empty_set_is_not_met() {
    let star = [events(&[1]), Item::Star];
    assert_eq!(of(&[1], &star), [set(&[0]), set(&[1])]);
    assert_eq!(of(&[], &[Item::Empty]), [set(&[0])]);
}

/// 32 times event 1 in sequence, the most positions that 64 items have: state
/// s is {s}, and behind position 32 comes the empty set.
#[test]
fn the_most_positions() {
    let mut items = vec![events(&[1])];
    for _ in 1..32 {
        items.extend([events(&[1]), Item::Sequence]);
    }
    let mut due: Vec<u64> = (0..=32).map(|position| set(&[position])).collect();
    due.push(set(&[]));
    assert_eq!(of(&[1], &items), due);
}

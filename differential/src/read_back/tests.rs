//! Tests of what is read back: by hand, with wrong readers, and by the safe wrapper.

use super::*;
use crate::builder::Builder;
use crate::case::{faulty, make};
use crate::compare::independent_answer;
use crate::draft;
use std::ops::BitXorAssign;

/// Two jobs, of which the first stands. It accepts from 0 to 1 and goes back by a quiet step; the other goes from 2 to 3 by event 31,
/// and calls from 3 to 4. The channel gives event 2; another, which nobody uses, none. The pattern is 31, then 2 or nothing.
fn two_jobs() -> Case {
    let items = vec![
        draft::Item::Events(1 << 31),
        draft::Item::Events(1 << 2),
        draft::Item::Empty,
        draft::Item::Choice,
        draft::Item::Sequence,
    ];
    let mut plan = Builder::new(1 << 31 | 1 << 2, items);
    plan.standing(2);
    plan.job(3, 0, 2);
    plan.step(1, 0, 0);
    plan.step(2, 3, 31);
    plan.channel(0);
    let channel = plan.channel(2);
    plan.call(3, 4, channel);
    plan.accept(0, 1, channel);
    faulty(plan.draft(), &[], &mut Random::new(7))
}

/// The arrays of `two_jobs`, worked out by hand from the header's words. The automaton has position 1 for event 31, and 2 for event 2.
/// Event 2 leads from {0} to the empty set, 31 to {1}, and event 2 from there to {2}; the strings end at both.
pub fn by_hand() -> ReadBack {
    let mut moves = array::from_fn(|state| [state as u8; 32]);
    for (state, by_2, by_31) in [(0, 1, 2), (1, 1, 1), (2, 3, 1), (3, 1, 1)] {
        moves[state][2] = by_2;
        moves[state][31] = by_31;
    }
    let mut arcs = [0; 512];
    arcs[0] = 1;
    arcs[1] = 2 + 3 * 256 + 31 * 65_536;
    arcs[256] = 3 + 4 * 256 + 65_536;
    arcs[384] = 256 + 65_536;
    ReadBack {
        refused: [0; 2],
        tables: Tables {
            counts: [2, 5, 2, 1, 1, 2, 0, 5, 0x8000_0004],
            size: front([2, 3].into_iter()),
            entry: front([0, 2].into_iter()),
            exit: front([0, 4].into_iter()),
            standing: front([1, 0].into_iter()),
            event: front([0, 2].into_iter()),
            arcs,
            kinds: front([1, 1, 0, 3, 2].into_iter()),
            sets: front([0x8000_0000, 4].into_iter()),
        },
        automaton: Property {
            values: [4, 0b1100],
            states: front([1, 0, 0b10, 0b100].into_iter()),
            moves,
        },
    }
}

#[test]
fn two_jobs_by_hand() {
    let case = two_jobs();
    assert_eq!(proved(&case), by_hand());
    assert_eq!(independent(&case), by_hand());
}

/// Alters each place of one array: each time that is found out.
fn each_place<T: BitXorAssign + From<u8>>(right: &ReadBack, array: fn(&mut ReadBack) -> &mut [T]) {
    let mut wrong = right.clone();
    for place in 0..array(&mut wrong).len() {
        array(&mut wrong)[place] ^= T::from(1);
        assert!(difference(right, &wrong).is_some(), "place {place}");
        array(&mut wrong)[place] ^= T::from(1);
    }
    assert_eq!(difference(right, &wrong), None);
}

#[test]
fn an_altered_place_is_found_out() {
    for right in (0..40).map(|number| proved(&make(1, number))) {
        each_place(&right, |read| &mut read.refused);
        each_place(&right, |read| &mut read.tables.counts);
        each_place(&right, |read| &mut read.tables.size);
        each_place(&right, |read| &mut read.tables.entry);
        each_place(&right, |read| &mut read.tables.exit);
        each_place(&right, |read| &mut read.tables.standing);
        each_place(&right, |read| &mut read.tables.event);
        each_place(&right, |read| &mut read.tables.arcs);
        each_place(&right, |read| &mut read.tables.kinds);
        each_place(&right, |read| &mut read.tables.sets);
        each_place(&right, |read| &mut read.automaton.values);
        each_place(&right, |read| &mut read.automaton.states);
        each_place(&right, |read| read.automaton.moves.as_flattened_mut());
    }
}

#[test]
fn what_differs_first_is_told() {
    let right = by_hand();
    let mut wrong = right.clone();
    let said = |wrong: &ReadBack| difference(&right, wrong).unwrap();
    wrong.automaton.moves[1][2] = 9;
    assert_eq!(
        said(&wrong),
        "read back: place 34 of its moves: 0x1 and 0x9"
    );
    wrong.tables.arcs[384] = 10;
    assert_eq!(
        said(&wrong),
        "read back: place 384 of the arcs: 0x10100 and 0xa"
    );
    wrong.refused[1] = MANY_STATES;
    assert_eq!(said(&wrong), "read back: the refusals differ");
}

/// What a reader with an error makes of the right tables, or of the right automaton, and of the arrays as they were lent.
type Wrong<T> = (&'static str, fn(&mut T, &T));

const WRONG_TABLES: [Wrong<Tables>; 14] = [
    ("sizes behind the jobs are left", |tables, lent| {
        leave(&mut tables.size, &lent.size, tables.counts[0]);
    }),
    ("exits behind the jobs are left", |tables, lent| {
        leave(&mut tables.exit, &lent.exit, tables.counts[0]);
    }),
    ("events behind the channels are left", |tables, lent| {
        leave(&mut tables.event, &lent.event, tables.counts[5]);
    }),
    ("arcs behind the steps are left", |tables, lent| {
        leave(&mut tables.arcs[..CALLS_AT], &lent.arcs, tables.counts[2]);
    }),
    ("kinds behind the items are left", |tables, lent| {
        leave(&mut tables.kinds, &lent.kinds, tables.counts[7]);
    }),
    ("sets of operators are left", |tables, lent| {
        let places = (0..tables.counts[7]).filter(|&place| tables.kinds[place] > 1);
        places.for_each(|place| tables.sets[place] = lent.sets[place]);
    }),
    ("the first accept is that of the calls", |tables, _| {
        tables.arcs[ACCEPTS_AT] = tables.arcs[CALLS_AT];
    }),
    ("the last place of the calls is left out", |tables, _| {
        tables.arcs[ACCEPTS_AT - 1] = 0;
    }),
    ("the last place of the steps is left out", |tables, _| {
        tables.arcs[CALLS_AT - 1] = 0;
    }),
    ("labels of 5 bits", |tables, _| {
        tables.arcs.iter_mut().for_each(|word| *word &= 0x1f_ffff);
    }),
    ("no job stands", |tables, _| tables.standing = [0; 16]),
    ("a size of 8 bits", |tables, _| {
        tables.size.iter_mut().for_each(|size| *size %= 256);
    }),
    ("sequence and choice swapped", |tables, _| {
        let swapped = |kind: u8| [0, 1, 3, 2, 4][usize::from(kind)];
        tables.kinds = tables.kinds.map(swapped);
    }),
    ("sets the other way round", |tables, _| {
        tables.sets = tables.sets.map(|set| set.reverse_bits());
    }),
];

const WRONG_AUTOMATA: [Wrong<Property>; 7] = [
    ("states behind the last are left", |automaton, lent| {
        let count = automaton.values[0] as usize;
        leave(&mut automaton.states, &lent.states, count);
    }),
    ("rows behind the last state are left", |automaton, lent| {
        let count = automaton.values[0] as usize;
        leave(&mut automaton.moves, &lent.moves, count);
    }),
    ("rows behind the last state hold 0", |automaton, _| {
        let count = automaton.values[0] as usize;
        automaton.moves[count..].fill([0; 32]);
    }),
    ("positions counted from 0", |automaton, _| {
        automaton.states = automaton.states.map(|state| state >> 1);
    }),
    ("positions of 32 bits", |automaton, _| {
        automaton.states = automaton.states.map(|state| state % (1 << 32));
    }),
    ("state 63 does not accept", |automaton, _| {
        automaton.values[1] &= u64::MAX >> 1;
    }),
    ("event 31 moves nothing", |automaton, _| {
        let rows = automaton.moves.iter_mut().enumerate();
        rows.for_each(|(state, row)| row[31] = state as u8);
    }),
];

/// What a reader makes of a plan that is refused.
const WRONG_REFUSALS: [Wrong<ReadBack>; 4] = [
    ("a refusal clears the counts", |read, _| {
        if read.refused[0] != 0 {
            read.tables.counts = [0; 9];
        }
    }),
    ("a refusal of an item clears the items", |read, _| {
        if (10..=15).contains(&read.refused[0]) {
            read.tables.kinds = [0; 64];
        }
    }),
    ("refusal 16 clears the states", |read, _| {
        if read.refused[1] == MANY_STATES {
            read.automaton.states = [0; 64];
        }
    }),
    ("refusal 16 is one of the tables", |read, lent| {
        if read.refused[1] == MANY_STATES {
            read.refused[0] = MANY_STATES;
            read.tables = lent.tables.clone();
        }
    }),
];

/// Puts the lent numbers back, from a place on.
fn leave<T: Copy>(places: &mut [T], lent: &[T], from: usize) {
    let lent = &lent[..places.len()];
    places[from..].copy_from_slice(&lent[from..]);
}

/// The wrong readers that no plan of these cases finds out, of those that are wrong in one part.
fn not_found_out<T>(
    wrong: &[Wrong<T>],
    part: fn(&mut ReadBack) -> Option<&mut T>,
) -> Vec<&'static str> {
    let mut left = wrong.to_vec();
    for case in (0..4_000).map(|number| make(1, number)) {
        let right = proved(&case);
        left.retain(|(_, alter)| {
            let (mut wrong, mut lent) = (right.clone(), lent(&case));
            if let (Some(part), Some(lent)) = (part(&mut wrong), part(&mut lent)) {
                alter(part, lent);
            }
            difference(&right, &wrong).is_none()
        });
    }
    left.into_iter().map(|(name, _)| name).collect()
}

/// The tables of a plan that is not refused.
fn read_tables(read: &mut ReadBack) -> Option<&mut Tables> {
    (read.refused[0] == 0).then_some(&mut read.tables)
}

/// The automaton of a plan that is not refused.
fn read_automaton(read: &mut ReadBack) -> Option<&mut Property> {
    (read.refused[1] == 0).then_some(&mut read.automaton)
}

#[test]
fn wrong_readers_are_found_out() {
    let none: [&str; 0] = [];
    assert_eq!(not_found_out(&WRONG_TABLES, read_tables), none);
    assert_eq!(not_found_out(&WRONG_AUTOMATA, read_automaton), none);
    assert_eq!(not_found_out(&WRONG_REFUSALS, |read| Some(read)), none);
}

/// The tables as the safe wrapper gives them, from what the independent implementation reads.
fn as_wrapped(plan: &Plan) -> traceflow::Plan {
    let step = |step: &Step| arc(step.from, step.to, step.event as usize);
    let link = |link: &Link| arc(link.from, link.to, link.channel);
    traceflow::Plan {
        nodes: plan.nodes,
        kind: match plan.kind {
            Kind::Every => traceflow::Kind::Every,
            Kind::None => traceflow::Kind::None,
        },
        alphabet: plan.alphabet,
        jobs: plan.jobs.iter().map(job).collect(),
        steps: plan.steps.iter().map(step).collect(),
        channels: plan.channels.iter().map(|&event| event as usize).collect(),
        calls: plan.calls.iter().map(link).collect(),
        accepts: plan.accepts.iter().map(link).collect(),
        items: plan.items.iter().map(item).collect(),
    }
}

fn arc(from: usize, to: usize, label: usize) -> traceflow::Arc {
    traceflow::Arc { from, to, label }
}

fn job(job: &Job) -> traceflow::Job {
    traceflow::Job {
        first: job.first,
        size: job.size,
        entry: job.entry,
        exit: job.exit,
        standing: job.standing,
    }
}

fn item(item: &Item) -> traceflow::Item {
    match *item {
        Item::Empty => traceflow::Item::Empty,
        Item::Events(set) => traceflow::Item::Events(set),
        Item::Sequence => traceflow::Item::Sequence,
        Item::Choice => traceflow::Item::Choice,
        Item::Star => traceflow::Item::Star,
    }
}

/// The automaton as the safe wrapper gives it.
fn automaton_as_wrapped(automaton: &Automaton) -> traceflow::Automaton {
    let Property { values, moves, .. } = property(automaton);
    traceflow::Automaton {
        states: automaton.sets().to_vec(),
        moves: moves[..automaton.states()].to_vec(),
        accepting: values[1],
    }
}

#[test]
fn the_safe_wrapper_gives_the_same() {
    for number in 0..2_000 {
        let bytes = make(1, number).plan;
        let plan = Plan::read(&bytes);
        let automaton = plan.clone().and_then(|plan| Automaton::of(&plan));
        let due = plan.map(|plan| as_wrapped(&plan));
        assert_eq!(traceflow::tables(&bytes), due, "plan {number}");
        let due = automaton.map(|automaton| automaton_as_wrapped(&automaton));
        assert_eq!(traceflow::automaton(&bytes), due, "plan {number}");
    }
}

/// What is said of a reader who alters what is read back beside the right answer.
fn said(case: &Case, alter: fn(&mut ReadBack)) -> Option<String> {
    let answer = independent_answer(&case.plan, None, &mut case.row.clone());
    let mut read = proved(case);
    alter(&mut read);
    broken(case, &answer, &read)
}

#[test]
fn what_breaks_a_law_is_found_out() {
    for case in (0..400).map(|number| make(1, number)) {
        let right = proved(&case);
        assert_eq!(said(&case, |_| ()), None);
        assert!(said(&case, |read| read.refused[0] ^= 1).is_some());
        assert!(said(&case, |read| read.refused[1] ^= 1).is_some());
        let changed = said(&case, |read| read.tables.sets[63] ^= 1);
        assert_eq!(changed.is_some(), right.refused[0] != 0);
        let changed = said(&case, |read| read.automaton.moves[63][31] ^= 1);
        assert_eq!(changed.is_some(), right.refused[1] != 0);
    }
    let judged = Case {
        row: vec![0; 5],
        ..two_jobs()
    };
    let states = said(&judged, |read| read.automaton.values[0] = 5);
    assert_eq!(states.as_deref(), Some("read back: 5 states"));
}

//! What is read back of each plan, by both implementations: the tables of its bytes and the automaton of its own pattern, in lent
//! arrays that hold other numbers before. Every place of every array is compared.

pub mod coverage;
#[cfg(test)]
mod tests;

use crate::case::Case;
use crate::compare::first_change;
use crate::random::Random;
use crate::refusals::{MANY_STATES, SHORT_ROW};
use reference::{Automaton, Item, Job, Kind, Link, Plan, Step};
use std::array;
use traceflow::{Answer, Property, Tables};

/// Where the calls and the accepts begin among the arcs.
pub const CALLS_AT: usize = 256;
pub const ACCEPTS_AT: usize = 384;

/// What one implementation gives and leaves in the lent arrays.
#[derive(Clone, Debug, PartialEq, Eq)]
pub struct ReadBack {
    /// The first refusal for the tables, and that for the automaton; 0 for none.
    pub refused: [u32; 2],
    pub tables: Tables,
    pub automaton: Property,
}

pub fn proved(case: &Case) -> ReadBack {
    let mut read = lent(case);
    read.refused = [
        traceflow::tables_into(&case.plan, &mut read.tables),
        traceflow::automaton_into(&case.plan, &mut read.automaton),
    ];
    read
}

pub fn independent(case: &Case) -> ReadBack {
    let mut read = lent(case);
    let plan = match Plan::read(&case.plan) {
        Ok(plan) => plan,
        Err(refusal) => {
            read.refused = [refusal; 2];
            return read;
        }
    };
    read.tables = tables(&plan);
    match Automaton::of(&plan) {
        Ok(automaton) => read.automaton = property(&automaton),
        Err(refusal) => read.refused[1] = refusal,
    }
    read
}

/// The arrays as they are lent, with random numbers of the case in all places.
fn lent(case: &Case) -> ReadBack {
    let random = &mut Random::new(case.values[0]);
    ReadBack {
        refused: [0; 2],
        tables: Tables {
            counts: any(random, |bits| bits as usize),
            size: any(random, |bits| bits as u16),
            entry: any(random, |bits| bits as u8),
            exit: any(random, |bits| bits as u8),
            standing: any(random, |bits| bits as u8),
            event: any(random, |bits| bits as u8),
            arcs: any(random, |bits| bits as u32),
            kinds: any(random, |bits| bits as u8),
            sets: any(random, |bits| bits as u32),
        },
        automaton: Property {
            values: any(random, |bits| bits),
            states: any(random, |bits| bits),
            moves: array::from_fn(|_| repeated(random.bits())),
        },
    }
}

fn any<T, const PLACES: usize>(random: &mut Random, number: fn(u64) -> T) -> [T; PLACES] {
    array::from_fn(|_| number(random.bits()))
}

/// The eight bytes of a number, again and again.
fn repeated(bits: u64) -> [u8; 32] {
    let bytes = bits.to_le_bytes();
    array::from_fn(|place| bytes[place % bytes.len()])
}

/// The tables of a plan as they have to be written.
fn tables(plan: &Plan) -> Tables {
    Tables {
        counts: counts(plan),
        size: of_jobs(plan, |job| job.size as u16),
        entry: of_jobs(plan, |job| job.entry as u8),
        exit: of_jobs(plan, |job| job.exit as u8),
        standing: of_jobs(plan, |job| job.standing.into()),
        event: front(plan.channels.iter().map(|&event| event as u8)),
        arcs: arcs(plan),
        kinds: front(plan.items.iter().map(kind)),
        sets: front(plan.items.iter().map(set)),
    }
}

fn counts(plan: &Plan) -> [usize; 9] {
    [
        plan.jobs.len(),
        plan.nodes,
        plan.steps.len(),
        plan.calls.len(),
        plan.accepts.len(),
        plan.channels.len(),
        match plan.kind {
            Kind::Every => 0,
            Kind::None => 1,
        },
        plan.items.len(),
        plan.alphabet as usize,
    ]
}

fn of_jobs<T: Copy + Default>(plan: &Plan, field: fn(&Job) -> T) -> [T; 16] {
    front(plan.jobs.iter().map(field))
}

/// These numbers in the first places, 0 in all others.
fn front<T: Copy + Default, const PLACES: usize>(numbers: impl Iterator<Item = T>) -> [T; PLACES] {
    let mut places = [T::default(); PLACES];
    put(&mut places, numbers);
    places
}

fn put<T>(places: &mut [T], numbers: impl Iterator<Item = T>) {
    for (place, number) in places.iter_mut().zip(numbers) {
        *place = number;
    }
}

fn arcs(plan: &Plan) -> [u32; 512] {
    let step = |step: &Step| word(step.from, step.to, step.event);
    let link = |link: &Link| word(link.from, link.to, link.channel as u32);
    let mut arcs = front(plan.steps.iter().map(step));
    put(&mut arcs[CALLS_AT..], plan.calls.iter().map(link));
    put(&mut arcs[ACCEPTS_AT..], plan.accepts.iter().map(link));
    arcs
}

fn word(from: usize, to: usize, label: u32) -> u32 {
    from as u32 + 256 * to as u32 + 65_536 * label
}

fn kind(item: &Item) -> u8 {
    match item {
        Item::Empty => 0,
        Item::Events(_) => 1,
        Item::Sequence => 2,
        Item::Choice => 3,
        Item::Star => 4,
    }
}

fn set(item: &Item) -> u32 {
    match *item {
        Item::Events(set) => set,
        _ => 0,
    }
}

/// An automaton as it has to be written.
fn property(automaton: &Automaton) -> Property {
    let count = automaton.states();
    let accepting = (0..count).filter(|&state| automaton.accepts(state));
    let next = |state: usize, event: usize| match state < count {
        true => automaton.next(state, event as u32) as u8,
        false => state as u8,
    };
    Property {
        values: [
            count as u64,
            accepting.fold(0, |set, state| set | 1 << state),
        ],
        states: front(automaton.sets().iter().copied()),
        moves: array::from_fn(|state| array::from_fn(|event| next(state, event))),
    }
}

impl ReadBack {
    /// The numbers of all arrays.
    fn arrays(&self) -> [(&'static str, Vec<u64>); 12] {
        let (tables, automaton) = (&self.tables, &self.automaton);
        let counts = tables.counts.map(|count| count as u64);
        [
            ("the counts", wide(&counts)),
            ("the sizes", wide(&tables.size)),
            ("the entries", wide(&tables.entry)),
            ("the exits", wide(&tables.exit)),
            ("the standing jobs", wide(&tables.standing)),
            ("the events of channels", wide(&tables.event)),
            ("the arcs", wide(&tables.arcs)),
            ("the kinds of items", wide(&tables.kinds)),
            ("the sets of items", wide(&tables.sets)),
            ("the values of the automaton", wide(&automaton.values)),
            ("its states", wide(&automaton.states)),
            ("its moves", wide(automaton.moves.as_flattened())),
        ]
    }
}

fn wide<T: Copy + Into<u64>>(numbers: &[T]) -> Vec<u64> {
    numbers.iter().map(|&number| number.into()).collect()
}

/// What differs first: the refusals, or a place of an array.
pub fn difference(one: &ReadBack, other: &ReadBack) -> Option<String> {
    if one == other {
        return None;
    }
    if one.refused != other.refused {
        return Some("read back: the refusals differ".to_string());
    }
    let mut pairs = one.arrays().into_iter().zip(other.arrays());
    let place = pairs.find_map(|((name, one), (_, other))| {
        let place = first_change(&one, &other, 0)?;
        let (one, other) = (one[place], other[place]);
        Some(format!("place {place} of {name}: {one:#x} and {other:#x}"))
    });
    Some(format!("read back: {}", place.unwrap_or_default()))
}

/// What is wrong beside this answer to the plan under its own pattern.
pub fn broken(case: &Case, answer: &Answer, read: &ReadBack) -> Option<String> {
    let due = due(answer);
    if read.refused != due {
        return Some(format!(
            "read back: refused {:?}, not {due:?}",
            read.refused
        ));
    }
    broken_lending(case, read).or_else(|| {
        let states = read.automaton.values[0];
        let differ = states_of(answer).is_some_and(|counted| states != counted);
        differ.then(|| format!("read back: {states} states"))
    })
}

/// The refusals of the tables and of the automaton beside an answer of the judge, who alone asks for a row.
fn due(answer: &Answer) -> [u32; 2] {
    match *answer {
        Answer::Refused(SHORT_ROW) | Answer::Verified(_) | Answer::Inconclusive(_) => [0, 0],
        Answer::Refused(MANY_STATES) => [0, MANY_STATES],
        Answer::Refused(refusal) => [refusal; 2],
    }
}

/// The states that a verdict counts.
fn states_of(answer: &Answer) -> Option<u64> {
    match answer {
        Answer::Refused(_) => None,
        Answer::Verified(counts) | Answer::Inconclusive(counts) => Some(counts.states.into()),
    }
}

/// A refusal leaves all that is lent. Each of the tables is one of the automaton too.
fn broken_lending(case: &Case, read: &ReadBack) -> Option<String> {
    let [of_tables, of_automaton] = read.refused;
    if of_automaton == 0 {
        return None;
    }
    let lent = lent(case);
    let what = if of_tables != 0 && read.tables != lent.tables {
        "the tables"
    } else if read.automaton != lent.automaton {
        "the automaton"
    } else {
        return None;
    };
    Some(format!("read back: a refusal changes {what}"))
}

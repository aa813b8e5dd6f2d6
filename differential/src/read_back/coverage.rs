//! What the plans of a run that were read back were like, without jobs and with them, and with which numbers others were turned down.

use super::{ReadBack, ACCEPTS_AT, CALLS_AT};
use crate::refusals::{MANY_STATES, OF_TEXT, ORDER};
use traceflow::{Property, Tables};

/// What has to occur in the tables of some plan.
const IN_TABLES: [(&str, fn(&Tables) -> bool); 26] = [
    ("no jobs", |tables| tables.counts[0] == 0),
    ("16 jobs", |tables| tables.counts[0] == 16),
    ("256 nodes", |tables| tables.counts[1] == 256),
    ("256 steps", |tables| tables.counts[2] == 256),
    ("128 calls", |tables| tables.counts[3] == 128),
    ("128 accepts", |tables| tables.counts[4] == 128),
    ("64 channels", |tables| tables.counts[5] == 64),
    ("kind every", |tables| tables.counts[6] == 0),
    ("kind none", |tables| tables.counts[6] == 1),
    ("64 items", |tables| tables.counts[7] == 64),
    ("a job that ends", |tables| stands(tables, 0)),
    ("a job that stands", |tables| stands(tables, 1)),
    ("a quiet step", |tables| steps(tables).any(is_quiet)),
    ("a step with an event", |tables| {
        !steps(tables).all(is_quiet)
    }),
    ("a call", |tables| tables.counts[3] > 0),
    ("an accept", |tables| tables.counts[4] > 0),
    ("calls, and other accepts", |tables| {
        tables.arcs[CALLS_AT..ACCEPTS_AT] != tables.arcs[ACCEPTS_AT..]
    }),
    ("a channel with an event", |tables| {
        channels(tables).any(|event| event > 0)
    }),
    ("a channel without", |tables| {
        channels(tables).any(|event| event == 0)
    }),
    ("an item: the empty string", |tables| has_item(tables, 0)),
    ("an item: a set", |tables| has_item(tables, 1)),
    ("an item: sequence", |tables| has_item(tables, 2)),
    ("an item: choice", |tables| has_item(tables, 3)),
    ("an item: star", |tables| has_item(tables, 4)),
    ("a set of event 31", |tables| {
        tables.sets.iter().any(|set| set >> 31 == 1)
    }),
    ("an empty set", |tables| has_empty_set(tables)),
];

/// What has to occur in the automaton of some plan.
const IN_AUTOMATA: [(&str, fn(&Property) -> bool); 6] = [
    ("1 state", |automaton| automaton.values[0] == 1),
    ("60 states or more", |automaton| automaton.values[0] >= 60),
    ("64 states", |automaton| automaton.values[0] == 64),
    ("the empty set as a state", |automaton| {
        states(automaton).any(|set| set == 0)
    }),
    ("position 32", |automaton| {
        states(automaton).any(|set| set >> 32 == 1)
    }),
    ("state 63 accepts", |automaton| {
        automaton.values[1] >> 63 == 1
    }),
];

fn stands(tables: &Tables, standing: u8) -> bool {
    tables.standing[..tables.counts[0]].contains(&standing)
}

fn steps(tables: &Tables) -> impl Iterator<Item = &u32> {
    tables.arcs[..tables.counts[2]].iter()
}

/// Whether a local step gives no event.
fn is_quiet(word: &u32) -> bool {
    word >> 16 == 0
}

/// The event of each channel.
fn channels(tables: &Tables) -> impl Iterator<Item = u8> + '_ {
    tables.event.iter().copied().take(tables.counts[5])
}

fn has_item(tables: &Tables, kind: u8) -> bool {
    tables.kinds[..tables.counts[7]].contains(&kind)
}

fn has_empty_set(tables: &Tables) -> bool {
    let mut items = tables.kinds.iter().zip(&tables.sets);
    items.any(|item| item == (&1, &0))
}

fn states(automaton: &Property) -> impl Iterator<Item = u64> + '_ {
    let count = automaton.values[0] as usize;
    automaton.states.iter().copied().take(count)
}

/// How often each was met.
#[derive(Default)]
pub struct ReadBacks {
    /// By number: for the tables, and for the automaton.
    refused: [[u64; ORDER.len() + 1]; 2],
    in_tables: [u64; IN_TABLES.len()],
    in_automata: [u64; IN_AUTOMATA.len()],
}

impl ReadBacks {
    pub fn add(&mut self, read: &ReadBack) {
        let [of_tables, of_automaton] = read.refused;
        for (counts, refusal) in self.refused.iter_mut().zip(read.refused) {
            if let Some(count) = counts.get_mut(refusal as usize) {
                *count += 1;
            }
        }
        if of_tables == 0 {
            count(&mut self.in_tables, &IN_TABLES, &read.tables);
        }
        if of_automaton == 0 {
            count(&mut self.in_automata, &IN_AUTOMATA, &read.automaton);
        }
    }

    pub fn asked(&self) -> Vec<(String, u64)> {
        let mut asked = Vec::new();
        for (by, counts, refusals) in [
            ("tables", &self.refused[0], refusals_of_tables()),
            ("automaton", &self.refused[1], refusals_of_automaton()),
        ] {
            let refused = |&refusal: &u32| {
                let name = format!("{by}: refused {refusal}");
                (name, counts[refusal as usize])
            };
            asked.extend(refusals.iter().map(refused));
        }
        asked.extend(named("tables", &IN_TABLES, &self.in_tables));
        asked.extend(named("automaton", &IN_AUTOMATA, &self.in_automata));
        asked
    }
}

/// Those before the refusals of a text.
fn refusals_of_tables() -> Vec<u32> {
    let all = ORDER.into_iter();
    all.take_while(|refusal| !OF_TEXT.contains(refusal))
        .collect()
}

fn refusals_of_automaton() -> Vec<u32> {
    [refusals_of_tables(), vec![MANY_STATES]].concat()
}

/// One more for each thing that occurs.
fn count<T>(counts: &mut [u64], things: &[(&str, fn(&T) -> bool)], read: &T) {
    for (count, (_, occurs)) in counts.iter_mut().zip(things) {
        *count += u64::from(occurs(read));
    }
}

fn named<'a, T>(
    by: &'a str,
    things: &'a [(&str, T)],
    counts: &'a [u64],
) -> impl Iterator<Item = (String, u64)> + 'a {
    let each = things.iter().zip(counts);
    each.map(move |((name, _), count)| (format!("{by}: {name}"), *count))
}

#[cfg(test)]
mod tests {
    use super::*;
    use crate::read_back::tests::by_hand;

    /// What is counted of these, without the things that never occurred.
    fn counted(reads: &[ReadBack]) -> Vec<(String, u64)> {
        let mut read_backs = ReadBacks::default();
        reads.iter().for_each(|read| read_backs.add(read));
        let mut counted = read_backs.asked();
        counted.retain(|(_, count)| *count > 0);
        counted
    }

    #[test]
    fn two_jobs_are_counted() {
        assert_eq!(counted(&[]), []);
        let due = [
            "tables: kind every",
            "tables: a job that ends",
            "tables: a job that stands",
            "tables: a quiet step",
            "tables: a step with an event",
            "tables: a call",
            "tables: an accept",
            "tables: calls, and other accepts",
            "tables: a channel with an event",
            "tables: a channel without",
            "tables: an item: the empty string",
            "tables: an item: a set",
            "tables: an item: sequence",
            "tables: an item: choice",
            "tables: a set of event 31",
            "automaton: the empty set as a state",
        ];
        let due = due.map(|name| (name.to_string(), 2));
        assert_eq!(counted(&[by_hand(), by_hand()]), due);
    }

    #[test]
    fn refusals_are_counted_without_what_was_lent() {
        let refused = |refused| ReadBack {
            refused,
            ..by_hand()
        };
        let reads = [refused([21, 21]), refused([15, 15]), refused([15, 15])];
        let due = [
            ("tables: refused 21", 1),
            ("tables: refused 15", 2),
            ("automaton: refused 21", 1),
            ("automaton: refused 15", 2),
        ];
        let due = due.map(|(name, count)| (name.to_string(), count));
        assert_eq!(counted(&reads), due);
    }

    #[test]
    fn every_refusal_is_asked_for() {
        let mut of_tables = refusals_of_tables();
        of_tables.sort();
        assert_eq!(
            of_tables,
            [1, 2, 3, 4, 5, 6, 7, 8, 9, 10, 11, 12, 13, 14, 15, 21]
        );
        assert_eq!(refusals_of_automaton()[of_tables.len()..], [16]);
    }
}

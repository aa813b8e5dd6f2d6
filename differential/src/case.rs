//! One case of a run: a plan, a text to judge it by, and what is lent with them, made from the seed and the number.

use crate::draft::{Draft, Item};
use crate::fault_in_bytes::{self, mangle, noise};
use crate::filled::filled;
use crate::layout::{alphabet, records, Records, NODES};
use crate::pattern::longest;
use crate::random::Random;
use crate::recess::recess;
use crate::refusals::{self, comes_after, ALL_STAND, SHORT_ROW};
use crate::sound::{any_scale, sound};
use crate::standing::server;
use crate::text::{self, Text};
use crate::{fault_in_items, fault_in_jobs};
use traceflow::Values;

pub struct Case {
    pub plan: Vec<u8>,
    /// As its bytes tell them.
    pub records: Records,
    /// The row before the plan is judged.
    pub row: Vec<u64>,
    /// The places for a verdict before.
    pub values: Values,
    /// The refusals whose faults were made on purpose.
    pub faults: Vec<u32>,
    /// The refusal that they must give under the plan's own pattern, where that is known.
    pub expected: Option<u32>,
    /// The plan's own items; none where its making does not tell.
    pub items: Vec<Item>,
    pub text: Text,
}

/// The case of this number in the run of this seed.
pub fn make(seed: u64, number: u64) -> Case {
    let random = &mut Random::for_plan(seed, number);
    let refusal = |random: &mut Random| random.pick(&refusals::own());
    match random.weighted(&[50, 22, 14, 10, 4]) {
        0 => {
            let draft = match random.weighted(&[2, 1, 397]) {
                0 => filled(random),
                1 => with_most_positions(random),
                _ => any_sound(random),
            };
            unfaulted(draft.encode(), &draft.items, random)
        }
        1 => {
            let fault = refusal(random);
            faulty(any_sound(random), &[fault], random)
        }
        2 => {
            let faults = [refusal(random), refusal(random)];
            faulty(any_sound(random), &faults, random)
        }
        3 => {
            let mut plan = any_sound(random).encode();
            mangle(&mut plan, random);
            unfaulted(plan, &[], random)
        }
        _ => unfaulted(noise(random), &[], random),
    }
}

/// A sound plan: with jobs, of any scale, with a memory server, or without jobs.
fn any_sound(random: &mut Random) -> Draft {
    match random.weighted(&[82, 8, 10]) {
        0 => sound(any_scale(random), random),
        1 => server(random),
        _ => recess(random),
    }
}

fn with_most_positions(random: &mut Random) -> Draft {
    let draft = any_sound(random);
    let items = longest(draft.alphabet, random);
    Draft { items, ..draft }
}

/// A plan without a fault made on purpose; its items as far as they are known.
fn unfaulted(plan: Vec<u8>, items: &[Item], random: &mut Random) -> Case {
    let length = row_length(&plan, random);
    case(plan, items, length, random)
}

/// A case of which no fault is known.
fn case(plan: Vec<u8>, items: &[Item], places: usize, random: &mut Random) -> Case {
    Case {
        row: (0..places).map(|_| random.bits()).collect(),
        values: [0; 7].map(|_: u64| random.bits()),
        text: text::make(alphabet(&plan), items, random),
        records: records(&plan),
        plan,
        faults: vec![],
        expected: None,
        items: items.to_vec(),
    }
}

/// The sound plan with these faults, as far as it allows them.
pub fn faulty(mut draft: Draft, faults: &[u32], random: &mut Random) -> Case {
    let short = faults.contains(&SHORT_ROW) && draft.nodes > 0;
    if short {
        draft.items = vec![Item::Empty];
    }
    let mut made = vec![];
    for &fault in faults {
        let in_jobs = fault_in_jobs::make(fault, &mut draft, random);
        if in_jobs || fault_in_items::make(fault, &mut draft, random) {
            made.push(fault);
        }
    }
    let whole = draft.encode();
    let mut plan = whole.clone();
    for &fault in faults {
        if fault_in_bytes::make(fault, &draft, &mut plan, random) {
            made.push(fault);
        }
    }
    let length = match draft.nodes as usize {
        nodes if short && nodes > 0 => {
            made.push(SHORT_ROW);
            random.index(nodes)
        }
        _ => row_length(&plan, random),
    };
    // Two faults in the bytes may make another pattern of them.
    let items = if plan == whole { &draft.items[..] } else { &[] };
    Case {
        expected: expected(faults, &made),
        faults: made,
        ..case(plan, items, length, random)
    }
}

/// The refusal that must be given: that of the one fault, or 21 before a fault that leaves the jobs' records as they are.
fn expected(faults: &[u32], made: &[u32]) -> Option<u32> {
    let later = |&fault: &u32| fault == ALL_STAND || comes_after(fault, ALL_STAND);
    match *faults {
        [fault] if made == [fault] => Some(fault),
        _ if made.contains(&ALL_STAND) && faults.iter().all(later) => Some(ALL_STAND),
        _ => None,
    }
}

/// A length of the row around the nodes that the head names, or any.
fn row_length(plan: &[u8], random: &mut Random) -> usize {
    let nodes = NODES.read(plan) as usize;
    match random.weighted(&[1, 1, 8, 4, 4, 2, 2, 1]) {
        0 => 0,
        1 => nodes.saturating_sub(1),
        2 => nodes,
        3 => nodes + 1,
        4 => nodes + 2 + random.index(8),
        5 => 256,
        6 => 257 + random.index(300),
        _ => random.index(300),
    }
}

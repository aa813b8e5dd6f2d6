//! Plans in which every node holds every one of 64 states: 16,384 pairs, the most that there can be.

use crate::draft::{Arc, Draft, Item, Job};
use crate::random::Random;
use crate::standing::stand_some;

const NODES: u32 = 256;

/// Jobs of one size, a quiet step from each node to the next, and an event of the alphabet that comes again and again at some entries.
pub fn filled(random: &mut Random) -> Draft {
    let event = random.within(1..=31);
    let count = random.pick(&[1, 2, 4, 8, 16]);
    let size = NODES / count;
    let mut jobs: Vec<Job> = (0..count)
        .map(|job| Job {
            size,
            entry: job * size,
            exit: (job + 1) * size - 1,
            standing: false,
        })
        .collect();
    let quiet = jobs.iter().flat_map(|job| job.entry..job.exit);
    let mut steps: Vec<Arc> = quiet.map(|node| step(node, node + 1, 0)).collect();
    let moved = random.within(1..=count);
    steps.extend(
        jobs.iter()
            .take(moved as usize)
            .map(|job| step(job.entry, job.entry, event)),
    );
    random.shuffle(&mut steps);
    stand_some(&mut jobs, random);
    Draft {
        nodes: NODES,
        kind: random.within(0..=1),
        alphabet: 1 << event,
        jobs,
        steps,
        channels: vec![],
        calls: vec![],
        accepts: vec![],
        items: [cycle(event, 7), cycle(event, 9), vec![Item::Choice]].concat(),
    }
}

fn step(from: u32, to: u32, label: u32) -> Arc {
    Arc { from, to, label }
}

/// So many times the event, again and again. Cycles of 7 and of 9 side by side have 63 states and the beginning.
fn cycle(event: u32, length: u32) -> Vec<Item> {
    let mut items = vec![Item::Events(1 << event)];
    for _ in 1..length {
        items.extend([Item::Events(1 << event), Item::Sequence]);
    }
    items.push(Item::Star);
    items
}

#[cfg(test)]
mod tests {
    use super::*;
    use crate::runs::least::{least, HELD};
    use reference::{Automaton, Plan};

    #[test]
    fn every_node_holds_every_state() {
        for number in 0..40 {
            let draft = filled(&mut Random::for_plan(7, number));
            let plan = Plan::read(&draft.encode()).unwrap();
            let automaton = Automaton::of(&plan).unwrap();
            let sets = least(&plan, &automaton, HELD);
            assert_eq!(sets, [u64::MAX; NODES as usize], "plan {number}");
        }
    }
}

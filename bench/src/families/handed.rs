//! Plans in which states are handed on by ordering edges one after the other, and moves wait for them. All are under a pattern of 64
//! states, of which events 1 move 60 round; two events 2 come before.

use super::{sized, Family};
use crate::patterns::{cycles, only};
use differential::builder::Builder;
use differential::draft::Draft;

const QUIET: u32 = 0;
const MOVES: u32 = 1;
const BEGINS: u32 = 2;

pub fn families() -> [Family; 4] {
    [
        sized("waiting", "chain", &[4, 9, 18, 36, 73], waiting),
        sized("backward, 1 channel", "loop", &LOOPS, |nodes| {
            backward(nodes, 1)
        }),
        sized("backward, 64 channels", "loop", &LOOPS, |nodes| {
            backward(nodes, 64)
        }),
        sized("rows", "rows", &[1, 2, 4, 8, 13], rows),
    ]
}

fn plan() -> Builder {
    Builder::new(only(MOVES) | only(BEGINS), cycles(2, 5, 12))
}

/// A job that begins by both events 2, which ordering edges hand on, and leads to the third of its nodes.
fn beginning(plan: &mut Builder, size: u32) -> u32 {
    let first = plan.job(size, 0, size - 1);
    plan.step(first + 1, first + 2, BEGINS);
    plan.step(first, first + 1, BEGINS);
    first
}

/// A guide gives three walkers their turns: it meets one at the head of its chain, and again at the tail, which moves the state and
/// brings the walker back to its head. Ordering edges alone hand that state to the walker who is next, and to partners whom each
/// second link of a chain has to meet. Chains are listed from their tails back; the longest has 73 nodes.
fn waiting(chain: u32) -> Draft {
    let (walkers, partners) = (3, 12);
    let mut plan = plan();
    let guide = beginning(&mut plan, 3 + walkers);
    let turns = guide + 2;
    plan.step(turns, turns + walkers, QUIET);
    let partner_channels: Vec<u32> = (0..partners)
        .map(|_| {
            let partner = plan.job(2, 0, 1);
            let channel = plan.channel(QUIET);
            plan.call(partner, partner, channel);
            plan.step(partner, partner + 1, QUIET);
            channel
        })
        .collect();
    for turn in 0..walkers {
        let (here, next) = (turns + turn, turns + (turn + 1) % walkers);
        let [enter, leave] = [plan.channel(QUIET), plan.channel(MOVES)];
        plan.call(here, here, enter);
        plan.call(here, next, leave);
        let head = plan.job(chain + 2, 0, chain + 1);
        plan.accept(head + chain, head, leave);
        for link in (1..chain).rev() {
            let (from, to) = (head + link, head + link + 1);
            match link % 2 {
                0 => plan.accept(from, to, partner_channels[(link / 2 % partners) as usize]),
                _ => plan.step(from, to, QUIET),
            }
        }
        plan.accept(head, head + 1, enter);
        plan.step(head, head + chain + 1, QUIET);
    }
    plan.draft()
}

/// Lengths that have no divisor in common with 60, so that each node comes to hold each of the 60 states.
const LOOPS: [u32; 5] = [7, 17, 31, 61, 119];

/// Two jobs that go round together by meetings, each of which moves the state, listed from the last back to the first. A state comes
/// back to the head moved by the length of the loop. Thirteen jobs of one node are handed the states. The longest loop has 119 nodes.
fn backward(nodes: u32, channels: u32) -> Draft {
    let mut plan = plan();
    beginning(&mut plan, 3);
    let channels: Vec<u32> = (0..channels).map(|_| plan.channel(MOVES)).collect();
    let [caller, accepter] = [(); 2].map(|()| plan.job(nodes + 1, 0, nodes));
    for link in (0..nodes).rev() {
        let channel = channels[link as usize % channels.len()];
        let next = (link + 1) % nodes;
        plan.call(caller + link, caller + next, channel);
        plan.accept(accepter + link, accepter + next, channel);
    }
    for first in [caller, accepter] {
        plan.step(first, first + nodes, QUIET);
    }
    for _ in 0..13 {
        plan.job(1, 0, 0);
    }
    plan.draft()
}

/// A job that goes round in two halves of quiet steps, each with a step that moves the state behind it, so that odd states come to one
/// half and even states to the other. Rows of 14 nodes and an exit wait for it, in each row four times and for the other half each
/// time: an ordering edge has to bring the next state first. A row is entered by a meeting with the end of the row before. All steps
/// are listed from their ends back; there are at most 13 rows.
fn rows(rows: u32) -> Draft {
    let (half, nodes) = (2 * rows + 2, 14);
    let mut plan = plan();
    let round = beginning(&mut plan, 2 * half + 3) + 2;
    plan.step(round, round + 2 * half, QUIET);
    for link in (0..2 * half).rev() {
        let event = if (link + 1) % half == 0 { MOVES } else { QUIET };
        plan.step(round + link, round + (link + 1) % (2 * half), event);
    }
    let halves = [half, 2 * half].map(|end| {
        let channel = plan.channel(QUIET);
        plan.call(round + end - 1, round + end - 1, channel);
        channel
    });
    let firsts: Vec<u32> = (0..rows).map(|_| plan.job(nodes + 1, 0, nodes)).collect();
    let mut waits = 0;
    for (row, &first) in firsts.iter().enumerate() {
        let last = first + nodes - 1;
        plan.step(last, last + 1, QUIET);
        if row > 0 {
            let channel = plan.channel(QUIET);
            plan.call(first - 2, first - 2, channel);
            plan.accept(first, first + 1, channel);
        } else {
            plan.step(first, first + 1, QUIET);
        }
        for link in (1..nodes - 1).rev() {
            let (from, to) = (first + link, first + link + 1);
            match link % 3 {
                1 => {
                    plan.accept(from, to, halves[(waits + 1) % 2]);
                    waits += 1;
                }
                _ => plan.step(from, to, QUIET),
            }
        }
    }
    plan.draft()
}

#[cfg(test)]
mod tests {
    use super::*;

    #[test]
    fn the_last_of_each_is_near_the_largest() {
        for family in families() {
            for member in &family.members {
                let plan = reference::Plan::read(&member.plan).unwrap();
                let automaton = reference::Automaton::of(&plan).unwrap();
                assert_eq!(automaton.states(), 64);
                let last = member.size == family.members[4].size;
                assert!(
                    !last || plan.nodes >= 254,
                    "{}: {}",
                    family.name,
                    plan.nodes
                );
            }
        }
    }
}

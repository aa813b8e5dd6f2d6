//! Jobs in a chain, in a ring, around one accepter, all with all, and looping side by side.

use crate::patterns::{only, sequence, star, then};
use differential::builder::Builder;
use differential::draft::{Draft, Item};

/// One job of so many nodes in a row, an even number, with events 1 and 2 in turn.
pub fn chain(nodes: u32) -> Draft {
    let turns = star(sequence(&[only(1), only(2)]));
    let mut plan = Builder::new(only(1) | only(2), then(turns, sequence(&[only(1)])));
    plan.job(nodes, 0, nodes - 1);
    for node in 1..nodes {
        plan.step(node - 1, node, 2 - node % 2);
    }
    plan.draft()
}

/// Jobs that hand a turn on to the next by a meeting. Each waits, works in loops of its own and hands on; the first begins
/// with the turn.
pub fn ring(jobs: u32) -> Draft {
    let [work, rest, pass] = [1, 2, 3];
    let working = then(
        sequence(&[only(work)]),
        star(sequence(&[only(work) | only(rest)])),
    );
    let pattern = star(then(working, sequence(&[only(pass)])));
    let mut plan = Builder::new(only(work) | only(rest) | only(pass), pattern);
    for job in 0..jobs {
        // waiting 0, begun 1, working 2 to 5, ready 6, ended 7
        let first = plan.job(8, u32::from(job == 0), 7);
        let here = plan.channel(pass);
        plan.accept(first, first + 1, here);
        for node in 1..6 {
            plan.step(first + node, first + node + 1, work);
        }
        plan.step(first + 5, first + 2, rest);
        plan.step(first + 4, first + 4, work);
        plan.step(first, first + 7, 0);
        plan.call(first + 6, first, (here + 1) % jobs);
    }
    plan.draft()
}

/// Callers with 8 calls each in a loop, and one accepter with 8 accepts, all on one channel.
pub fn star_of(callers: u32) -> Draft {
    let [told, begun] = [1, 2];
    let pattern = then(
        star(sequence(&[only(told) | only(begun)])),
        sequence(&[only(told), only(told), only(told) | only(begun)]),
    );
    let mut plan = Builder::new(only(told) | only(begun), pattern);
    let channel = plan.channel(told);
    let accepter = plan.job(9, 0, 8);
    for node in 0..8 {
        plan.accept(accepter + node, accepter + (node + 1) % 8, channel);
    }
    plan.step(accepter, accepter + 8, 0);
    for _ in 0..callers {
        let first = plan.job(9, 0, 8);
        for node in 0..8 {
            plan.call(first + node, first + (node + 1) % 8, channel);
        }
        plan.step(first + 3, first, begun);
        plan.step(first, first + 8, 0);
    }
    plan.draft()
}

/// Jobs that each have 8 calls and 8 accepts on the same two channels: with 16 jobs, 7,680 meetings.
pub fn all_to_all(jobs: u32) -> Draft {
    let pattern = then(
        star(sequence(&[only(1) | only(2)])),
        sequence(&[only(1), only(1) | only(2), only(1) | only(2)]),
    );
    let mut plan = Builder::new(only(1) | only(2), pattern);
    let channels = [plan.channel(1), plan.channel(2)];
    for _ in 0..jobs {
        let first = plan.job(9, 0, 8);
        for node in 0..8 {
            let channel = channels[node as usize % 2];
            plan.call(first + node, first + (node + 1) % 8, channel);
            plan.accept(first + node, first + (node + 3) % 8, channel);
        }
        plan.step(first, first + 8, 0);
    }
    plan.draft()
}

/// Six jobs that give events 1 and 2 in loops, and two that meet, under a pattern over these events.
pub fn looping(pattern: Vec<Item>) -> Draft {
    let mut plan = Builder::new(only(1) | only(2), pattern);
    let channel = plan.channel(1);
    for job in 0..6 {
        let first = plan.job(10, 0, 9);
        for node in 0..8 {
            plan.step(first + node, first + node + 1, 1 + (node + job) % 2);
        }
        plan.step(first + 8, first, 1);
        plan.step(first + 4, first + 1, 2);
        plan.step(first + 8, first + 9, 0);
        match job {
            0 => plan.call(first + 2, first + 6, channel),
            1 => plan.accept(first + 3, first + 5, channel),
            _ => {}
        }
    }
    plan.draft()
}

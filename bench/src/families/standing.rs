//! Plans with standing jobs: one that all others use, and many that one uses.

use super::{sized, Family};
use crate::patterns::{cycles, only, or, sequence, star, then};
use differential::builder::Builder;
use differential::draft::{Draft, Item};

const QUIET: u32 = 0;

pub fn families() -> [Family; 2] {
    [
        sized("memory", "users", &[1, 3, 7, 13, 15], memory),
        sized("servers", "servers", &[1, 3, 7, 15], servers),
    ]
}

/// A memory server, which stands, and so many users that read and write in turn, again and again, and end. The users call for the
/// beginning and for the end of each read and write. One that is under way may be the last.
fn memory(users: u32) -> Draft {
    let [reading, read, writing, written] = [1, 2, 3, 4];
    let turn = or(
        sequence(&[only(reading), only(read)]),
        sequence(&[only(writing), only(written)]),
    );
    let under_way = or(
        sequence(&[only(reading) | only(writing)]),
        vec![Item::Empty],
    );
    let events = only(reading) | only(read) | only(writing) | only(written);
    let mut plan = Builder::new(events, then(star(turn), under_way));
    let channels = [reading, read, writing, written].map(|event| plan.channel(event));
    let idle = plan.standing(3);
    let [at_read, at_write] = [idle + 1, idle + 2];
    let moves = [
        (idle, at_read),
        (at_read, idle),
        (idle, at_write),
        (at_write, idle),
    ];
    for ((from, to), channel) in moves.into_iter().zip(channels) {
        plan.accept(from, to, channel);
    }
    for _ in 0..users {
        let first = plan.job(5, 0, 4);
        for (node, channel) in (0..4).zip(channels) {
            plan.call(first + node, first + (node + 1) % 4, channel);
        }
        plan.step(first, first + 4, QUIET);
    }
    plan.draft()
}

/// So many servers, which stand, each a ring of quiet steps that is entered by a meeting and left by a watched step, and one job that calls
/// each in turn, again and again, and ends. The pattern has 64 states; two events 2 come first.
fn servers(servers: u32) -> Draft {
    let [moves, begins] = [1, 2];
    let nodes = 15;
    let mut plan = Builder::new(only(moves) | only(begins), cycles(2, 5, 12));
    let caller = plan.job(servers + 3, 0, servers + 2);
    let turns = caller + 2;
    plan.step(caller, caller + 1, begins);
    plan.step(caller + 1, turns, begins);
    plan.step(turns, turns + servers, QUIET);
    for server in 0..servers {
        let channel = plan.channel(moves);
        plan.call(turns + server, turns + (server + 1) % servers, channel);
        let idle = plan.standing(nodes);
        plan.accept(idle, idle + 1, channel);
        for node in 1..nodes - 1 {
            plan.step(idle + node, idle + node + 1, QUIET);
        }
        plan.step(idle + nodes - 1, idle, moves);
    }
    plan.draft()
}

#[cfg(test)]
mod tests {
    use super::*;
    use reference::{judge, Answer, Plan};

    #[test]
    fn all_are_judged_and_some_jobs_stand() {
        for (family, due) in families().iter().zip([1, 15]) {
            for member in &family.members {
                let answer = judge(&member.plan, &mut [0; 256]);
                assert!(!matches!(answer, Answer::Refused(_)), "{answer:?}");
            }
            let last = family.members.last().unwrap();
            let plan = Plan::read(&last.plan).unwrap();
            let standing = plan.jobs.iter().filter(|job| job.standing);
            assert_eq!((plan.jobs.len(), standing.count()), (16, due));
        }
    }
}

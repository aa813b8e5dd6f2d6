//! Standing jobs: which jobs of a plan stand, and sound plans of a memory server, which stands, with the jobs that use it.

use crate::builder::Builder;
use crate::draft::{Draft, Item, Job};
use crate::pattern::pattern;
use crate::random::Random;

/// Makes jobs stand in any places: none of them, one, several or all but one.
pub fn stand_some(jobs: &mut [Job], random: &mut Random) {
    let most = jobs.len().saturating_sub(1);
    let several = 1 + random.index(most.max(1));
    let count = random.pick(&[0, 0, 0, 1, several, most]).min(most);
    let mut jobs: Vec<&mut Job> = jobs.iter_mut().collect();
    random.shuffle(&mut jobs);
    for job in &mut jobs[..count] {
        job.stand();
    }
}

/// A memory server with some services, under a pattern of turns or any other.
pub fn server(random: &mut Random) -> Draft {
    let services = random.within(1..=4);
    let most_users = random.pick(&[2, 5, 15]);
    let users = random.within(1..=most_users);
    let items = match random.one_in(4) {
        true => pattern(alphabet(services), 1 + random.index(12), random),
        false => turns(services, random),
    };
    server_of(services, users, items, random)
}

/// A memory server of so many services, in any place among its users.
pub fn server_of(services: u32, users: u32, items: Vec<Item>, random: &mut Random) -> Draft {
    let mut plan = Builder::new(alphabet(services), items);
    for channel in 0..2 * services {
        plan.channel(event(channel));
    }
    let ended_by_users = random.one_in(2);
    let place = random.within(0..=users);
    for job in 0..=users {
        if job == place {
            memory(&mut plan, services, ended_by_users);
        } else {
            user(&mut plan, services, ended_by_users, random);
        }
    }
    Draft {
        kind: random.within(0..=1),
        ..plan.draft()
    }
}

/// The channels of a service: that of its beginning and that of its end.
fn channels_of(service: u32) -> [u32; 2] {
    [2 * service, 2 * service + 1]
}

fn event(channel: u32) -> u32 {
    channel + 1
}

/// The set of the channel's event alone.
fn only(channel: u32) -> u32 {
    1 << event(channel)
}

/// The events of so many services.
fn alphabet(services: u32) -> u32 {
    (0..2 * services).fold(0, |all, channel| all | only(channel))
}

/// The server idles at its entry, and is at work on each service at a node of its own, until the user calls again or by a step of
/// its own.
fn memory(plan: &mut Builder, services: u32, ended_by_users: bool) {
    let idle = plan.standing(1 + services);
    for service in 0..services {
        let at_work = idle + 1 + service;
        let [begins, ends] = channels_of(service);
        plan.accept(idle, at_work, begins);
        match ended_by_users {
            true => plan.accept(at_work, idle, ends),
            false => plan.step(at_work, idle, event(ends)),
        }
    }
}

/// A user calls for some services one after the other, now and then again and again.
fn user(plan: &mut Builder, services: u32, ends_them: bool, random: &mut Random) {
    let uses = random.within(1..=3);
    let calls = if ends_them { 2 } else { 1 };
    let exit = calls * uses;
    let first = plan.job(exit + 1, 0, exit);
    for from in (first..first + exit).step_by(calls as usize) {
        let channels = channels_of(random.below(services));
        for (node, channel) in (from..from + calls).zip(channels) {
            plan.call(node, node + 1, channel);
        }
    }
    if random.one_in(3) {
        plan.step(first + exit - 1, first, 0);
    }
}

/// Each service ends before the next one begins; the last has ended, is under way or may be.
pub fn turns(services: u32, random: &mut Random) -> Vec<Item> {
    let mut ended = of_one(services, |[begins, ends]| {
        vec![begins, ends, Item::Sequence]
    });
    ended.push(Item::Star);
    let under_way = of_one(services, |[begins, _]| vec![begins]);
    let joint = match random.below(3) {
        0 => return ended,
        1 => vec![Item::Sequence],
        _ => vec![Item::Empty, Item::Choice, Item::Sequence],
    };
    [ended, under_way, joint].concat()
}

/// A choice of what is made of each service's events.
fn of_one(services: u32, made: fn([Item; 2]) -> Vec<Item>) -> Vec<Item> {
    let mut choice = vec![];
    for service in 0..services {
        let events = channels_of(service).map(|channel| Item::Events(only(channel)));
        choice.extend(made(events));
        if service > 0 {
            choice.push(Item::Choice);
        }
    }
    choice
}

/// A memory server of one service, which ends by a step of its own, and a user who calls once. A complete run gives event 1, or event 2
/// after it where the server has gone on.
fn called_once(kind: u32, items: Vec<Item>) -> Draft {
    let mut plan = Builder::new(alphabet(1), items);
    plan.channel(event(0));
    memory(&mut plan, 1, false);
    let user = plan.job(2, 0, 1);
    plan.call(user, user + 1, 0);
    Draft {
        kind,
        ..plan.draft()
    }
}

/// Plans with known answers. Under event 1 and then 2 some runs are wrong for either kind, under event 1 and then 2 or nothing all suit
/// kind every, and under event 2 alone all suit kind none. In the last two the user stands too, and the server's exit is the
/// node where it is at work.
pub fn known() -> [Draft; 6] {
    let [begins, ends] = [0, 1].map(|channel| Item::Events(only(channel)));
    let both = vec![begins.clone(), ends.clone(), Item::Sequence];
    let or_nothing = [ends.clone(), Item::Empty, Item::Choice];
    let begun = [&[begins], &or_nothing[..], &[Item::Sequence]].concat();
    let mut all_stand = called_once(0, begun.clone());
    all_stand.jobs.iter_mut().for_each(Job::stand);
    let mut exit_differs = called_once(0, begun.clone());
    exit_differs.jobs[0].exit += 1;
    [
        called_once(0, both.clone()),
        called_once(1, both),
        called_once(0, begun),
        called_once(1, vec![ends]),
        all_stand,
        exit_differs,
    ]
}

#[cfg(test)]
mod tests {
    use super::*;
    use crate::case::faulty;
    use crate::refusals::{comes_after, own, ALL_STAND};
    use reference::{judge, Answer, Counts};

    #[test]
    fn the_known_answers() {
        let counts = |states, pairs, fill, final_set| Counts {
            states,
            meetings: 1,
            ordering: 2,
            pairs,
            fill,
            final_set,
        };
        let due = [
            Answer::Inconclusive(counts(4, 6, 38, 0b1010)),
            Answer::Inconclusive(counts(4, 6, 38, 0b1010)),
            Answer::Verified(counts(4, 6, 38, 0b1010)),
            Answer::Verified(counts(3, 5, 42, 0b10)),
            Answer::Refused(21),
            Answer::Refused(6),
        ];
        assert_eq!(
            known().map(|draft| judge(&draft.encode(), &mut [0; 4])),
            due
        );
    }

    #[test]
    fn a_server_is_sound() {
        for number in 0..2_000 {
            let plan = server(&mut Random::for_plan(7, number)).encode();
            let answer = judge(&plan, &mut [0; 256]);
            assert!(
                matches!(
                    answer,
                    Answer::Refused(16) | Answer::Verified(_) | Answer::Inconclusive(_)
                ),
                "plan {number}: {answer:?}"
            );
        }
    }

    /// The server with these faults is refused by this number if they can be made, and they can in some.
    fn refused_by(number: u32, faults: &[u32]) {
        let random = &mut Random::new(7);
        let mut made = 0;
        for _ in 0..200 {
            let case = faulty(server(random), faults, random);
            if case.expected.is_some() {
                let answer = judge(&case.plan, &mut case.row.clone());
                assert_eq!(
                    (case.expected, answer),
                    (Some(number), Answer::Refused(number))
                );
                made += 1;
            }
        }
        assert!(made > 100, "{faults:?}: {made} made");
    }

    #[test]
    fn a_fault_made_on_purpose_is_answered_by_its_refusal() {
        for fault in own() {
            refused_by(fault, &[fault]);
        }
    }

    #[test]
    fn jobs_that_all_stand_come_before_later_faults() {
        for fault in own() {
            if comes_after(fault, ALL_STAND) {
                refused_by(ALL_STAND, &[fault, ALL_STAND]);
                refused_by(ALL_STAND, &[ALL_STAND, fault]);
            }
        }
    }
}

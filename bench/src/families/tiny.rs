//! Small plans, the common case, and plans that are turned down.

use super::{member, Family};
use crate::patterns::{looking_back, only, sequence};
use differential::builder::Builder;
use differential::draft::Draft;

pub fn family() -> Family {
    let mut short = member("refused 1", &one_step(0, 1));
    short.plan.truncate(10);
    Family {
        name: "tiny",
        grows: None,
        members: vec![
            short,
            member("refused 21", &all_stand()),
            member("refused 8", &one_step(1, 0)),
            member("refused 16", &one_step_under_many_states()),
            member("no jobs", &no_jobs()),
            member("one step", &one_step(0, 1)),
            member("two jobs", &two_jobs()),
        ],
    }
}

/// A recess day: no job under the pattern event 1.
fn no_jobs() -> Draft {
    Builder::new(only(1), sequence(&[only(1)])).draft()
}

/// One job, 0 to 1 by event 1 under the pattern event 1: the smallest plan of use.
fn one_step(from: u32, to: u32) -> Draft {
    let mut plan = Builder::new(only(1), sequence(&[only(1)]));
    plan.job(2, 0, 1);
    plan.step(from, to, 1);
    plan.draft()
}

/// One job that stands, and no other.
fn all_stand() -> Draft {
    let mut plan = Builder::new(only(1), sequence(&[only(1)]));
    let first = plan.standing(2);
    plan.step(first, first + 1, 1);
    plan.draft()
}

/// The pattern has 65 states.
fn one_step_under_many_states() -> Draft {
    let mut plan = Builder::new(only(1) | only(2), looking_back(5));
    plan.job(2, 0, 1);
    plan.step(0, 1, 1);
    plan.draft()
}

/// A step, a meeting and a step that should come in this order.
pub fn two_jobs() -> Draft {
    let pattern = sequence(&[only(1), only(2), only(3)]);
    let mut plan = Builder::new(only(1) | only(2) | only(3), pattern);
    plan.job(3, 0, 2);
    plan.job(3, 0, 2);
    let channel = plan.channel(2);
    plan.step(0, 1, 1);
    plan.call(1, 2, channel);
    plan.accept(3, 4, channel);
    plan.step(4, 5, 3);
    plan.draft()
}

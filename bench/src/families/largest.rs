//! The largest legal plans: 256 nodes in 16 jobs, 256 steps, 128 calls, 128 accepts, 64 items and 64 states.

use super::{member, Family};
use crate::patterns::{cycles, padded};
use differential::builder::Builder;
use differential::draft::Draft;

const ALL_EVENTS: u32 = !1;

pub fn family() -> Family {
    Family {
        name: "largest",
        grows: None,
        members: vec![
            member("busy, 1 channel", &busy(1)),
            member("busy, 2 channels", &busy(2)),
            member("busy, 64 channels", &busy(64)),
            member("slow, 2 channels", &slow_over(226, 2)),
            member("slow, 64 channels", &slow_over(226, 64)),
        ],
    }
}

/// A plan under a pattern of 64 states, all 31 events watched: 1 and 2 move the states round, all others lead to the empty
/// set of positions. So many channels, the first two with events 1 and 2, the rest with others.
fn with_channels(channels: u32) -> Builder {
    let mut plan = Builder::new(ALL_EVENTS, padded(cycles(2, 5, 12)));
    for channel in 0..channels {
        plan.channel(match channel {
            0 | 1 => 1 + channel,
            _ => astray(channel),
        });
    }
    plan
}

/// An event that the pattern does not have.
fn astray(number: u32) -> u32 {
    3 + number % 29
}

/// 16 jobs of 16 nodes, each a loop, all calling and accepting on so many channels.
fn busy(channels: u32) -> Draft {
    let mut plan = with_channels(channels);
    for job in 0..16 {
        let first = plan.job(16, 0, 15);
        for node in 0..15 {
            let event = match node % 3 {
                0 => 2,
                1 => 1,
                _ => astray(node + job),
            };
            plan.step(first + node, first + (node + 1) % 15, event);
        }
        plan.step(first, first + 15, 0);
        for link in 0..8 {
            let channel = (8 * job + link) % channels;
            plan.call(first + 2 * link, first + link, channel);
            plan.accept(first + link, first + 14 - link, channel);
        }
    }
    plan.draft()
}

/// Sets that fill by one state of one node at a time, over 64 channels.
pub fn slow(nodes: u32) -> Draft {
    slow_over(nodes, 64)
}

/// A chain of quiet steps to the exit, listed from there back. Its last node but the exit hands the states, moved, to its first
/// by meetings with a caller that holds them all. Every other meeting, and every other step, is of 15 small jobs among themselves
/// and leads to the empty set of positions. The largest chain has 226 nodes.
fn slow_over(nodes: u32, channels: u32) -> Draft {
    let mut plan = with_channels(channels);
    let small: Vec<u32> = (0..15).map(|_| plan.job(2, 0, 1)).collect();
    let chain = plan.job(nodes, 0, nodes - 1);
    for node in (1..nodes).rev() {
        plan.step(chain + node - 1, chain + node, 0);
    }
    for number in 0..31 {
        let at = small[7 * number % 15];
        plan.step(at, at, astray(number as u32));
    }
    for link in 0..128 {
        let channel = link % channels;
        if channel < 2 {
            plan.call(small[0], small[0], channel);
            plan.accept(chain + nodes - 2, chain, channel);
        } else {
            let caller = 7 * channel as usize % 15;
            let accepter = (caller + 1 + channel as usize % 14) % 15;
            plan.call(small[caller], small[caller], channel);
            plan.accept(small[accepter], small[accepter], channel);
        }
    }
    plan.draft()
}

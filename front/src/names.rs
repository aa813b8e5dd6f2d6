//! The names of what has a number in the bytes of a plan.
use crate::model::Model;
use std::borrow::Cow;

/// The names of a plan, its jobs, nodes, events and channels.
#[derive(Clone, Debug, PartialEq, Eq)]
pub struct Names {
    pub plan: String,
    pub jobs: Vec<String>,
    /// By number in the plan, through the jobs in turn.
    pub nodes: Vec<String>,
    /// Event e has the name `events[e - 1]`.
    pub events: Vec<String>,
    pub channels: Vec<String>,
}

impl Names {
    /// The names that a plan in words gives.
    pub fn of(model: &Model) -> Names {
        let nodes = model.jobs.iter().flat_map(|job| job.nodes.clone());
        let channels = model.channels.iter().map(|channel| channel.name.clone());
        Names {
            plan: model.name.clone(),
            jobs: model.jobs.iter().map(|job| job.name.clone()).collect(),
            nodes: nodes.collect(),
            events: model.events.clone(),
            channels: channels.collect(),
        }
    }

    /// No names at all: everything then has a name made from its number.
    pub fn made() -> Names {
        Names {
            plan: "unpacked".to_string(),
            jobs: Vec::new(),
            nodes: Vec::new(),
            events: Vec::new(),
            channels: Vec::new(),
        }
    }

    pub fn job(&self, job: usize) -> Cow<'_, str> {
        named(&self.jobs, job, "job-", job)
    }

    pub fn node(&self, node: usize) -> Cow<'_, str> {
        named(&self.nodes, node, "n", node)
    }

    /// The name of an event, which counts from 1. Event 0, which is none, has a made name.
    pub fn event(&self, event: usize) -> Cow<'_, str> {
        named(&self.events, event.wrapping_sub(1), "e", event)
    }

    pub fn channel(&self, channel: usize) -> Cow<'_, str> {
        named(&self.channels, channel, "c", channel)
    }

    /// The names of the events of a set, in which event e has weight 2^e, in ascending order.
    pub fn events_of(&self, set: u32) -> Vec<Cow<'_, str>> {
        events_in(set).map(|event| self.event(event)).collect()
    }
}

/// The events of a set, in which event e has weight 2^e, in ascending order.
pub fn events_in(set: u32) -> impl Iterator<Item = usize> {
    (1..32).filter(move |event| set >> event & 1 == 1)
}

/// The name at a place of a list; where there is none, one made of a letter or word and a number.
fn named<'a>(names: &'a [String], place: usize, made: &str, number: usize) -> Cow<'a, str> {
    match names.get(place) {
        Some(name) => Cow::Borrowed(name),
        None => Cow::Owned(format!("{made}{number}")),
    }
}

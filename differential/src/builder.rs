//! A plan put together job by job.

use crate::draft::{Arc, Draft, Item, Job};

pub struct Builder {
    draft: Draft,
}

impl Builder {
    /// A plan of kind every. In a set of events, event e has weight 2^e.
    pub fn new(alphabet: u32, items: Vec<Item>) -> Self {
        Builder {
            draft: Draft {
                nodes: 0,
                kind: 0,
                alphabet,
                jobs: vec![],
                steps: vec![],
                channels: vec![],
                calls: vec![],
                accepts: vec![],
                items,
            },
        }
    }

    /// A job whose entry and exit are counted from its first node; the answer is that first node.
    pub fn job(&mut self, size: u32, entry: u32, exit: u32) -> u32 {
        let first = self.draft.nodes;
        self.draft.jobs.push(Job {
            size,
            entry: first + entry,
            exit: first + exit,
            standing: false,
        });
        self.draft.nodes += size;
        first
    }

    /// A standing job that begins at its first node, which is the answer.
    pub fn standing(&mut self, size: u32) -> u32 {
        let first = self.job(size, 0, 0);
        self.draft.jobs.last_mut().expect("a job was added").stand();
        first
    }

    pub fn step(&mut self, from: u32, to: u32, event: u32) {
        let label = event;
        self.draft.steps.push(Arc { from, to, label });
    }

    pub fn channel(&mut self, event: u32) -> u32 {
        self.draft.channels.push(event);
        self.draft.channels.len() as u32 - 1
    }

    pub fn call(&mut self, from: u32, to: u32, channel: u32) {
        let label = channel;
        self.draft.calls.push(Arc { from, to, label });
    }

    pub fn accept(&mut self, from: u32, to: u32, channel: u32) {
        let label = channel;
        self.draft.accepts.push(Arc { from, to, label });
    }

    pub fn draft(self) -> Draft {
        self.draft
    }
}

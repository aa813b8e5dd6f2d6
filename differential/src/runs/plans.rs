//! Small sound plans: a run is laid out first, its moves become the plan, and a few more arcs are strewn in; or there is a memory server
//! with some users. Each has a second pattern, spelled as a text.

use crate::draft::{Arc, Draft, Item, Job};
use crate::random::Random;
use crate::spelling;
use crate::standing::{server_of, stand_some, turns};

pub struct Small {
    pub draft: Draft,
    /// The items of the text.
    pub typed: Vec<Item>,
    pub text: Vec<u8>,
}

/// One in so many plans has a memory server.
const SERVER: u32 = 20;
/// One in so many of the others has no jobs.
const RECESS: u32 = 11;
/// Items of a pattern at most.
const ITEMS: u32 = 9;
/// Events are 0 to this one.
const LAST_EVENT: u32 = 3;

/// A plan in the making, and the run that is laid out for it.
struct Sketch<'a> {
    random: &'a mut Random,
    draft: Draft,
    /// The first node of each job.
    first: Vec<u32>,
    /// The node of each job in the run.
    at: Vec<u32>,
    /// The run's string.
    string: Vec<u32>,
}

/// A plan of either sort.
pub fn small_plan(random: &mut Random) -> Option<Small> {
    let (draft, typed) = match random.one_in(SERVER) {
        true => served(random),
        false => sketched(random),
    };
    let choice = spelling::typed(&typed, draft.alphabet, random)?;
    let wordy = random.one_in(2);
    let text = spelling::text(&choice, wordy, random)?;
    Some(Small { draft, typed, text })
}

/// A plan of a memory server, and the items of the text.
fn served(random: &mut Random) -> (Draft, Vec<Item>) {
    let (services, users) = (random.within(1..=2), random.within(1..=3));
    let [own, typed] = [(); 2].map(|()| turns(services, random));
    (server_of(services, users, own, random), typed)
}

/// A plan of 1 to 4 jobs with 1 to 4 nodes each, mostly one that has a complete run, after which standing jobs may go on; or one without
/// jobs. With it the items of the text.
fn sketched(random: &mut Random) -> (Draft, Vec<Item>) {
    let mut sketch = Sketch::with_jobs(random);
    for _ in 0..sketch.random.below(8) {
        sketch.walk();
    }
    if !sketch.random.one_in(8) {
        sketch.end_all();
        for _ in 0..sketch.random.below(3) {
            sketch.walk();
        }
    }
    for _ in 0..sketch.random.below(12) {
        sketch.strew();
    }
    sketch.draft.items = sketch.pattern();
    let typed = sketch.pattern();
    (sketch.draft, typed)
}

impl<'a> Sketch<'a> {
    fn with_jobs(random: &'a mut Random) -> Self {
        let mut draft = Draft {
            nodes: 0,
            kind: random.below(2),
            alphabet: 2 * random.below(1 << LAST_EVENT),
            jobs: vec![],
            steps: vec![],
            channels: vec![],
            calls: vec![],
            accepts: vec![],
            items: vec![],
        };
        let mut first = vec![];
        let jobs = match random.one_in(RECESS) {
            true => 0,
            false => 1 + random.below(6).min(3),
        };
        for _ in 0..jobs {
            let size = random.within(1..=4);
            let entry = random.below(size);
            let exit = if random.one_in(8) {
                entry
            } else {
                (entry + random.below(size).max(1)) % size
            };
            draft.jobs.push(Job {
                size,
                entry: draft.nodes + entry,
                exit: draft.nodes + exit,
                standing: false,
            });
            first.push(draft.nodes);
            draft.nodes += size;
        }
        stand_some(&mut draft.jobs, random);
        for _ in 0..random.below(4) {
            draft.channels.push(random.below(LAST_EVENT + 1));
        }
        let at = draft.jobs.iter().map(|job| job.entry).collect();
        Sketch {
            random,
            draft,
            first,
            at,
            string: vec![],
        }
    }

    /// The jobs that do not stand and are not at their exits.
    fn under_way(&self) -> Vec<usize> {
        let jobs = self.draft.jobs.iter().zip(&self.at).enumerate();
        jobs.filter(|(_, (job, at))| !job.standing && **at != job.exit)
            .map(|(j, _)| j)
            .collect()
    }

    fn standing(&self) -> Vec<usize> {
        let jobs = 0..self.at.len();
        jobs.filter(|&j| self.draft.jobs[j].standing).collect()
    }

    /// Two different jobs of these, as far as there are two.
    fn two_of(&mut self, mut jobs: Vec<usize>) -> Vec<usize> {
        self.random.shuffle(&mut jobs);
        jobs.truncate(2);
        jobs
    }

    /// One move of the run that goes to no exit.
    fn walk(&mut self) {
        let all = [self.under_way(), self.standing()].concat();
        let movers = self.two_of(all);
        let targets: Vec<(usize, u32)> = movers
            .into_iter()
            .map(|j| (j, self.inner_node(j)))
            .collect();
        self.go(&targets);
    }

    /// The run's moves up to a complete end: every job that does not stand goes to its exit, with another one or with a standing job.
    fn end_all(&mut self) {
        loop {
            let under_way = self.under_way();
            let mut movers = self.two_of(under_way);
            if movers.is_empty() {
                return;
            }
            let standing = self.standing();
            if !standing.is_empty() && self.random.one_in(2) {
                movers.truncate(1);
                movers.push(self.random.pick(&standing));
            }
            let targets: Vec<(usize, u32)> = movers
                .into_iter()
                .map(|j| match self.draft.jobs[j].standing {
                    true => (j, self.inner_node(j)),
                    false => (j, self.draft.jobs[j].exit),
                })
                .collect();
            self.go(&targets);
        }
    }

    /// A meeting of two jobs, or a local step of the first.
    fn go(&mut self, targets: &[(usize, u32)]) {
        match *targets {
            [one, other] if !self.draft.channels.is_empty() && self.random.one_in(2) => {
                match self.random.one_in(2) {
                    true => self.meet(one, other),
                    false => self.meet(other, one),
                }
            }
            [(job, to), ..] => {
                let event = self.random.below(LAST_EVENT + 1);
                let step = self.arc(job, to, event);
                self.draft.steps.push(step);
                self.hear(event);
            }
            [] => {}
        }
    }

    /// A meeting of a caller and an accepter, each with the node that it goes to.
    fn meet(&mut self, caller: (usize, u32), accepter: (usize, u32)) {
        let channel = self.channel();
        let call = self.arc(caller.0, caller.1, channel);
        let accept = self.arc(accepter.0, accepter.1, channel);
        self.draft.calls.push(call);
        self.draft.accepts.push(accept);
        self.hear(self.draft.channels[channel as usize]);
    }

    /// Moves the job, and tells by what arc.
    fn arc(&mut self, job: usize, to: u32, label: u32) -> Arc {
        let from = std::mem::replace(&mut self.at[job], to);
        Arc { from, to, label }
    }

    fn hear(&mut self, event: u32) {
        if self.draft.alphabet >> event & 1 == 1 {
            self.string.push(event);
        }
    }

    /// A step, call or accept that no run was laid out for, if there is a job for it.
    fn strew(&mut self) {
        if self.at.is_empty() {
            return;
        }
        let job = self.random.index(self.at.len());
        let Job { size, standing, .. } = self.draft.jobs[job];
        if size == 1 && !standing {
            return;
        }
        let from = self.inner_node(job);
        let to = self.first[job] + self.random.below(size);
        let kind = self.random.below(3);
        if kind == 0 || self.draft.channels.is_empty() {
            let label = self.random.below(LAST_EVENT + 1);
            self.draft.steps.push(Arc { from, to, label });
        } else {
            let label = self.channel();
            let arcs = match kind {
                1 => &mut self.draft.calls,
                _ => &mut self.draft.accepts,
            };
            arcs.push(Arc { from, to, label });
        }
    }

    /// Any node of a standing job; of another with two nodes or more, one other than its exit.
    fn inner_node(&mut self, job: usize) -> u32 {
        let Job {
            size,
            exit,
            standing,
            ..
        } = self.draft.jobs[job];
        if standing {
            return self.first[job] + self.random.below(size);
        }
        let node = self.first[job] + self.random.below(size - 1);
        node + u32::from(node >= exit)
    }

    fn channel(&mut self) -> u32 {
        self.random.below(self.draft.channels.len() as u32)
    }

    fn pattern(&mut self) -> Vec<Item> {
        let short = (1..=ITEMS.div_ceil(2)).contains(&(self.string.len() as u32));
        match self.random.below(4) {
            0 | 1 if short => self.heard(),
            2 => self.mostly_all(),
            _ => {
                let mut items = vec![];
                let budget = self.random.within(1..=ITEMS);
                self.expression(budget, &mut items);
                items
            }
        }
    }

    /// The run's string, each event in a set that may hold more.
    fn heard(&mut self) -> Vec<Item> {
        let mut items = vec![];
        for event in self.string.clone() {
            let more = if self.random.one_in(2) { self.set() } else { 0 };
            items.push(Item::Events(1 << event | more));
            if items.len() > 1 {
                items.push(Item::Sequence);
            }
        }
        items
    }

    /// Star of the alphabet, and often some end to it.
    fn mostly_all(&mut self) -> Vec<Item> {
        let mut items = vec![Item::Events(self.draft.alphabet), Item::Star];
        let budget = self.random.below(ITEMS - 2);
        if budget > 0 {
            self.expression(budget, &mut items);
            items.push(self.joint());
        }
        items
    }

    /// Any expression of exactly `budget` items, at least one.
    fn expression(&mut self, budget: u32, items: &mut Vec<Item>) {
        match budget {
            1 if self.random.one_in(6) => items.push(Item::Empty),
            1 => items.push(Item::Events(self.set())),
            2 => {
                self.expression(1, items);
                items.push(Item::Star);
            }
            _ if self.random.one_in(4) => {
                self.expression(budget - 1, items);
                items.push(Item::Star);
            }
            _ => {
                let older = self.random.within(1..=budget - 2);
                self.expression(older, items);
                self.expression(budget - 1 - older, items);
                items.push(self.joint());
            }
        }
    }

    /// An operator of two operands.
    fn joint(&mut self) -> Item {
        self.random
            .pick(&[Item::Choice, Item::Sequence, Item::Sequence])
    }

    /// Some watched events, perhaps none.
    fn set(&mut self) -> u32 {
        self.draft.alphabet & (2 * self.random.below(1 << LAST_EVENT))
    }
}

//! From names that are looked up to the plan in the numbers of the bytes, with all copies.
use super::{Channel, Job, Resolved, Sort};
use crate::model::{self, Model};

impl Resolved {
    /// The plan with all copies, in the numbers of the bytes. It is one that can be judged where there are no errors.
    pub fn model(&self) -> Model {
        let mut model = Model {
            name: self.name.clone(),
            events: self.events.clone(),
            channels: self.channels.iter().map(Channel::model).collect(),
            jobs: Vec::new(),
            steps: Vec::new(),
            calls: Vec::new(),
            accepts: Vec::new(),
            rules: self.rules.iter().map(|rule| rule.rule.clone()).collect(),
        };
        let mut first = 0;
        for job in &self.jobs {
            for (name, _) in &job.copies {
                model.jobs.push(job.model(name));
                job.add_moves(first, &mut model);
                first += job.nodes.len();
            }
        }
        model
    }
}

impl Channel {
    fn model(&self) -> model::Channel {
        model::Channel {
            name: self.name.clone(),
            event: self.event,
        }
    }
}

impl Job {
    fn model(&self, name: &str) -> model::Job {
        model::Job {
            name: name.to_string(),
            standing: self.standing,
            nodes: self.nodes.iter().map(|node| node.name.clone()).collect(),
            entry: self.entry,
            exit: self.exit,
        }
    }

    /// Adds the moves of a copy whose nodes count from `first`.
    fn add_moves(&self, first: usize, model: &mut Model) {
        for m in &self.moves {
            let moves = match m.sort {
                Sort::Step => &mut model.steps,
                Sort::Call => &mut model.calls,
                Sort::Accept => &mut model.accepts,
            };
            moves.push(model::Move {
                from: first + m.from,
                to: first + m.to,
                label: m.label,
            });
        }
    }
}

//! The limits of jobs, nodes and moves, copies counted.
use super::names::{beyond, twice};
use super::{Job, Resolver, Sort, NODES};
use crate::diagnostic::{quoted, Diagnostic};
use crate::model::Place;
use std::collections::HashMap;

const JOBS: usize = 16;
const STEPS: usize = 256;
const CALLS: usize = 128;

impl Resolver<'_> {
    /// Jobs have different names, and there are not too many. Copies that `times` makes stand at one place, and are told once.
    pub(super) fn job_names(&mut self, jobs: &[Job]) {
        let mut first: HashMap<&str, Place> = HashMap::new();
        let mut told = None;
        for (name, place) in jobs.iter().flat_map(|job| &job.copies) {
            if let Some(&earlier) = first.get(name.as_str()) {
                if told != Some(*place) {
                    self.errors.push(twice("job", name, *place, earlier));
                }
                told = Some(*place);
                continue;
            }
            if first.len() == JOBS {
                self.errors.push(beyond(name, "job", JOBS, *place));
            }
            first.insert(name, *place);
        }
    }

    pub(super) fn limits(&mut self, jobs: &[Job]) {
        self.node_limit(jobs);
        self.move_limit(jobs, Sort::Step, "step", STEPS);
        self.move_limit(jobs, Sort::Call, "call", CALLS);
        self.move_limit(jobs, Sort::Accept, "accept", CALLS);
    }

    fn node_limit(&mut self, jobs: &[Job]) {
        let places = |job: &Job| {
            job.nodes
                .iter()
                .map(|node| (node.place, quoted(&node.name) + " is"))
                .collect()
        };
        self.limit(jobs, "node", NODES, places);
    }

    fn move_limit(&mut self, jobs: &[Job], sort: Sort, kind: &str, most: usize) {
        let places = |job: &Job| {
            let moves = job.moves.iter().filter(|m| m.sort == sort);
            moves.map(|m| (m.place, "this is".to_string())).collect()
        };
        self.limit(jobs, kind, most, places);
    }

    /// Tells the first of a kind that is one too many: where it stands, or where it stands in a further copy, at the name of the copy.
    fn limit(
        &mut self,
        jobs: &[Job],
        kind: &str,
        most: usize,
        places: impl Fn(&Job) -> Vec<(Place, String)>,
    ) {
        let mut left = most;
        for job in jobs {
            let places = places(job);
            for (copy, (name, place)) in job.copies.iter().enumerate() {
                let Some((at, what)) = places.get(left).cloned() else {
                    left -= places.len();
                    continue;
                };
                let (at, what) = match copy {
                    0 => (at, what),
                    _ => (*place, format!("job {} has", quoted(name))),
                };
                let message = format!(
                    "{what} {kind} {}, and a plan has at most {most}, copies counted",
                    most + 1
                );
                self.errors.push(Diagnostic::error(at, message));
                return;
            }
        }
    }
}

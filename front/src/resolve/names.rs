//! Tables of names: events and channels of a plan, and nodes of a job.
use super::{Node, NODES};
use crate::diagnostic::{hint, quoted, Diagnostic};
use crate::model::Place;
use crate::syntax::{self, Name};
use std::collections::HashMap;

/// Names of one kind with their numbers, from 0, as they are declared.
pub(super) struct Table<'a> {
    pub(super) kind: &'static str,
    most: usize,
    declared: Vec<&'a Name>,
    numbers: HashMap<&'a str, usize>,
}

impl<'a> Table<'a> {
    pub(super) fn new(kind: &'static str, most: usize) -> Table<'a> {
        Table {
            kind,
            most,
            declared: Vec::new(),
            numbers: HashMap::new(),
        }
    }

    pub(super) fn declare(&mut self, name: &'a Name, errors: &mut Vec<Diagnostic>) {
        if name.broken {
            return;
        }
        if let Some(&first) = self.numbers.get(name.text.as_str()) {
            errors.push(twice(
                self.kind,
                &name.text,
                name.place,
                self.declared[first].place,
            ));
            return;
        }
        let number = self.declared.len();
        if number == self.most {
            errors.push(beyond(&name.text, self.kind, self.most, name.place));
        }
        self.numbers.insert(&name.text, number);
        self.declared.push(name);
    }

    pub(super) fn number(&self, name: &str) -> Option<usize> {
        self.numbers.get(name).copied()
    }

    /// The names that a plan has room for, which is enough for a hint.
    pub(super) fn known(&self) -> impl Iterator<Item = &'a str> + '_ {
        self.declared
            .iter()
            .take(self.most)
            .map(|name| name.text.as_str())
    }

    pub(super) fn names(&self) -> Vec<String> {
        self.declared.iter().map(|name| name.text.clone()).collect()
    }
}

/// The error of a second declaration.
pub(super) fn twice(kind: &str, name: &str, place: Place, first: Place) -> Diagnostic {
    let message = format!(
        "{kind} {} is declared twice; the first is in line {}",
        quoted(name),
        first.line
    );
    Diagnostic::error(place, message)
}

/// The error of the first that is one too many.
pub(super) fn beyond(name: &str, kind: &str, most: usize, place: Place) -> Diagnostic {
    let message = format!(
        "{} is {kind} {}, and a plan has at most {most}",
        quoted(name),
        most + 1
    );
    Diagnostic::error(place, message)
}

/// The nodes of a job, as they are numbered in it.
pub(super) struct Nodes<'a> {
    job: &'a str,
    /// Whether `nodes` lists them all.
    listed: bool,
    pub(super) list: Vec<Node>,
    numbers: HashMap<&'a str, usize>,
}

impl<'a> Nodes<'a> {
    pub(super) fn new(
        job: &'a syntax::Job,
        name: &'a str,
        errors: &mut Vec<Diagnostic>,
    ) -> Nodes<'a> {
        let mut nodes = Nodes {
            job: name,
            listed: job.nodes.is_some(),
            list: Vec::new(),
            numbers: HashMap::new(),
        };
        for name in job.nodes.iter().flatten() {
            nodes.listed(name, errors);
        }
        nodes
    }

    fn listed(&mut self, name: &'a Name, errors: &mut Vec<Diagnostic>) {
        let Some(&first) = self.numbers.get(name.text.as_str()) else {
            self.add(name);
            return;
        };
        let line = self.list[first].place.line;
        let message = format!(
            "node {} is listed twice; the first is in line {line}",
            quoted(&name.text)
        );
        errors.push(Diagnostic::error(name.place, message));
    }

    fn add(&mut self, name: &'a Name) -> usize {
        let number = self.list.len();
        self.numbers.insert(&name.text, number);
        self.list.push(Node {
            name: name.text.clone(),
            place: name.place,
        });
        number
    }

    /// The number of a node that is mentioned. None for one that is not listed, which is told.
    pub(super) fn number(&mut self, name: &'a Name, errors: &mut Vec<Diagnostic>) -> Option<usize> {
        if let Some(&number) = self.numbers.get(name.text.as_str()) {
            return Some(number);
        }
        if !self.listed {
            return Some(self.add(name));
        }
        if !name.broken {
            let known = self.list.iter().take(NODES).map(|node| node.name.as_str());
            let hint = hint(&name.text, known);
            let message = format!(
                "no node {} in job {}{hint}",
                quoted(&name.text),
                quoted(self.job)
            );
            errors.push(Diagnostic::error(name.place, message));
        }
        None
    }

    /// The number of the entry or exit; 0 where it is missing, which is told.
    pub(super) fn end(&mut self, name: Option<&'a Name>, errors: &mut Vec<Diagnostic>) -> usize {
        name.and_then(|name| self.number(name, errors)).unwrap_or(0)
    }
}

//! From declarations to a plan with numbers: names looked up, copies made, limits kept.
use crate::diagnostic::{hint, quoted, Diagnostic};
use crate::expand::{count, expand, MANY};
use crate::lex::LONGEST_NAME;
use crate::model::{self, Place};
use crate::parse::Parsed;
use crate::syntax::{self, Label, Name, Part};
use names::{Nodes, Table};
use std::collections::HashSet;

mod limits;
mod names;
mod numbers;

/// How many of each a plan has at most.
const NODES: usize = 256;
const CHANNELS: usize = 64;
const EVENTS: usize = 31;
const ITEMS: usize = 64;

/// A file with its names looked up, before copies are made.
pub struct Resolved {
    pub name: String,
    pub events: Vec<String>,
    pub channels: Vec<Channel>,
    pub jobs: Vec<Job>,
    pub rules: Vec<Rule>,
    pub errors: Vec<Diagnostic>,
}

pub struct Channel {
    pub name: String,
    pub place: Place,
    pub event: usize,
}

/// A job as it is written, for all of its copies.
pub struct Job {
    /// The name by which errors and warnings tell it: that of the first copy, or without its number.
    pub name: String,
    pub copies: Vec<(String, Place)>,
    pub standing: bool,
    pub nodes: Vec<Node>,
    pub entry: usize,
    pub exit: usize,
    /// Where the exit is declared.
    pub exit_place: Place,
    pub moves: Vec<Move>,
}

pub struct Node {
    pub name: String,
    pub place: Place,
}

#[derive(Clone, Copy, PartialEq, Eq)]
pub enum Sort {
    Step,
    Call,
    Accept,
}

/// A move between two nodes of its job, by their places in its list.
pub struct Move {
    pub sort: Sort,
    pub from: usize,
    pub to: usize,
    pub label: usize,
    pub place: Place,
}

pub struct Rule {
    pub rule: model::Rule,
    /// The events that the rule names, with their places.
    pub mentions: Vec<(usize, Place)>,
    /// Where the pattern stands, if it has a set of all but some events.
    pub excepts: Option<Place>,
}

pub fn resolve(parsed: &Parsed) -> Resolved {
    let file = &parsed.file;
    let mut resolver = Resolver {
        skipped: &parsed.skipped,
        events: Table::new("event", EVENTS),
        channels: Table::new("channel", CHANNELS),
        errors: Vec::new(),
    };
    resolver.declare(file);
    let channels = resolver.channel_events(file);
    let jobs: Vec<Job> = file.jobs.iter().map(|job| resolver.job(job)).collect();
    resolver.job_names(&jobs);
    resolver.limits(&jobs);
    resolver.some_job_ends(file);
    let rules = resolver.rules(file);
    Resolved {
        name: file
            .plan
            .as_ref()
            .map_or(String::new(), |name| name.text.clone()),
        events: resolver.events.names(),
        channels,
        jobs,
        rules,
        errors: resolver.errors,
    }
}

struct Resolver<'a> {
    skipped: &'a HashSet<String>,
    events: Table<'a>,
    channels: Table<'a>,
    errors: Vec<Diagnostic>,
}

impl<'a> Resolver<'a> {
    fn declare(&mut self, file: &'a syntax::File) {
        for name in &file.events {
            self.events.declare(name, &mut self.errors);
        }
        for channel in &file.channels {
            self.channels.declare(&channel.name, &mut self.errors);
        }
    }

    /// The number of an event, or None, which is told; `taker` says what takes events.
    fn event(&mut self, name: &Name, taker: &str) -> Option<usize> {
        let number = self.events.number(&name.text);
        if number.is_none() {
            self.unknown(name, taker, true);
        }
        number.map(|number| number + 1)
    }

    /// The number of a channel, or None, which is told; `taker` says what takes channels.
    fn channel(&mut self, name: &Name, taker: &str) -> Option<usize> {
        let number = self.channels.number(&name.text);
        if number.is_none() {
            self.unknown(name, taker, false);
        }
        number
    }

    /// Tells that there is no event, or channel, of this name.
    fn unknown(&mut self, name: &Name, taker: &str, event: bool) {
        let (due, other) = match event {
            true => (&self.events, &self.channels),
            false => (&self.channels, &self.events),
        };
        let (kind, text) = (due.kind, quoted(&name.text));
        let message = if other.number(&name.text).is_some() {
            format!("{text} is {} {}; {taker}", article(other.kind), other.kind)
        } else {
            let hint = hint(&name.text, due.known());
            let declares = format!("; {} declares it", quoted(&format!("{kind} {}", name.text)));
            let advice = if hint.is_empty() { declares } else { hint };
            format!("no {kind} {text}{advice}")
        };
        if !name.broken && !self.skipped.contains(&name.text) {
            self.errors.push(Diagnostic::error(name.place, message));
        }
    }

    fn channel_events(&mut self, file: &'a syntax::File) -> Vec<Channel> {
        let channels = file.channels.iter();
        channels
            .map(|channel| self.channel_event(channel))
            .collect()
    }

    fn channel_event(&mut self, channel: &syntax::Channel) -> Channel {
        let gives = channel.gives.as_ref();
        let event = gives.and_then(|name| self.event(name, "'gives' takes an event"));
        Channel {
            name: channel.name.text.clone(),
            place: channel.name.place,
            event: event.unwrap_or(0),
        }
    }

    fn job(&mut self, job: &'a syntax::Job) -> Job {
        let name = job.names.first().map_or("", |name| &name.text);
        let mut nodes = Nodes::new(job, name, &mut self.errors);
        let entry = nodes.end(job.entry.as_ref(), &mut self.errors);
        let mut moves = Vec::new();
        for m in &job.moves {
            let (sort, label) = self.label(&m.label);
            let from = nodes.number(&m.from, &mut self.errors);
            let to = nodes.number(&m.to, &mut self.errors);
            if let (Some(from), Some(to), Some(label)) = (from, to, label) {
                let place = m.place;
                moves.push(Move {
                    sort,
                    from,
                    to,
                    label,
                    place,
                });
            }
            self.leaves_exit(job, m, name);
        }
        let exit = nodes.end(job.exit.as_ref(), &mut self.errors);
        Job {
            name: name.to_string(),
            copies: self.copies(job),
            standing: job.standing,
            entry,
            exit: if job.standing { entry } else { exit },
            exit_place: job
                .exit
                .as_ref()
                .map_or(Place::default(), |exit| exit.place),
            nodes: nodes.list,
            moves,
        }
    }

    /// The sort of a move, and the number of its event or channel; None for one that is unknown, which is told.
    fn label(&mut self, label: &Label) -> (Sort, Option<usize>) {
        match label {
            Label::Quiet => (Sort::Step, Some(0)),
            Label::Gives(name) => (Sort::Step, self.event(name, "'gives' takes an event")),
            Label::Calls(name) => (Sort::Call, self.channel(name, "'calls' takes a channel")),
            Label::Accepts(name) => (
                Sort::Accept,
                self.channel(name, "'accepts' takes a channel"),
            ),
        }
    }

    fn leaves_exit(&mut self, job: &syntax::Job, m: &syntax::Move, name: &str) {
        let exit = job
            .exit
            .as_ref()
            .filter(|exit| !job.standing && exit.text == m.from.text);
        if exit.is_some() {
            let message = format!(
                "nothing may leave {}, where job {} ends",
                quoted(&m.from.text),
                quoted(name)
            );
            self.errors.push(Diagnostic::error(m.from.place, message));
        }
    }

    /// The names of the copies of a job, with the places where they are declared.
    fn copies(&mut self, job: &syntax::Job) -> Vec<(String, Place)> {
        let (Some(name), Some(times)) = (job.names.first(), job.times) else {
            let names = job.names.iter().filter(|name| !name.broken);
            return names.map(|name| (name.text.clone(), name.place)).collect();
        };
        if name.broken {
            return Vec::new();
        }
        let copies = (1..=times).map(|copy| (format!("{}-{copy}", name.text), name.place));
        let copies: Vec<(String, Place)> = copies.collect();
        let longest = copies.last().map_or(0, |(name, _)| name.chars().count());
        if longest > LONGEST_NAME {
            let message = format!("the names of the copies have up to {longest} characters, and at most {LONGEST_NAME} are possible");
            self.errors.push(Diagnostic::error(name.place, message));
        }
        copies
    }

    fn some_job_ends(&mut self, file: &syntax::File) {
        let all_stand = file.jobs.iter().all(|job| job.standing);
        let first = file.jobs.first().and_then(|job| job.names.first());
        if let Some(name) = first.filter(|_| all_stand) {
            let message = "all jobs are services; at least one job has to end";
            self.errors.push(Diagnostic::error(name.place, message));
        }
    }

    fn rules(&mut self, file: &'a syntax::File) -> Vec<Rule> {
        let mut table = Table::new("rule", usize::MAX);
        for rule in &file.rules {
            table.declare(&rule.name, &mut self.errors);
        }
        file.rules
            .iter()
            .filter_map(|rule| self.rule(rule))
            .collect()
    }

    fn rule(&mut self, rule: &syntax::Rule) -> Option<Rule> {
        let mut mentions = Vec::new();
        for (taker, name) in &rule.mentions {
            let event = self.event(name, taker);
            mentions.push((event.unwrap_or(0), name.place));
        }
        let pattern = rule.pattern.as_ref()?;
        self.items(&rule.name, pattern)?;
        let sets: Vec<u32> = mentions.iter().map(|&(event, _)| weight(event)).collect();
        let alphabet = sets.iter().fold(0, |all, set| all | set);
        let rule = model::Rule {
            name: rule.name.text.clone(),
            place: rule.name.place,
            kind: pattern.kind,
            alphabet,
            items: expand(&pattern.parts, &sets, alphabet),
        };
        let except = |part: &Part| matches!(part, Part::Set { except: true, .. });
        let excepts = pattern.parts.iter().any(except).then_some(pattern.place);
        Some(Rule {
            rule,
            mentions,
            excepts,
        })
    }

    /// None where a pattern needs too many items, which is told at its `every` or `never`.
    fn items(&mut self, rule: &Name, pattern: &syntax::Pattern) -> Option<()> {
        let items = count(&pattern.parts);
        if items <= ITEMS {
            return Some(());
        }
        let items = if items == MANY {
            "more than 1000".to_string()
        } else {
            items.to_string()
        };
        let message = format!(
            "the pattern of rule {} needs {items} items, and at most {ITEMS} are possible: one for each event, set, 0, ;, | and *, those that shorthand stands for included",
            quoted(&rule.text)
        );
        self.errors.push(Diagnostic::error(pattern.place, message));
        None
    }
}

/// An event as a set; events that are not in a plan have no weight.
fn weight(event: usize) -> u32 {
    match event {
        1..=EVENTS => 1 << event,
        _ => 0,
    }
}

fn article(kind: &str) -> &'static str {
    if kind == "event" {
        "an"
    } else {
        "a"
    }
}

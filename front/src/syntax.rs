//! A file as its words stand: declarations, moves and patterns, with names not yet looked up.
use crate::model::{Kind, Place};

/// A name where it stands. A broken one has its error told, and is never told to be unknown.
#[derive(Clone, Debug)]
pub struct Name {
    pub text: String,
    pub place: Place,
    pub broken: bool,
}

#[derive(Default)]
pub struct File {
    pub plan: Option<Name>,
    pub events: Vec<Name>,
    pub channels: Vec<Channel>,
    pub jobs: Vec<Job>,
    pub rules: Vec<Rule>,
}

pub struct Channel {
    pub name: Name,
    pub gives: Option<Name>,
}

/// A job or service, or several written once.
pub struct Job {
    pub standing: bool,
    pub names: Vec<Name>,
    /// How many copies `times` asks for.
    pub times: Option<usize>,
    pub entry: Option<Name>,
    pub exit: Option<Name>,
    /// The nodes that `nodes` lists, if it stands there.
    pub nodes: Option<Vec<Name>>,
    pub moves: Vec<Move>,
}

pub struct Move {
    /// Where the first word behind the from-node stands.
    pub place: Place,
    pub from: Name,
    pub label: Label,
    pub to: Name,
}

#[derive(Clone)]
pub enum Label {
    Quiet,
    Gives(Name),
    Calls(Name),
    Accepts(Name),
}

pub struct Rule {
    pub name: Name,
    /// Without one the rule is broken, and that is told.
    pub pattern: Option<Pattern>,
    /// All events that the rule names, as they stand, with what takes them.
    pub mentions: Vec<(&'static str, Name)>,
}

/// A pattern, with the place of its `every` or `never`.
pub struct Pattern {
    pub kind: Kind,
    pub place: Place,
    pub parts: Vec<Part>,
}

/// A part of a pattern in postfix form, as the items are; names of events are places in the rule's mentions.
#[derive(Clone, Debug)]
pub enum Part {
    Empty,
    Event(usize),
    /// The events that are listed, or with `except` all other watched ones.
    Set {
        except: bool,
        events: std::ops::Range<usize>,
    },
    Sequence,
    Choice,
    Star,
    Plus,
    Optional,
    Times(usize),
}

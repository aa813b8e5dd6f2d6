//! A plan as its words give it: names, and the numbers that they get in the bytes.

/// A place in the source: line and column, both counted from 1, in characters.
#[derive(Clone, Copy, Debug, Default, PartialEq, Eq, PartialOrd, Ord)]
pub struct Place {
    pub line: usize,
    pub column: usize,
}

/// A plan with names for everything. Numbers are those of the bytes.
#[derive(Clone, Debug, PartialEq, Eq)]
pub struct Model {
    pub name: String,
    /// Event e has the name `events[e - 1]`.
    pub events: Vec<String>,
    pub channels: Vec<Channel>,
    pub jobs: Vec<Job>,
    /// Local steps; the label is an event, 0 for a quiet step.
    pub steps: Vec<Move>,
    /// Calls and accepts; the label is a channel.
    pub calls: Vec<Move>,
    pub accepts: Vec<Move>,
    pub rules: Vec<Rule>,
}

#[derive(Clone, Debug, PartialEq, Eq)]
pub struct Channel {
    pub name: String,
    /// 0 where the channel gives no event.
    pub event: usize,
}

/// A job with its nodes in the order of their numbers; `entry` and `exit` are places in that list. The exit of a service is its entry.
#[derive(Clone, Debug, PartialEq, Eq)]
pub struct Job {
    pub name: String,
    pub standing: bool,
    pub nodes: Vec<String>,
    pub entry: usize,
    pub exit: usize,
}

/// A move between two nodes of one job, by their numbers in the plan.
#[derive(Clone, Copy, Debug, PartialEq, Eq)]
pub struct Move {
    pub from: usize,
    pub to: usize,
    pub label: usize,
}

#[derive(Clone, Copy, Debug, PartialEq, Eq)]
pub enum Kind {
    Every,
    Never,
}

#[derive(Clone, Debug, PartialEq, Eq)]
pub struct Rule {
    pub name: String,
    pub place: Place,
    pub kind: Kind,
    /// The watched events; event e has weight 2^e.
    pub alphabet: u32,
    /// The pattern in postfix form.
    pub items: Vec<Item>,
}

/// An item of a pattern. In a set event e has weight 2^e.
#[derive(Clone, Copy, Debug, PartialEq, Eq)]
pub enum Item {
    Empty,
    Events(u32),
    Sequence,
    Choice,
    Star,
}

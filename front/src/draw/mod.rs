//! A plan as a picture: an SVG that needs no other program, and the same in DOT.
mod column;
mod dot;
mod layout;
mod shapes;
mod svg;

use crate::names::Names;
use traceflow::{Arc, Job, Plan};

/// What a picture shows: a plan with its names, and the nodes to which no run comes.
pub struct Picture<'a> {
    pub names: &'a Names,
    pub plan: &'a Plan,
    /// By node; a node that is not in the list is reached.
    pub unreached: &'a [bool],
    /// The line at the top.
    pub caption: String,
}

/// The picture as SVG.
pub fn svg(picture: &Picture) -> String {
    svg::write(&layout::page(picture))
}

/// The picture in DOT.
pub fn dot(picture: &Picture) -> String {
    dot::write(picture)
}

/// What a move does: it gives an event (0 for a quiet step), or it calls or accepts on a channel.
#[derive(Clone, Copy)]
enum Act {
    Step(usize),
    Call(usize),
    Accept(usize),
}

/// A move from one node of a job to another, or back to the same.
struct Move {
    from: usize,
    to: usize,
    act: Act,
}

impl Act {
    fn channel(self) -> Option<usize> {
        match self {
            Act::Step(_) => None,
            Act::Call(channel) | Act::Accept(channel) => Some(channel),
        }
    }
}

impl Picture<'_> {
    /// The moves of a job: its steps, then its calls, then its accepts.
    fn moves(&self, job: &Job) -> Vec<Move> {
        let steps = moves_among(&self.plan.steps, job, Act::Step);
        let calls = moves_among(&self.plan.calls, job, Act::Call);
        let accepts = moves_among(&self.plan.accepts, job, Act::Accept);
        steps.chain(calls).chain(accepts).collect()
    }

    fn is_unreached(&self, node: usize) -> bool {
        self.unreached.get(node) == Some(&true)
    }

    /// What a move does, as the plan's words say it; nothing for a quiet step.
    fn words(&self, act: Act) -> Option<String> {
        match act {
            Act::Step(0) => None,
            Act::Step(event) => Some(format!("gives {}", self.names.event(event))),
            Act::Call(channel) => Some(format!("calls {}", self.names.channel(channel))),
            Act::Accept(channel) => Some(format!("accepts {}", self.names.channel(channel))),
        }
    }

    /// What a move does, with the event that its channel gives.
    fn label(&self, act: Act) -> Option<String> {
        let words = self.words(act)?;
        Some(match act.channel() {
            None => words,
            Some(channel) => self.with_event(words, channel),
        })
    }

    /// Words on a channel, and the event that it gives.
    fn with_event(&self, words: String, channel: usize) -> String {
        match self.plan.channels.get(channel) {
            None | Some(0) => words,
            Some(&event) => format!("{words} → {}", self.names.event(event)),
        }
    }
}

/// The moves of a job in one of the plan's lists.
fn moves_among<'a>(
    arcs: &'a [Arc],
    job: &'a Job,
    act: fn(usize) -> Act,
) -> impl Iterator<Item = Move> + 'a {
    let inside = arcs
        .iter()
        .filter(|arc| holds(job, arc.from) && holds(job, arc.to));
    inside.map(move |arc| Move {
        from: arc.from,
        to: arc.to,
        act: act(arc.label),
    })
}

/// Whether a node is one of a job's.
fn holds(job: &Job, node: usize) -> bool {
    node >= job.first && node - job.first < job.size
}

/// The colour of a channel: its own hue, dark enough to be read on white. Of each eight channels the hues are far apart; the next eight
/// have others, and are darker or lighter.
fn colour(channel: usize) -> String {
    const HUES: [usize; 8] = [214, 4, 130, 282, 32, 185, 325, 60];
    let round = channel / 8;
    let weight = [95, 50][round % 2];
    let [red, green, blue] = dark(of_hue((HUES[channel % 8] + 5 * round) % 360), weight);
    format!("#{red:02x}{green:02x}{blue:02x}")
}

/// A hue in degrees as red, green and blue.
fn of_hue(hue: usize) -> [usize; 3] {
    let (low, high) = (20, 215);
    let rest = (hue % 60) * (high - low) / 60;
    let (rising, falling) = (low + rest, high - rest);
    match hue / 60 {
        0 => [high, rising, low],
        1 => [falling, high, low],
        2 => [low, high, rising],
        3 => [low, falling, high],
        4 => [rising, low, high],
        _ => [high, low, falling],
    }
}

/// The same hue, so dark that it has at most this weight to the eye, of 255.
fn dark(rgb: [usize; 3], most: usize) -> [usize; 3] {
    let [red, green, blue] = rgb;
    let weight = (30 * red + 59 * green + 11 * blue) / 100;
    rgb.map(|part| part * most / weight.max(most))
}

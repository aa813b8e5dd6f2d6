//! What the inputs of the program were like and what they were answered: counted, and all of it asked for.

use crate::layout::records;
use crate::program::inputs::{Input, LONG_TEXTS};
use crate::program::largest;
use crate::program::line::{name, READ};
use crate::program::writing::Writing;
use crate::recess;
use crate::refusals::{own, ALL_STAND, OF_TEXT, ORDER, SHORT_ROW};
use reference::Answer;
use std::collections::BTreeMap;

const VERDICTS: [&str; 2] = ["verified", "inconclusive"];

const NO_BYTE: &str = "no byte";
const ONE_BYTE: &str = "one byte";
const ALL_READ: &str = "as many bytes as are read";
const CUT: &str = "more bytes than are read";
const IN_PIECES: &str = "in pieces";
const OPEN: &str = "standard input open";
const EMPTY_TEXT: &str = "an empty text";

#[derive(Default)]
pub struct Tally {
    inputs: usize,
    met: BTreeMap<String, usize>,
}

impl Tally {
    pub fn add(&mut self, input: &Input, answer: &Answer) {
        self.inputs += 1;
        for what in of(input, answer) {
            *self.met.entry(what).or_default() += 1;
        }
    }

    /// What was asked for and did not occur.
    pub fn missing(&self) -> Vec<String> {
        let asked = asked().into_iter();
        asked.filter(|what| !self.met.contains_key(what)).collect()
    }

    pub fn summary(&self) -> String {
        let count = |what: String| format!("{what}: {}", self.met.get(&what).unwrap_or(&0));
        let counts: Vec<String> = asked().into_iter().map(count).collect();
        format!("program: {} inputs; {}", self.inputs, counts.join(", "))
    }
}

/// The verdict on a plan as long as one can be.
fn on_the_largest(verdict: &str) -> String {
    format!("{verdict} of {} bytes", largest::JUDGED)
}

fn by_text(answer: &str) -> String {
    format!("{answer} by a text")
}

fn without_jobs(answer: &str) -> String {
    format!("{answer} without jobs")
}

fn standing(answer: &str) -> String {
    format!("{answer} with a standing job")
}

fn text_of(length: usize) -> String {
    format!("a text of {length} bytes")
}

/// What has to occur. The program's row is long enough for every plan.
fn asked() -> Vec<String> {
    let refused = |number: u32| format!("refused {number}");
    let all_refused = |numbers: &[u32]| -> Vec<String> {
        let given = numbers.iter().filter(|number| **number != SHORT_ROW);
        given.map(|number| refused(*number)).collect()
    };
    let mut asked = all_refused(&own());
    asked.extend(VERDICTS.map(str::to_string));
    asked.extend(VERDICTS.map(on_the_largest));
    asked.extend([NO_BYTE, ONE_BYTE, ALL_READ, CUT, IN_PIECES, OPEN].map(str::to_string));
    asked.extend(all_refused(&ORDER).iter().map(|refused| by_text(refused)));
    asked.extend(VERDICTS.map(by_text));
    asked.push(EMPTY_TEXT.to_string());
    asked.extend(LONG_TEXTS.map(text_of));
    asked.extend(recess::REFUSALS.map(|number| without_jobs(&refused(number))));
    asked.extend(VERDICTS.map(without_jobs));
    asked.extend(OF_TEXT.map(|number| by_text(&without_jobs(&refused(number)))));
    asked.extend(VERDICTS.map(|verdict| by_text(&without_jobs(verdict))));
    asked.extend([6, ALL_STAND, 8].map(|number| standing(&refused(number))));
    asked.extend(VERDICTS.map(standing));
    asked.push(by_text(&standing(&refused(ALL_STAND))));
    asked.extend(VERDICTS.map(|verdict| by_text(&standing(verdict))));
    asked
}

/// What one input is an example of.
fn of(input: &Input, answer: &Answer) -> Vec<String> {
    let name = name(answer);
    let mut met = match &input.text {
        None => of_plan(input, answer, &name),
        Some(text) if text.is_empty() => vec![by_text(&name), EMPTY_TEXT.to_string()],
        Some(text) => vec![by_text(&name), text_of(text.len())],
    };
    let jobs = records(&input.bytes).jobs;
    let sorts: [(bool, fn(&str) -> String); 2] = [
        (jobs.is_empty(), without_jobs),
        (jobs.iter().any(|job| job.standing), standing),
    ];
    for (_, named) in sorts.iter().filter(|(is_so, _)| *is_so) {
        met.push(match input.text {
            None => named(&name),
            Some(_) => by_text(&named(&name)),
        });
    }
    met
}

fn of_plan(input: &Input, answer: &Answer, name: &str) -> Vec<String> {
    let length = input.bytes.len();
    let judged = !matches!(answer, Answer::Refused(_));
    let mut met = vec![name.to_string()];
    if judged && length == largest::JUDGED {
        met.push(on_the_largest(name));
    }
    let others = [
        (NO_BYTE, length == 0),
        (ONE_BYTE, length == 1),
        (ALL_READ, length == READ),
        (CUT, length > READ),
        (IN_PIECES, input.writing.pieces(&input.bytes).len() > 1),
        (OPEN, matches!(input.writing, Writing::Open)),
    ];
    let true_ones = others.into_iter().filter(|(_, is_so)| *is_so);
    met.extend(true_ones.map(|(what, _)| what.to_string()));
    met
}

#[cfg(test)]
mod tests {
    use super::*;

    #[test]
    fn what_did_not_occur_is_told() {
        let mut tally = Tally::default();
        assert_eq!(tally.missing(), asked());
        let input = Input {
            name: String::new(),
            text: None,
            bytes: vec![0],
            writing: Writing::Whole,
        };
        tally.add(&input, &Answer::Refused(1));
        let mut left = asked();
        let met = ["refused 1", "refused 1 without jobs", ONE_BYTE];
        left.retain(|what| !met.contains(&&what[..]));
        assert_eq!(tally.missing(), left);
    }
}

//! A file with a plan in words: read, and judged by its rules.
use crate::diagnostic::{hint, quoted, render, Diagnostic};
use crate::files;
use crate::judged::judge;
use crate::model::{Item, Kind, Model, Place, Rule};
use crate::names::Names;
use crate::pack::pack;
use crate::read::{read, Read};
use crate::tell::Answered;
use std::ffi::OsStr;
use std::io;

/// A file that was read.
pub struct Opened {
    /// Its name as it is shown.
    pub file: String,
    pub source: String,
    pub diagnostics: Vec<Diagnostic>,
    /// Errors of the file as a whole.
    pub general: Vec<String>,
    /// Whether there are no errors, and then what the words say.
    pub model: Option<Model>,
}

/// Why there are no answers.
pub enum Stop {
    /// The file has errors, which are noted in it.
    File,
    /// Anything else, in one line.
    Other(String),
}

/// The rules by which a command has the plan judged.
pub enum Choice {
    /// Those of these names, in the order of the file; all where none is named.
    Some(Vec<String>),
    /// The one of this name, or the only one.
    One(Option<String>),
    /// As `Some`; where the file has no rules, one that asks nothing of use.
    Any(Vec<String>),
}

/// Reads a file, or standard input for `-`; or tells in a line why it cannot be read.
pub fn open(name: &OsStr, input: &mut dyn io::Read) -> Result<Opened, String> {
    let bytes = files::read(name, input)?;
    let mut opened = Opened::of(name, read(&bytes));
    if opened.model.is_none() && traceflow::tables(&bytes).is_ok() {
        opened.diagnostics.clear();
        let message = "this is a plan in bytes; 'tuft unpack' tells it in words";
        opened.general.push(message.to_string());
    }
    Ok(opened)
}

impl Opened {
    /// What was read of a file.
    pub fn of(name: &OsStr, read: Read) -> Opened {
        Opened {
            file: files::shown(name),
            source: read.source,
            diagnostics: read.diagnostics,
            general: Vec::new(),
            model: read.model,
        }
    }

    /// Errors and warnings as they are shown.
    pub fn notes(&self) -> String {
        let general = self
            .general
            .iter()
            .map(|message| format!("{}: error: {message}\n", self.file));
        let placed = self
            .diagnostics
            .iter()
            .map(|note| render(&self.file, &self.source, note));
        placed.chain(general).collect()
    }

    pub fn names(&self) -> Names {
        self.model.as_ref().map_or(Names::made(), Names::of)
    }

    /// The answers under the rules that are chosen.
    pub fn answers(&mut self, choice: &Choice) -> Result<Vec<Answered>, Stop> {
        let model = self.model.take().ok_or(Stop::File)?;
        let answers = self
            .rules(&model, choice)
            .and_then(|rules| self.judge(&model, &rules));
        self.model = Some(model);
        answers
    }

    /// The rules that are chosen.
    fn rules(&mut self, model: &Model, choice: &Choice) -> Result<Vec<Rule>, Stop> {
        let named = match choice {
            Choice::Any(named) if named.is_empty() && model.rules.is_empty() => {
                return Ok(vec![no_rule()])
            }
            Choice::Any(named) | Choice::Some(named) => named.clone(),
            Choice::One(named) => named.iter().cloned().collect(),
        };
        if model.rules.is_empty() {
            self.general.push("no rule".to_string());
            return Err(Stop::File);
        }
        for name in &named {
            self.known(model, name)?;
        }
        let chosen = model
            .rules
            .iter()
            .filter(|rule| named.is_empty() || named.contains(&rule.name));
        let rules: Vec<Rule> = chosen.cloned().collect();
        match choice {
            Choice::One(None) if rules.len() > 1 => Err(self.ambiguous(&rules)),
            _ => Ok(rules),
        }
    }

    /// Whether the file has a rule of a name.
    fn known(&self, model: &Model, name: &str) -> Result<(), Stop> {
        let rules = model.rules.iter().map(|rule| rule.name.as_str());
        if rules.clone().any(|rule| rule == name) {
            return Ok(());
        }
        let hint = hint(name, rules);
        Err(Stop::Other(format!(
            "{}: no rule {}{hint}",
            self.file,
            quoted(name)
        )))
    }

    fn ambiguous(&self, rules: &[Rule]) -> Stop {
        let names: Vec<&str> = rules.iter().map(|rule| rule.name.as_str()).collect();
        Stop::Other(format!(
            "{}: which rule? There are {}",
            self.file,
            names.join(", ")
        ))
    }

    /// The answers under some rules. A pattern that is too large is noted as an error of the file.
    fn judge(&mut self, model: &Model, rules: &[Rule]) -> Result<Vec<Answered>, Stop> {
        let mut answers = Vec::new();
        let mut too_large = Vec::new();
        for rule in rules {
            let bytes = pack(model, rule);
            match judge(&bytes) {
                Ok(judged) => answers.push(Answered {
                    rule: rule.name.clone(),
                    bytes,
                    judged,
                }),
                Err(16) => too_large.push(too_many_states(rule)),
                Err(number) => return Err(Stop::Other(internal(rule, number))),
            }
        }
        if too_large.is_empty() {
            return Ok(answers);
        }
        self.diagnostics.extend(too_large);
        self.diagnostics.sort_by_key(|note| note.place);
        Err(Stop::File)
    }
}

/// What a plan without rules is judged by: every complete run spells nothing, of no watched events.
fn no_rule() -> Rule {
    Rule {
        name: String::new(),
        place: Place::default(),
        kind: Kind::Every,
        alphabet: 0,
        items: vec![Item::Empty],
    }
}

fn too_many_states(rule: &Rule) -> Diagnostic {
    let name = quoted(&rule.name);
    let message = format!("the pattern of rule {name} needs more than 64 states; write it shorter, or as several rules");
    Diagnostic::error(rule.place, message)
}

/// Words that were read without an error are never refused but for their states.
fn internal(rule: &Rule, number: u32) -> String {
    let name = quoted(&rule.name);
    format!("internal error: the plan under rule {name} is refused {number}")
}

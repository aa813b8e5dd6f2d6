//! The words and options behind a command.
use crate::diagnostic::{hint, quoted};
use crate::help::Command;
use std::ffi::{OsStr, OsString};

/// What was typed behind a command.
#[derive(Clone, Debug, Default, PartialEq, Eq)]
pub struct Arguments {
    /// File and rules.
    pub words: Vec<OsString>,
    /// What stands behind `-o`.
    pub output: Option<OsString>,
    pub json: bool,
    pub check: bool,
    pub help: bool,
}

impl Arguments {
    /// The word at a place, empty where there is none.
    pub fn word(&self, place: usize) -> &OsStr {
        self.words.get(place).map_or(OsStr::new(""), |word| word)
    }

    /// The words behind the file: names of rules.
    pub fn rules(&self) -> Vec<String> {
        let rules = self.words.iter().skip(1);
        rules
            .map(|rule| rule.to_string_lossy().into_owned())
            .collect()
    }
}

/// Reads what was typed behind a command, or tells what is wrong with it. A `-` alone is a word, and behind `--` everything is.
pub fn arguments(command: &Command, typed: &[OsString]) -> Result<Arguments, String> {
    let mut read = Arguments::default();
    let mut typed = typed.iter();
    while let Some(word) = typed.next() {
        match word.to_string_lossy().as_ref() {
            "--" => read.words.extend(typed.by_ref().cloned()),
            "-" => read.words.push(word.clone()),
            "--help" | "-h" => read.help = true,
            option if option.starts_with('-') => {
                known(command, option)?;
                take(&mut read, option, &mut typed)?;
            }
            _ => read.words.push(word.clone()),
        }
    }
    if !read.help {
        counted(command, &read.words)?;
    }
    Ok(read)
}

/// Takes an option that the command has.
fn take<'a>(
    read: &mut Arguments,
    option: &str,
    typed: &mut impl Iterator<Item = &'a OsString>,
) -> Result<(), String> {
    match option {
        "--json" => read.json = true,
        "--check" => read.check = true,
        _ => {
            let output = typed.next().ok_or(format!("no file behind '{option}'"))?;
            if read.output.replace(output.clone()).is_some() {
                return Err(format!("'{option}' stands twice"));
            }
        }
    }
    Ok(())
}

/// Whether the command has an option.
fn known(command: &Command, option: &str) -> Result<(), String> {
    if command.options.contains(&option) {
        return Ok(());
    }
    let options = command.options.iter().copied().chain(["--help"]);
    let hint = hint(option, options);
    Err(format!(
        "{} has no option {}{hint}",
        command.name,
        quoted(option)
    ))
}

/// Whether the words are as many as the command takes.
fn counted(command: &Command, words: &[OsString]) -> Result<(), String> {
    if words.len() < command.least {
        return Err(format!("{} of which file? {}", command.name, command.usage));
    }
    match words.get(command.most) {
        None => Ok(()),
        Some(word) => Err(too_much(word, command.usage)),
    }
}

/// What is said of a word that is not taken.
pub fn too_much(word: &OsStr, usage: &str) -> String {
    format!("{} is too much: {usage}", quoted(&word.to_string_lossy()))
}

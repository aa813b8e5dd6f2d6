//! From words to declarations. After an error the reading goes on, so that all errors of a file are told.
use crate::diagnostic::{nearest, quoted, Diagnostic};
use crate::lex::{Kind, Word};
use crate::model::Place;
use crate::syntax::{Channel, File, Name};
use std::collections::{BTreeMap, HashSet};

mod job;
mod pattern;
mod rule;

/// The words with which declarations begin.
const DECLARATIONS: [&str; 8] = [
    "plan", "event", "channel", "job", "jobs", "service", "services", "rule",
];
/// The words with which lines of a job begin that are no chains.
const JOB_LINES: [&str; 1] = ["nodes"];
/// The words with which lines of a rule begin.
const RULE_LINES: [&str; 3] = ["every", "never", "watch"];
pub struct Parsed {
    pub file: File,
    pub diagnostics: Vec<Diagnostic>,
    /// Names in lines that could not be read, and that may have declared them.
    pub skipped: HashSet<String>,
    /// The lines with which something begins, and how deep it is: 0 for a declaration, 1 for a line inside. All other lines go on.
    pub beginnings: BTreeMap<usize, usize>,
}

pub fn parse(words: &[Word]) -> Parsed {
    let mut parser = Parser {
        words,
        at: 0,
        line: 0,
        broken: false,
        parsed: Parsed {
            file: File::default(),
            diagnostics: Vec::new(),
            skipped: HashSet::new(),
            beginnings: BTreeMap::new(),
        },
    };
    parser.plan();
    while let Some(word) = parser.peek() {
        match parser.meant(word, &DECLARATIONS) {
            Some(declaration) => parser.declaration(declaration),
            None => parser.stray(word),
        }
    }
    parser.parsed
}

/// Reads words in turn. Each reading function leaves the reader at the beginning of a line.
struct Parser<'a> {
    words: &'a [Word<'a>],
    at: usize,
    /// The line of the word that was read last.
    line: usize,
    /// Whether an error was told since the last beginning.
    broken: bool,
    parsed: Parsed,
}

impl<'a> Parser<'a> {
    /// The next word.
    fn peek(&self) -> Option<Word<'a>> {
        self.words.get(self.at).copied()
    }

    /// The next word, if it stands in the line that is being read.
    fn here(&self) -> Option<Word<'a>> {
        self.peek().filter(|word| word.place.line == self.line)
    }

    /// The word that was read last.
    fn last(&self) -> Option<Word<'a>> {
        self.words.get(self.at.checked_sub(1)?).copied()
    }

    fn advance(&mut self) {
        if let Some(word) = self.peek() {
            self.line = word.place.line;
            self.at += 1;
        }
    }

    /// Whether the next word begins a line.
    fn at_line_start(&self) -> bool {
        self.here().is_none()
    }

    /// Reads the first word of something that begins with its line.
    fn begin(&mut self, depth: usize) {
        self.advance();
        self.broken = false;
        self.parsed.beginnings.insert(self.line, depth);
    }

    fn error(&mut self, place: Place, message: impl Into<String>) {
        self.broken = true;
        let error = Diagnostic::error(place, message);
        self.parsed.diagnostics.push(error);
    }

    /// Tells what is due where another word stands, or the line ends. What is broken has been told.
    fn due(&mut self, message: impl Into<String>) {
        self.broken = true;
        match self.here() {
            Some(word) if word.kind == Kind::Broken => (),
            Some(word) => self.error(word.place, message),
            None => {
                let place = self.last().map_or(FIRST, |word| word.end());
                self.error(place, message);
            }
        }
    }

    /// Tells that a name is due: `after 'event' comes a name`.
    fn name_due(&mut self, message: String) {
        match self.here() {
            Some(word) if word.kind == Kind::Keyword => self.due(no_name(word)),
            _ => self.due(message),
        }
    }

    /// The next word as a name, if it is one.
    fn take_name(&mut self, word: Option<Word<'a>>) -> Option<Name> {
        let word = word.filter(|word| matches!(word.kind, Kind::Name | Kind::Broken))?;
        self.advance();
        Some(name(word))
    }

    /// Whether the next word of the line is the given one. Then it is read.
    fn take(&mut self, text: &str) -> bool {
        let found = self.here().is_some_and(|word| word.is(text));
        if found {
            self.advance();
        }
        found
    }

    /// A number from 1 to `most`.
    fn number(&mut self, word: Option<Word<'a>>, most: usize) -> Option<usize> {
        let number = word.filter(|word| word.kind == Kind::Number);
        let number = number.and_then(|word| word.text.parse().ok());
        let number = number.filter(|number| (1..=most).contains(number));
        if number.is_some() {
            self.advance();
        } else {
            self.due(format!("after 'times' comes a number from 1 to {most}"));
        }
        number
    }

    /// Reads one of the known words of the notation; where a name stands that is nearly one, tells so and goes on.
    fn expect(
        &mut self,
        word: Option<Word<'a>>,
        known: &[&'static str],
        message: String,
    ) -> Option<&'static str> {
        let Some((word, meant)) = word.and_then(|word| Some((word, self.meant(word, known)?)))
        else {
            self.due(message);
            return None;
        };
        self.advance();
        self.tell_meant(word, meant);
        Some(meant)
    }

    /// Tells of a word that is not the one that is meant.
    fn tell_meant(&mut self, word: Word<'a>, meant: &str) {
        if !word.is(meant) {
            let text = quoted(word.text);
            self.error(
                word.place,
                format!("unknown word {text}; did you mean '{meant}'?"),
            );
        }
    }

    /// Skips the words of this line.
    fn skip_line(&mut self) {
        while self.here().is_some() {
            self.advance();
        }
    }

    /// Skips the line whose first word is next.
    fn skip_line_from_start(&mut self) {
        self.advance();
        self.skip_line();
    }

    /// Skips the words of this line, which may have declared names.
    fn skip_declared(&mut self) {
        while let Some(word) = self.here() {
            if word.kind == Kind::Name {
                self.parsed.skipped.insert(word.text.to_string());
            }
            self.advance();
        }
    }

    /// Tells what stands where the line should end, and skips it.
    fn line_end(&mut self) {
        if let (Some(last), Some(word)) = (self.last(), self.here()) {
            let (last, text) = (quoted(last.text), quoted(word.text));
            self.due(format!(
                "the line ends behind {last}, and {text} is too much"
            ));
            self.skip_declared();
        }
    }

    /// Tells what stands in a list of names and is none, and skips it.
    fn list_end(&mut self) {
        if let Some(word) = self.here() {
            self.name_due(format!("{} has no place here", quoted(word.text)));
            self.skip_declared();
        }
    }

    /// Which of the known words of the notation a word is, or nearly is. `plan` is meant in the first place only.
    fn meant(&self, word: Word<'a>, known: &[&'static str]) -> Option<&'static str> {
        if let Some(found) = known.iter().find(|text| word.is(text)) {
            return Some(found);
        }
        if word.kind != Kind::Name {
            return None;
        }
        let known = known.iter().copied();
        nearest(
            word.text,
            known.filter(|text| *text != "plan" || self.at == 0),
        )
    }

    /// Reads the first word of a line, which is `meant`, and tells if it is another word.
    fn begin_as(&mut self, meant: &str, depth: usize) {
        let first = self.peek();
        self.begin(depth);
        if let Some(word) = first {
            self.tell_meant(word, meant);
        }
    }

    /// The first line of a file.
    fn plan(&mut self) {
        let first = self.peek();
        let meant = first.and_then(|word| self.meant(word, &DECLARATIONS));
        if meant == Some("plan") {
            self.begin_as("plan", 0);
            self.plan_name();
        } else {
            let place = first.map_or(FIRST, |word| word.place);
            self.error(place, "the file does not begin with 'plan' and a name");
            self.broken = false;
        }
    }

    fn plan_name(&mut self) {
        self.parsed.file.plan = self.one_name("plan");
        self.line_end();
    }

    /// The name behind a word.
    fn one_name(&mut self, word: &str) -> Option<Name> {
        let name = self.take_name(self.here());
        if name.is_none() {
            self.name_due(format!("after '{word}' comes a name"));
            self.skip_declared();
        }
        name
    }

    /// The names behind a word, one at least.
    fn names(&mut self, word: &str) -> Vec<Name> {
        let mut names: Vec<Name> = self.one_name(word).into_iter().collect();
        while let Some(name) = self.take_name(self.here()) {
            names.push(name);
        }
        names
    }

    fn declaration(&mut self, word: &'static str) {
        self.begin_as(word, 0);
        match word {
            "plan" => self.another_plan(),
            "event" => self.events(),
            "channel" => self.channels(),
            "rule" => self.rule(),
            _ => self.job(word),
        }
    }

    fn another_plan(&mut self) {
        if let (Some(first), Some(word)) = (self.parsed.file.plan.clone(), self.last()) {
            let line = first.place.line;
            let message = format!("the plan has its name in line {line}; a file holds one plan");
            self.error(word.place, message);
            self.skip_line();
        } else {
            self.plan_name();
        }
    }

    fn events(&mut self) {
        let names = self.names("event");
        self.parsed.file.events.extend(names);
        self.list_end();
    }

    fn channels(&mut self) {
        let names = self.names("channel");
        let gives = self.channel_event();
        match gives {
            Some(_) => self.line_end(),
            None => self.list_end(),
        }
        for name in names {
            let gives = gives.clone();
            self.parsed.file.channels.push(Channel { name, gives });
        }
    }

    /// The event behind `gives`, if that stands there.
    fn channel_event(&mut self) -> Option<Name> {
        if !self.take("gives") {
            return None;
        }
        let event = self.take_name(self.here());
        if event.is_none() {
            self.name_due("after 'gives' comes an event".to_string());
            self.skip_line();
        }
        event
    }

    /// A line that begins with no declaration, outside of jobs and rules: it is told, and skipped with what follows it.
    fn stray(&mut self, word: Word<'a>) {
        if !self.goes_on(word) {
            let message = stray(word).unwrap_or_else(|| {
                "a line outside of jobs and rules begins with 'event', 'channel', 'job', 'jobs', 'service', 'services' or 'rule'".to_string()
            });
            self.told_line(word, message);
            if word.kind == Kind::Name {
                self.parsed.skipped.insert(word.text.to_string());
            }
        }
        while let Some(word) = self.peek() {
            if self.at_line_start() && DECLARATIONS.iter().any(|text| word.is(text)) {
                return;
            }
            self.advance();
            if word.kind == Kind::Name {
                self.parsed.skipped.insert(word.text.to_string());
            }
        }
    }

    /// Whether a line goes on with something that is told to be broken.
    fn goes_on(&self, word: Word<'a>) -> bool {
        let begins = JOB_LINES
            .iter()
            .chain(&RULE_LINES)
            .any(|text| word.is(text));
        self.broken && !begins && !matches!(word.kind, Kind::Name | Kind::Broken)
    }

    /// Tells of a line at its first word, and reads that.
    fn told_line(&mut self, word: Word<'a>, message: String) {
        self.advance();
        if word.kind != Kind::Broken {
            self.error(word.place, message);
        }
        self.broken = true;
    }
}

const FIRST: Place = Place { line: 1, column: 1 };

fn name(word: Word) -> Name {
    Name {
        text: word.text.to_string(),
        place: word.place,
        broken: word.kind == Kind::Broken,
    }
}

fn no_name(word: Word) -> String {
    format!(
        "{} is a word of the notation and no name",
        quoted(word.text)
    )
}

/// The error of a line that stands outside of the job or rule in which it belongs.
fn stray(word: Word) -> Option<String> {
    if word.is("nodes") {
        return Some("'nodes' stands in a job".to_string());
    }
    if RULE_LINES.iter().any(|text| word.is(text)) {
        return Some(format!("{} stands in a rule", quoted(word.text)));
    }
    None
}

//! The words of a text: names, words of the notation, numbers and signs, with their places; and its comments.
use crate::diagnostic::{quoted, unseen, Diagnostic};
use crate::model::Place;
use crate::source::is_control;
use std::collections::HashSet;

/// The words of the notation, which are no names.
pub const KEYWORDS: [&str; 19] = [
    "plan", "event", "channel", "gives", "job", "jobs", "service", "services", "from", "to",
    "times", "nodes", "then", "calls", "accepts", "rule", "every", "never", "watch",
];

const SIGNS: &str = ";|*+?()[]^";

/// How many characters a name has at most.
pub const LONGEST_NAME: usize = 64;

#[derive(Clone, Copy, Debug, PartialEq, Eq)]
pub enum Kind {
    Name,
    /// What stands where a word should and is none. Its error is told.
    Broken,
    Number,
    Keyword,
    Sign,
}

#[derive(Clone, Copy, Debug)]
pub struct Word<'a> {
    pub kind: Kind,
    pub text: &'a str,
    pub place: Place,
}

impl Word<'_> {
    /// Whether this is the given word of the notation or sign.
    pub fn is(&self, text: &str) -> bool {
        matches!(self.kind, Kind::Keyword | Kind::Sign) && self.text == text
    }

    /// The place right behind the word.
    pub fn end(&self) -> Place {
        Place {
            column: self.place.column + self.text.chars().count(),
            ..self.place
        }
    }
}

/// A comment, with its `#`.
#[derive(Clone, Copy, Debug)]
pub struct Comment<'a> {
    pub text: &'a str,
    pub line: usize,
}

#[derive(Default)]
pub struct Lexed<'a> {
    pub words: Vec<Word<'a>>,
    pub comments: Vec<Comment<'a>>,
    pub diagnostics: Vec<Diagnostic>,
    /// Names that are too long, and told to be.
    long: HashSet<&'a str>,
    /// Characters of this line that are told to be none of the notation.
    strange: HashSet<char>,
}

pub fn lex(text: &str) -> Lexed<'_> {
    let mut lexed = Lexed::default();
    for (i, line) in text.split('\n').enumerate() {
        lexed.strange.clear();
        lexed.line(line, i + 1);
    }
    lexed
}

impl<'a> Lexed<'a> {
    fn line(&mut self, text: &'a str, line: usize) {
        let mut place = Place { line, column: 1 };
        let mut rest = text;
        while let Some(first) = rest.chars().next() {
            if first == '#' {
                self.comments.push(Comment { text: rest, line });
                return;
            }
            let (piece, after) = rest.split_at(piece_length(rest, first));
            self.piece(piece, first, place);
            place.column += piece.chars().count();
            rest = after;
        }
    }

    /// A sign, a run of other characters, or a character between them.
    fn piece(&mut self, text: &'a str, first: char, place: Place) {
        if SIGNS.contains(first) {
            self.push(Kind::Sign, text, place);
        } else if first == ',' {
            self.strange(first, place);
        } else if !is_blank(first) {
            self.run(text, place);
        }
    }

    fn push(&mut self, kind: Kind, text: &'a str, place: Place) {
        self.words.push(Word { kind, text, place });
    }

    /// A word. Strange characters at its ends are left out.
    fn run(&mut self, run: &'a str, place: Place) {
        let strange = self.strange_characters(run, place);
        let text = run.trim_matches(|c| !in_name(c));
        let before = run.len() - run.trim_start_matches(|c| !in_name(c)).len();
        if text.is_empty() {
            return self.push(Kind::Broken, run, place);
        }
        let column = place.column + run[..before].chars().count();
        let place = Place { column, ..place };
        let kind = self.kind(text, place, strange);
        self.push(kind, text, place);
    }

    /// Tells the strange characters of a run, and whether there are any.
    fn strange_characters(&mut self, run: &str, place: Place) -> bool {
        let mut any = false;
        for (i, c) in run.chars().enumerate().filter(|&(_, c)| !in_name(c)) {
            let column = place.column + i;
            self.strange(c, Place { column, ..place });
            any = true;
        }
        any
    }

    /// Tells a character that is none of the notation, once a line.
    fn strange(&mut self, c: char, place: Place) {
        if !self.strange.insert(c) {
            return;
        }
        let mut message = format!("{} is no part of the notation", character(c));
        if c == ',' {
            message += ": names stand one after the other, with blanks between them; in a pattern ';' says what comes next";
        }
        self.diagnostics.push(Diagnostic::error(place, message));
    }

    fn kind(&mut self, text: &'a str, place: Place, told: bool) -> Kind {
        if KEYWORDS.contains(&text) {
            return Kind::Keyword;
        }
        if text.chars().all(|c| c.is_ascii_digit()) {
            return Kind::Number;
        }
        let begins = text.starts_with(|c: char| c.is_alphabetic() || c == '_');
        if !begins || !text.chars().all(in_name) {
            if !told {
                let message = format!(
                    "{} is no name: a name begins with a letter or '_'",
                    quoted(text)
                );
                self.diagnostics.push(Diagnostic::error(place, message));
            }
            return Kind::Broken;
        }
        self.name(text, place)
    }

    fn name(&mut self, text: &'a str, place: Place) -> Kind {
        let length = text.chars().count();
        if length <= LONGEST_NAME {
            return Kind::Name;
        }
        if self.long.insert(text) {
            let message = format!(
                "the name has {length} characters, and at most {LONGEST_NAME} are possible"
            );
            self.diagnostics.push(Diagnostic::error(place, message));
        }
        Kind::Broken
    }
}

/// How many bytes the first piece of a line has.
fn piece_length(text: &str, first: char) -> usize {
    if ends_run(first) {
        first.len_utf8()
    } else {
        text.find(ends_run).unwrap_or(text.len())
    }
}

fn ends_run(c: char) -> bool {
    is_blank(c) || SIGNS.contains(c) || c == ',' || c == '#'
}

/// Control characters count as blanks here; the error is told with the bytes.
fn is_blank(c: char) -> bool {
    c == ' ' || c == '\t' || is_control(c)
}

fn in_name(c: char) -> bool {
    c.is_alphanumeric() || c == '-' || c == '_'
}

/// A character in quotation marks, by its number where it would not be seen.
fn character(c: char) -> String {
    if c.is_whitespace() || unseen(c) {
        format!("U+{:04X}", c as u32)
    } else {
        format!("'{c}'")
    }
}

//! From words to the parts of a pattern, in postfix form.
use super::{no_name, Parser};
use crate::diagnostic::quoted;
use crate::lex::{Kind, Word};
use crate::syntax::{Name, Part};

/// How deep brackets may be nested.
const DEEPEST: usize = 100;

/// A pattern as far as it is read.
struct Expression<'a, 'm> {
    parts: Vec<Part>,
    mentions: &'m mut Vec<(&'static str, Name)>,
    /// The word behind which a unit is due.
    behind: Word<'a>,
}

/// Says that a pattern is broken, and that its error is told.
struct Broken;

impl<'a> Parser<'a> {
    /// The pattern behind `every` or `never`, which was read last; None where it is broken. The events that it names are added to the
    /// mentions.
    pub(super) fn pattern(
        &mut self,
        mentions: &mut Vec<(&'static str, Name)>,
    ) -> Option<Vec<Part>> {
        let mut e = Expression {
            parts: Vec::new(),
            mentions,
            behind: self.last()?,
        };
        self.choice(&mut e, 0).ok()?;
        match self.operator() {
            None => Some(e.parts),
            Some(word) => {
                self.no_operator(word);
                None
            }
        }
    }

    /// Sequences with `|` between them.
    fn choice(&mut self, e: &mut Expression<'a, '_>, depth: usize) -> Result<(), Broken> {
        self.sequence(e, depth)?;
        while let Some(word) = self.take_sign("|") {
            e.behind = word;
            self.sequence(e, depth)?;
            e.parts.push(Part::Choice);
        }
        Ok(())
    }

    /// Repeated units with `;` between them.
    fn sequence(&mut self, e: &mut Expression<'a, '_>, depth: usize) -> Result<(), Broken> {
        self.repeated(e, depth)?;
        while let Some(word) = self.take_sign(";") {
            e.behind = word;
            self.repeated(e, depth)?;
            e.parts.push(Part::Sequence);
        }
        Ok(())
    }

    /// A unit with what stands behind it: `*`, `+`, `?` and `times`.
    fn repeated(&mut self, e: &mut Expression<'a, '_>, depth: usize) -> Result<(), Broken> {
        self.unit(e, depth)?;
        while let Some(part) = self.repetition()? {
            e.parts.push(part);
        }
        Ok(())
    }

    fn repetition(&mut self) -> Result<Option<Part>, Broken> {
        let Some(word) = self.pattern_word() else {
            return Ok(None);
        };
        let part = match word.text {
            "*" => Part::Star,
            "+" => Part::Plus,
            "?" => Part::Optional,
            "times" => {
                self.advance();
                let number = self.number(self.pattern_word(), 64);
                return number.map(|n| Some(Part::Times(n))).ok_or(Broken);
            }
            _ => return Ok(None),
        };
        self.advance();
        Ok(Some(part))
    }

    /// An event, a set, `0`, or a pattern in brackets.
    fn unit(&mut self, e: &mut Expression<'a, '_>, depth: usize) -> Result<(), Broken> {
        let word = self.pattern_word();
        if let Some(name) = self.take_name(word) {
            e.parts.push(Part::Event(e.mentions.len()));
            e.mentions.push(("a pattern takes events", name));
            return Ok(());
        }
        let Some(word) = word else {
            return self.unit_missing(e);
        };
        match word.text {
            "0" => {
                self.advance();
                e.parts.push(Part::Empty);
                Ok(())
            }
            "(" => self.brackets(e, word, depth),
            "[" => self.set(e, word),
            _ => self.no_unit(e, word, depth),
        }
    }

    fn brackets(
        &mut self,
        e: &mut Expression<'a, '_>,
        open: Word<'a>,
        depth: usize,
    ) -> Result<(), Broken> {
        if depth == DEEPEST {
            let message = format!("brackets stand more than {DEEPEST} deep in one another");
            self.error(open.place, message);
            return Err(Broken);
        }
        self.advance();
        e.behind = open;
        self.choice(e, depth + 1)?;
        match self.operator() {
            None => self.error(open.place, "this '(' is not closed"),
            Some(word) if word.is(")") => {
                self.advance();
                return Ok(());
            }
            Some(word) => self.no_operator(word),
        }
        Err(Broken)
    }

    fn set(&mut self, e: &mut Expression<'a, '_>, open: Word<'a>) -> Result<(), Broken> {
        self.advance();
        let except = self.take_sign("^").is_some();
        let first = e.mentions.len();
        while let Some(name) = self.take_name(self.pattern_word()) {
            e.mentions.push(("a pattern takes events", name));
        }
        let events = first..e.mentions.len();
        e.parts.push(Part::Set { except, events });
        match self.pattern_word() {
            None => self.error(open.place, "this '[' is not closed"),
            Some(word) if word.is("]") => {
                self.advance();
                return Ok(());
            }
            Some(word) if word.kind == Kind::Keyword => self.error(word.place, no_name(word)),
            Some(word) if word.is("^") => self.error(word.place, MISPLACED),
            Some(word) => {
                let message = format!("{} has no place between '[' and ']'", quoted(word.text));
                self.error(word.place, message);
            }
        }
        Err(Broken)
    }

    fn take_sign(&mut self, sign: &str) -> Option<Word<'a>> {
        let word = self.pattern_word().filter(|word| word.is(sign))?;
        self.advance();
        Some(word)
    }

    /// The word that stands where an operator is due; None where the pattern ends.
    fn operator(&self) -> Option<Word<'a>> {
        let word = self.pattern_word()?;
        let ends = self.at_line_start() && self.means_other(word);
        Some(word).filter(|_| !ends)
    }

    /// The error where the pattern ends and a unit is due.
    fn unit_missing(&mut self, e: &Expression<'a, '_>) -> Result<(), Broken> {
        let message = match e.behind.text {
            "(" => "this '(' is not closed".to_string(),
            text => format!("no pattern stands behind '{text}'"),
        };
        self.error(e.behind.place, message);
        Err(Broken)
    }

    /// The error of a word that stands where a unit is due.
    fn no_unit(
        &mut self,
        e: &Expression<'a, '_>,
        word: Word<'a>,
        depth: usize,
    ) -> Result<(), Broken> {
        let message = match word.text {
            ")" if depth > 0 && !e.behind.is("(") => return self.unit_missing(e),
            ")" if depth > 0 => NOTHING_INSIDE.to_string(),
            ";" | "|" | "*" | "+" | "?" | "times" => {
                format!("no pattern stands before '{}'", word.text)
            }
            _ if word.kind == Kind::Number => no_pattern(word),
            _ => misplaced(word),
        };
        self.error(word.place, message);
        Err(Broken)
    }

    /// Tells of a word that stands where an operator is due.
    fn no_operator(&mut self, word: Word<'a>) {
        let missing =
            word.is("(") || word.is("[") || word.kind == Kind::Name || word.kind == Kind::Number;
        if missing {
            let message = format!("before {} stands neither ';' nor '|'", quoted(word.text));
            self.error(word.place, message);
        } else if word.kind != Kind::Broken {
            self.error(word.place, misplaced(word));
        }
    }
}

const MISPLACED: &str = "'^' stands only right behind '['";
const NOTHING_INSIDE: &str = "no pattern stands between '(' and ')'; the empty string is 0";

/// The error of a number that stands where a unit is due.
fn no_pattern(word: Word) -> String {
    let text = word.text;
    let message = format!("{} is no pattern; 0 is the empty string", quoted(text));
    match text.parse() {
        Ok(1..=64) => format!("{message}, and 'times {text}' repeats what stands before it"),
        _ => message,
    }
}

/// The error of a word that has no place where it stands.
fn misplaced(word: Word) -> String {
    match word.text {
        "^" => MISPLACED.to_string(),
        ")" | "]" => format!("this '{}' closes nothing", word.text),
        _ => no_name(word),
    }
}

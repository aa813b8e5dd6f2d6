//! From words to rules: what they watch, and where their pattern begins and ends.
use super::{stray, Parser, DECLARATIONS, FIRST, RULE_LINES};
use crate::diagnostic::quoted;
use crate::lex::{Kind, Word};
use crate::model;
use crate::syntax::{Name, Pattern, Rule};

impl<'a> Parser<'a> {
    pub(super) fn rule(&mut self) {
        let place = self.last().map_or(FIRST, |word| word.place);
        let name = self.one_name("rule").unwrap_or(Name {
            text: String::new(),
            place,
            broken: true,
        });
        match self.here() {
            Some(word) if RULE_LINES.contains(&word.text) => {
                let message = format!("{} begins a line of its own", quoted(word.text));
                self.error(word.place, message);
            }
            _ => self.line_end(),
        }
        let mut rule = Rule {
            name,
            pattern: None,
            mentions: Vec::new(),
        };
        let judged = self.rule_lines(&mut rule);
        if !judged {
            self.error(rule.name.place, "the rule has neither 'every' nor 'never'");
        }
        self.parsed.file.rules.push(rule);
    }

    /// The lines of a rule, up to the next declaration. Whether there is one with a pattern, or one that may have been meant so.
    fn rule_lines(&mut self, rule: &mut Rule) -> bool {
        let mut pattern_line = None;
        let mut strays = false;
        while let Some(word) = self.peek() {
            match self.meant(word, &RULE_LINES) {
                Some("watch") => self.watch(rule),
                Some(kind) => {
                    self.pattern_line(kind, rule, pattern_line);
                    pattern_line.get_or_insert(word.place.line);
                }
                None if self.meant(word, &DECLARATIONS).is_some() => break,
                None => {
                    self.stray_in_rule(word);
                    strays = true;
                }
            }
        }
        pattern_line.is_some() || strays
    }

    fn watch(&mut self, rule: &mut Rule) {
        self.begin_as("watch", 1);
        let names = self.names("watch");
        rule.mentions
            .extend(names.into_iter().map(|name| ("'watch' takes events", name)));
        self.list_end();
    }

    /// A line with `every` or `never`.
    fn pattern_line(&mut self, word: &'static str, rule: &mut Rule, earlier: Option<usize>) {
        self.begin_as(word, 1);
        if let (Some(line), Some(word)) = (earlier, self.last()) {
            let message = format!(
                "the rule has its pattern in line {line}; a rule has one 'every' or 'never'"
            );
            self.error(word.place, message);
            return self.skip_pattern();
        }
        let kind = match word {
            "every" => model::Kind::Every,
            _ => model::Kind::Never,
        };
        let place = self.last().map_or(FIRST, |word| word.place);
        match self.pattern(&mut rule.mentions) {
            Some(parts) => rule.pattern = Some(Pattern { kind, place, parts }),
            None => self.skip_pattern(),
        }
    }

    /// The next word, if it may belong to the pattern that is being read.
    pub(super) fn pattern_word(&self) -> Option<Word<'a>> {
        let word = self.peek()?;
        let ends = word.kind == Kind::Keyword && !word.is("times");
        Some(word).filter(|_| !ends || !self.at_line_start())
    }

    /// Skips what is left of a pattern.
    fn skip_pattern(&mut self) {
        while let Some(word) = self.pattern_word() {
            if self.at_line_start() && self.means_other(word) {
                return;
            }
            self.advance();
        }
    }

    /// Whether a word that begins a line is nearly one with which lines of a rule or declarations begin.
    pub(super) fn means_other(&self, word: Word<'a>) -> bool {
        self.meant(word, &RULE_LINES).is_some() || self.meant(word, &DECLARATIONS).is_some()
    }

    fn stray_in_rule(&mut self, word: Word<'a>) {
        if self.goes_on(word) {
            return self.skip_line_from_start();
        }
        let message = stray(word).unwrap_or_else(|| {
            "a line of a rule begins with 'every', 'never' or 'watch'".to_string()
        });
        self.told_line(word, message);
        self.skip_pattern();
    }
}

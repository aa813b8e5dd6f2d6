//! From words to jobs: their heads, their nodes and their chains of moves.
use super::{name, stray, Parser, DECLARATIONS, JOB_LINES};
use crate::diagnostic::{nearest, quoted};
use crate::lex::{Kind, Word};
use crate::syntax::{Job, Label, Move, Name};

/// The words with which moves begin.
const MOVES: [&str; 4] = ["gives", "calls", "accepts", "then"];

/// The kinds of lines in a job.
enum JobLine {
    Chain,
    Nodes,
    Stray,
    End,
}

impl<'a> Parser<'a> {
    /// A job or service, or several.
    pub(super) fn job(&mut self, word: &'static str) {
        let mut job = Job {
            standing: word.starts_with("service"),
            names: Vec::new(),
            times: None,
            entry: None,
            exit: None,
            nodes: None,
            moves: Vec::new(),
        };
        if self.job_head(word, &mut job).is_none() {
            self.skip_line();
        }
        self.line_end();
        self.job_lines(&mut job);
        self.parsed.file.jobs.push(job);
    }

    /// The first line of a job. None where it is broken.
    fn job_head(&mut self, word: &'static str, job: &mut Job) -> Option<()> {
        if word.ends_with('s') {
            job.names = self.names(word);
            self.no_times()?;
        } else {
            job.names.extend(self.one_name(word));
            self.no_second_name(word, &mut job.names);
            job.times = self.times()?;
        }
        if job.names.is_empty() {
            return None;
        }
        job.entry = Some(self.end_node("from")?);
        if job.standing {
            return self.no_exit();
        }
        job.exit = Some(self.end_node("to")?);
        Some(())
    }

    /// `times` behind `jobs` or `services` is an error.
    fn no_times(&mut self) -> Option<()> {
        let Some(word) = self.here().filter(|word| word.is("times")) else {
            return Some(());
        };
        let message = "'times' stands behind 'job' or 'service' and one name";
        self.error(word.place, message);
        None
    }

    /// Further names behind `job` or `service` are an error. They are read as copies.
    fn no_second_name(&mut self, word: &str, names: &mut Vec<Name>) {
        let known = ["from", "times"];
        let second = self.here().filter(|second| second.kind == Kind::Name);
        let second = second.filter(|second| nearest(second.text, known.into_iter()).is_none());
        // where neither follows it is missing, and that is told
        let follows = self
            .rest_of_line()
            .any(|w| known.iter().any(|text| w.is(text)));
        if let Some(second) = second.filter(|_| follows && !names.is_empty()) {
            let message = format!("'{word}' takes one name; several stand behind '{word}s'");
            self.error(second.place, message);
            names.extend(self.names(word));
        }
    }

    /// The number behind `times`, if that stands there. None where it is broken.
    fn times(&mut self) -> Option<Option<usize>> {
        if !self.take("times") {
            return Some(None);
        }
        self.number(self.here(), 16).map(Some)
    }

    /// The words from the next one to the end of its line.
    fn rest_of_line(&self) -> impl Iterator<Item = &Word<'a>> {
        let words = self.words.get(self.at..).unwrap_or(&[]);
        let line = words.first().map_or(0, |first| first.place.line);
        words.iter().take_while(move |word| word.place.line == line)
    }

    /// `from` or `to`, and the node behind it.
    fn end_node(&mut self, word: &'static str) -> Option<Name> {
        let message = format!("after {} comes '{word}' and a node", self.before(word));
        self.expect(self.here(), &[word], message)?;
        self.node(self.here(), word)
    }

    /// What was read last in the head of a job: the name or number, or `from` with its node.
    fn before(&self, word: &str) -> String {
        let last = self.last().map_or("", |last| last.text);
        if word == "to" {
            quoted(&format!("from {last}"))
        } else {
            quoted(last)
        }
    }

    /// The node behind a word.
    fn node(&mut self, word: Option<Word<'a>>, behind: &str) -> Option<Name> {
        let node = self.take_name(word);
        if node.is_none() {
            self.name_due(format!("after '{behind}' comes a node"));
        }
        node
    }

    fn no_exit(&mut self) -> Option<()> {
        let Some(word) = self.here().filter(|word| word.is("to")) else {
            return Some(());
        };
        self.error(word.place, "a service never ends: it takes no 'to'");
        None
    }

    /// The lines of a job, up to the next declaration.
    fn job_lines(&mut self, job: &mut Job) {
        while let Some(word) = self.peek() {
            match self.job_line(word) {
                JobLine::Chain => self.chain(job),
                JobLine::Nodes => self.nodes(job),
                JobLine::Stray => self.stray_in_job(word),
                JobLine::End => return,
            }
        }
    }

    /// What kind of line begins with this word.
    fn job_line(&self, word: Word<'a>) -> JobLine {
        if DECLARATIONS.iter().any(|text| word.is(text)) {
            return JobLine::End;
        }
        if word.is("nodes") {
            return JobLine::Nodes;
        }
        match word.kind {
            Kind::Name if self.is_chain() => JobLine::Chain,
            Kind::Name if self.meant(word, &JOB_LINES).is_some() => JobLine::Nodes,
            Kind::Name if self.meant(word, &DECLARATIONS).is_some() => JobLine::End,
            Kind::Name | Kind::Broken => JobLine::Chain,
            _ => JobLine::Stray,
        }
    }

    /// Whether a move, or the end of the line, follows the next word, or the line has a word that stands in moves only.
    fn is_chain(&self) -> bool {
        let mut rest = self.rest_of_line().skip(1);
        let Some(second) = rest.next() else {
            return true;
        };
        let moves = |word: &Word| MOVES.iter().any(|text| word.is(text));
        moves(second) || rest.any(|word| moves(word) && !word.is("gives"))
    }

    fn stray_in_job(&mut self, word: Word<'a>) {
        if self.goes_on(word) {
            return self.skip_line_from_start();
        }
        let message = stray(word)
            .unwrap_or_else(|| "a line of a job begins with a node or 'nodes'".to_string());
        self.told_line(word, message);
        self.skip_line();
    }

    fn nodes(&mut self, job: &mut Job) {
        self.begin_as("nodes", 1);
        let names = self.names("nodes");
        job.nodes.get_or_insert_default().extend(names);
        self.list_end();
    }

    /// Moves that lead on from one another.
    fn chain(&mut self, job: &mut Job) {
        let first = self.peek().map(name);
        self.begin(1);
        let mut from = first;
        while let Some(node) = from {
            from = self.next_move(node, job);
        }
        self.skip_line();
    }

    /// The next move of a chain, and the node to which it leads; None where the chain ends or is broken.
    fn next_move(&mut self, from: Name, job: &mut Job) -> Option<Name> {
        let started = job
            .moves
            .last()
            .is_some_and(|last| last.to.place == from.place);
        let word = self.chain_word();
        let moves = word.is_some_and(|word| MOVES.iter().any(|text| word.is(text)));
        if (started && word.is_none()) || (from.broken && !moves) {
            return None;
        }
        let end = if started { ", or the line ends" } else { "" };
        let message = format!(
            "after node {} comes 'gives', 'calls', 'accepts' or 'then'{end}",
            quoted(&from.text)
        );
        let verb = self.expect(word, &MOVES, message)?;
        let place = self.last()?.place;
        let label = self.label(verb)?;
        let to = self.node(self.peek_in_chain(), "then")?;
        let next = to.clone();
        job.moves.push(Move {
            place,
            from,
            label,
            to,
        });
        Some(next)
    }

    /// The next word, if it stands in this line or goes on with the chain.
    fn chain_word(&self) -> Option<Word<'a>> {
        let word = self.peek()?;
        let goes_on = MOVES.iter().any(|text| word.is(text));
        Some(word).filter(|_| goes_on || !self.at_line_start())
    }

    /// The next word inside of a move, in this line or the next.
    fn peek_in_chain(&self) -> Option<Word<'a>> {
        let word = self.peek()?;
        let declares = DECLARATIONS
            .iter()
            .chain(&JOB_LINES)
            .any(|text| word.is(text));
        Some(word).filter(|_| !declares || !self.at_line_start())
    }

    /// What a move gives, calls or accepts, with the `then` behind it.
    fn label(&mut self, verb: &str) -> Option<Label> {
        if verb == "then" {
            return Some(Label::Quiet);
        }
        let Some(name) = self.take_name(self.peek_in_chain()) else {
            let what = if verb == "gives" {
                "an event"
            } else {
                "a channel"
            };
            self.name_due(format!("after '{verb}' comes {what}"));
            return None;
        };
        let message = format!(
            "after {} comes 'then' and a node",
            quoted(&format!("{verb} {}", name.text))
        );
        self.expect(self.chain_word(), &["then"], message)?;
        Some(match verb {
            "gives" => Label::Gives(name),
            "calls" => Label::Calls(name),
            _ => Label::Accepts(name),
        })
    }
}

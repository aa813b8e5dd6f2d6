//! A file laid out: the same words, lines and comments, with blanks and blank lines where they belong.
use crate::diagnostic::Diagnostic;
use crate::lex::{lex, Lexed, Word};
use crate::model::Place;
use crate::parse::{parse, Parsed};
use crate::read::{one_a_place, Read};
use crate::source::{decode, LONGEST};

/// The file laid out, with plain line feeds and without a byte-order mark; or its errors of notation.
pub fn format(bytes: &[u8]) -> Result<String, Read> {
    let source = decode(bytes);
    if !source.errors.is_empty() {
        return Err(Read::new(source.text, None, source.errors));
    }
    let lexed = lex(&source.text);
    let parsed = parse(&lexed.words);
    let errors = one_a_place(lexed.diagnostics.iter().chain(&parsed.diagnostics));
    if !errors.is_empty() {
        return Err(Read::new(source.text, None, errors));
    }
    let text = lay_out(&lines(&source.text, &lexed, &parsed));
    if text.len() > LONGEST {
        let message = "the file is longer than 262,144 bytes when it is laid out";
        let place = Place { line: 1, column: 1 };
        let errors = vec![Diagnostic::error(place, message)];
        return Err(Read::new(source.text, None, errors));
    }
    Ok(text)
}

/// A line of the file.
#[derive(Clone, Default)]
struct Line<'a> {
    words: Vec<Word<'a>>,
    comment: Option<&'a str>,
    /// 0 for a declaration, 1 for a line inside, 2 for one that goes on.
    depth: usize,
}

impl Line<'_> {
    fn is_blank(&self) -> bool {
        self.words.is_empty() && self.comment.is_none()
    }

    /// Whether there is a comment alone.
    fn is_comment(&self) -> bool {
        self.words.is_empty() && self.comment.is_some()
    }

    fn is_code(&self) -> bool {
        !self.words.is_empty()
    }

    /// Whether a job or a rule begins.
    fn is_head(&self) -> bool {
        let heads = ["job", "jobs", "service", "services", "rule"];
        let first = self.words.first().filter(|_| self.depth == 0);
        first.is_some_and(|word| heads.iter().any(|head| word.is(head)))
    }
}

fn lines<'a>(text: &str, lexed: &Lexed<'a>, parsed: &Parsed) -> Vec<Line<'a>> {
    let mut lines = vec![Line::default(); text.split('\n').count()];
    for word in &lexed.words {
        lines[word.place.line - 1].words.push(*word);
    }
    for comment in &lexed.comments {
        lines[comment.line - 1].comment = Some(comment.text);
    }
    for (i, line) in lines.iter_mut().enumerate() {
        line.depth = parsed.beginnings.get(&(i + 1)).copied().unwrap_or(2);
    }
    lines
}

fn lay_out(lines: &[Line]) -> String {
    let depths = comment_depths(lines);
    let mut out: Vec<String> = Vec::new();
    for (i, line) in lines.iter().enumerate() {
        let apart = line.is_blank() || begins_head(lines, i);
        if apart && out.last().is_some_and(|last| !last.is_empty()) {
            out.push(String::new());
        }
        if !line.is_blank() {
            let depth = if line.is_code() {
                line.depth
            } else {
                depths[i]
            };
            out.push(laid_out(line, depth));
        }
    }
    while out.last().is_some_and(|last| last.is_empty()) {
        out.pop();
    }
    out.join("\n") + "\n"
}

/// Whether a job or a rule begins with line `i`, or with comments that stand directly above it, of which line `i` is the first.
fn begins_head(lines: &[Line], i: usize) -> bool {
    if i > 0 && lines[i - 1].is_comment() {
        return false;
    }
    let first_other = lines[i..].iter().find(|line| !line.is_comment());
    first_other.is_some_and(|line| line.is_head())
}

/// How deep each comment that stands alone is: as the next line of its block. Comments at the end of a block belong to it.
fn comment_depths(lines: &[Line]) -> Vec<usize> {
    let above = blocks_above(lines);
    let mut depths = vec![0; lines.len()];
    let (mut direct, mut below) = (false, 0);
    for (i, line) in lines.iter().enumerate().rev() {
        if line.is_blank() {
            direct = false;
        } else if line.is_code() {
            (direct, below) = (true, line.depth);
        } else if direct || below > 0 {
            depths[i] = below;
        } else {
            depths[i] = above[i];
        }
    }
    depths
}

/// How deep lines are that go on with the block directly above, comments aside; 0 below a blank line.
fn blocks_above(lines: &[Line]) -> Vec<usize> {
    let mut depth = 0;
    let mut depths = Vec::new();
    for line in lines {
        if line.is_blank() {
            depth = 0;
        } else if line.is_code() {
            depth = usize::from(line.depth > 0 || line.is_head());
        }
        depths.push(depth);
    }
    depths
}

fn laid_out(line: &Line, depth: usize) -> String {
    let mut text = "  ".repeat(depth);
    for (i, word) in line.words.iter().enumerate() {
        if i > 0 && apart(&line.words[i - 1], word) {
            text.push(' ');
        }
        text.push_str(word.text);
    }
    if let Some(comment) = line.comment {
        if line.is_code() {
            text.push_str("  ");
        }
        text.push_str(&laid_out_comment(comment));
    }
    text
}

/// Whether a blank stands between two words.
fn apart(word: &Word, next: &Word) -> bool {
    let opens = ["(", "[", "^"].iter().any(|sign| word.is(sign));
    let follows = [")", "]", "*", "+", "?"].iter().any(|sign| next.is(sign));
    !opens && !follows
}

/// A comment with a blank behind its `#`, and none at its end.
fn laid_out_comment(comment: &str) -> String {
    let comment = comment.trim_end();
    let text = comment.strip_prefix('#').unwrap_or(comment);
    let direct = text.starts_with(|c: char| !c.is_whitespace() && c != '#');
    let blank = if direct { " " } else { "" };
    format!("#{blank}{text}")
}

//! What is told about a file: errors and warnings, each with its place, and how they are shown.
use crate::model::Place;

#[derive(Clone, Copy, Debug, PartialEq, Eq)]
pub enum Severity {
    Error,
    Warning,
}

#[derive(Clone, Debug, PartialEq, Eq)]
pub struct Diagnostic {
    pub severity: Severity,
    pub place: Place,
    pub message: String,
}

impl Diagnostic {
    pub fn error(place: Place, message: impl Into<String>) -> Diagnostic {
        Diagnostic {
            severity: Severity::Error,
            place,
            message: message.into(),
        }
    }

    pub fn warning(place: Place, message: impl Into<String>) -> Diagnostic {
        Diagnostic {
            severity: Severity::Warning,
            ..Diagnostic::error(place, message)
        }
    }

    pub fn is_error(&self) -> bool {
        self.severity == Severity::Error
    }
}

/// How many characters of a source line are shown at most.
const WINDOW: usize = 100;

/// The diagnostic with its source line and a caret under the column, in three lines.
pub fn render(file: &str, source: &str, d: &Diagnostic) -> String {
    let Place { line, column } = d.place;
    let severity = match d.severity {
        Severity::Error => "error",
        Severity::Warning => "warning",
    };
    let text = source.split('\n').nth(line.saturating_sub(1));
    let (shown, before) = window(text.unwrap_or(""), column.saturating_sub(1));
    let caret = " ".repeat(before);
    format!(
        "{file}:{line}:{column}: {severity}: {}\n    {shown}\n    {caret}^\n",
        d.message
    )
}

/// The part of a line around the character at `at`, and how many characters stand before that one in the part.
fn window(line: &str, at: usize) -> (String, usize) {
    let length = line.chars().count();
    if length <= WINDOW {
        return (line.chars().map(shown).collect(), at);
    }
    let first = at.saturating_sub(WINDOW / 2).min(length - WINDOW);
    let mut part: Vec<char> = line.chars().skip(first).take(WINDOW).map(shown).collect();
    if first > 0 {
        part[0] = '…';
    }
    if first + WINDOW < length {
        part[WINDOW - 1] = '…';
    }
    (part.into_iter().collect(), at - first)
}

/// A character as it is shown: a tab as a blank, and one that would not be seen, or act on the screen, as a dot.
fn shown(c: char) -> char {
    match c {
        '\t' => ' ',
        _ if unseen(c) => '·',
        _ => c,
    }
}

/// Whether a character is not seen: control characters, marks without a width, and those that turn the direction of writing.
pub fn unseen(c: char) -> bool {
    let mark = matches!(c, '\u{ad}' | '\u{200b}'..='\u{200f}' | '\u{2028}'..='\u{202e}' | '\u{2060}'..='\u{206f}' | '\u{feff}');
    c.is_control() || mark
}

/// How many characters of a word are quoted at most.
const QUOTED: usize = 64;

/// A word of the file in quotation marks, cut where it is very long.
pub fn quoted(word: &str) -> String {
    let mut text: String = word.chars().take(QUOTED).map(shown).collect();
    if word.chars().nth(QUOTED).is_some() {
        text.push('…');
    }
    format!("'{text}'")
}

/// `; did you mean 'close'?`, or nothing where no known name is near.
pub fn hint<'a>(name: &str, known: impl Iterator<Item = &'a str>) -> String {
    match nearest(name, known) {
        Some(near) => format!("; did you mean {}?", quoted(near)),
        None => String::new(),
    }
}

/// The known name that differs least from the given one, the first of equals: at most by two letters, by one where a name has two or
/// three, and by none where it has one.
pub fn nearest<'a>(name: &str, known: impl Iterator<Item = &'a str>) -> Option<&'a str> {
    let name: Vec<char> = name.chars().collect();
    let mut best = None;
    for candidate in known {
        let other: Vec<char> = candidate.chars().collect();
        let most = match name.len().min(other.len()) {
            0 | 1 => 0,
            2 | 3 => 1,
            _ => 2,
        };
        if name.len().abs_diff(other.len()) > most {
            continue;
        }
        let distance = differences(&name, &other);
        if distance <= most && best.is_none_or(|(least, _)| distance < least) {
            best = Some((distance, candidate));
        }
    }
    best.map(|(_, candidate)| candidate)
}

/// How many letters have to be put in, taken out or replaced to make one name of the other.
fn differences(one: &[char], other: &[char]) -> usize {
    let mut row: Vec<usize> = (0..=other.len()).collect();
    for (i, a) in one.iter().enumerate() {
        let mut diagonal = i;
        row[0] = i + 1;
        for (j, b) in other.iter().enumerate() {
            let replaced = diagonal + usize::from(a != b);
            diagonal = row[j + 1];
            row[j + 1] = replaced.min(row[j] + 1).min(diagonal + 1);
        }
    }
    row[other.len()]
}

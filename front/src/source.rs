//! The bytes of a file as text.
use crate::diagnostic::Diagnostic;
use crate::model::Place;

/// How many bytes a file has at most.
pub const LONGEST: usize = 262_144;

/// The text of a file, with plain line feeds and without a byte-order mark, and what had to be mended or is wrong.
pub struct Source {
    pub text: String,
    /// Errors that `tuft fmt` mends: carriage returns and a byte-order mark.
    pub mended: Vec<Diagnostic>,
    /// Other errors.
    pub errors: Vec<Diagnostic>,
    /// Whether the text is worth reading.
    pub readable: bool,
}

/// The text of the bytes. What is not readable has one error.
pub fn decode(bytes: &[u8]) -> Source {
    if bytes.len() > LONGEST {
        let error = Diagnostic::error(start(), "the file is longer than 262,144 bytes");
        return unreadable(&bytes[..LONGEST], error);
    }
    match std::str::from_utf8(bytes) {
        Ok(text) => mend(text),
        Err(error) => unreadable(bytes, not_utf8(bytes, error.valid_up_to())),
    }
}

fn start() -> Place {
    Place { line: 1, column: 1 }
}

fn unreadable(bytes: &[u8], error: Diagnostic) -> Source {
    Source {
        text: String::from_utf8_lossy(bytes).into_owned(),
        mended: Vec::new(),
        errors: vec![error],
        readable: false,
    }
}

/// The error of bytes that are UTF-8 only before the one at `at`.
fn not_utf8(bytes: &[u8], at: usize) -> Diagnostic {
    let before = String::from_utf8_lossy(&bytes[..at]);
    let byte = bytes.get(at).copied().unwrap_or(0);
    let message = format!("the file has to be UTF-8, and the byte {byte:02x} is not UTF-8 here");
    Diagnostic::error(behind(&before), message)
}

/// The place behind a text that begins at the beginning of the file.
fn behind(text: &str) -> Place {
    let last = text.rsplit('\n').next().unwrap_or("");
    Place {
        line: 1 + text.matches('\n').count(),
        column: 1 + last.chars().count(),
    }
}

fn mend(text: &str) -> Source {
    let mut mended = Vec::new();
    let marked = text.strip_prefix('\u{feff}');
    if marked.is_some() {
        mended.push(Diagnostic::error(start(), MARK));
    }
    let text = marked.unwrap_or(text);
    if let Some(at) = text.find('\r') {
        mended.push(Diagnostic::error(behind(&text[..at]), RETURN));
    }
    let text = text.replace("\r\n", "\n").replace('\r', "\n");
    Source {
        errors: control_characters(&text).into_iter().collect(),
        text,
        mended,
        readable: true,
    }
}

const MARK: &str =
    "the file begins with a byte-order mark; run 'tuft fmt' on it, which takes the mark away";
const RETURN: &str =
    "the line ends with a carriage return; run 'tuft fmt' on the file, which writes plain line feeds";

/// Whether a character has no place in a file.
pub fn is_control(c: char) -> bool {
    c.is_control() && c != '\n' && c != '\t'
}

/// One error for all control characters of a text, at the first.
fn control_characters(text: &str) -> Option<Diagnostic> {
    let (at, first) = text.char_indices().find(|&(_, c)| is_control(c))?;
    let more = text[at..].chars().filter(|&c| is_control(c)).count() - 1;
    let mut message = format!(
        "the control character U+{:04X} has no place in a file",
        first as u32
    );
    if more > 0 {
        message += &format!("; {more} more follow");
    }
    Some(Diagnostic::error(behind(&text[..at]), message))
}

//! Runs the program without a process.
use std::ffi::OsString;

/// What a command answered.
#[derive(Debug, PartialEq, Eq)]
pub struct Answer {
    pub status: u8,
    pub output: Vec<u8>,
    pub notes: String,
}

/// Runs a command with bytes on standard input.
pub fn run(typed: &[&str], input: &[u8]) -> Answer {
    let typed: Vec<OsString> = typed.iter().map(OsString::from).collect();
    let (mut output, mut notes) = (Vec::new(), Vec::new());
    let status = tuft::commands::run(&typed, &mut &*input, &mut output, &mut notes);
    let notes = String::from_utf8(notes).expect("standard error is text");
    Answer {
        status,
        output,
        notes,
    }
}

//! One start of the program: its input written to it, and what it says.

use crate::program::writing::Writing;
use std::ffi::OsStr;
use std::fmt;
use std::io::{self, ErrorKind, Read, Write};
use std::os::unix::ffi::OsStrExt;
use std::path::Path;
use std::process::{Child, ChildStdin, Command, ExitStatus, Stdio};
use std::sync::mpsc::{channel, Receiver};
use std::thread::{scope, sleep};
use std::time::{Duration, Instant};

/// A program that runs longer is ended, and that is a fault.
pub const LIMIT: Duration = Duration::from_secs(10);

/// Time for the program to read what was written so far.
const PAUSE: Duration = Duration::from_millis(4);

/// How often the program is asked whether it has ended.
const LOOK: Duration = Duration::from_micros(200);

/// What a program leaves behind.
#[derive(PartialEq, Eq)]
pub struct Said {
    /// None if a signal ended it.
    pub status: Option<i32>,
    pub output: Vec<u8>,
    pub errors: Vec<u8>,
}

impl fmt::Display for Said {
    fn fmt(&self, out: &mut fmt::Formatter) -> fmt::Result {
        match self.status {
            Some(status) => write!(out, "status {status}")?,
            None => write!(out, "ended by a signal")?,
        }
        write!(out, ", output \"{}\"", self.output.escape_ascii())?;
        write!(out, ", errors \"{}\"", self.errors.escape_ascii())
    }
}

/// Starts the program on this input, with the text as its argument if there is one. Fails if it cannot be started or does not end
/// within the limit.
pub fn start(
    program: &Path,
    text: Option<&[u8]>,
    input: &[u8],
    writing: &Writing,
    limit: Duration,
) -> Result<Said, String> {
    let mut child = Command::new(program)
        .args(text.map(OsStr::from_bytes))
        .stdin(Stdio::piped())
        .stdout(Stdio::piped())
        .stderr(Stdio::piped())
        .spawn()
        .map_err(|error| format!("{} does not start: {error}", program.display()))?;
    let stdin = child.stdin.take();
    scope(|scope| {
        let (running, ended) = channel();
        let writer = scope.spawn(move || write(stdin, input, writing, ended));
        let status = wait(&mut child, limit);
        drop(running);
        let written = writer.join();
        let status = status?;
        written
            .map_err(|_| "the writer panics".to_string())?
            .map_err(|error| format!("the input cannot be written: {error}"))?;
        Ok(Said {
            status: status.code(),
            output: rest(child.stdout.take())?,
            errors: rest(child.stderr.take())?,
        })
    })
}

/// Writes the input, as far as the program reads it: a program that ends before has had enough.
fn write(
    stdin: Option<ChildStdin>,
    input: &[u8],
    writing: &Writing,
    ended: Receiver<()>,
) -> io::Result<()> {
    let Some(mut stdin) = stdin else {
        return Ok(());
    };
    match write_pieces(&mut stdin, input, writing) {
        Err(error) if error.kind() != ErrorKind::BrokenPipe => return Err(error),
        _ => {}
    }
    if let Writing::Open = writing {
        // Comes back when the other end of the channel is dropped.
        let _ = ended.recv();
    }
    Ok(())
}

fn write_pieces(stdin: &mut ChildStdin, input: &[u8], writing: &Writing) -> io::Result<()> {
    for (number, piece) in writing.pieces(input).into_iter().enumerate() {
        if number > 0 && writing.pauses_after(number - 1) {
            sleep(PAUSE);
        }
        stdin.write_all(piece)?;
        stdin.flush()?;
    }
    Ok(())
}

/// Waits for the program's end. What it prints fits a pipe, so nobody has to read it before.
fn wait(child: &mut Child, limit: Duration) -> Result<ExitStatus, String> {
    let begun = Instant::now();
    let told = |error: io::Error| format!("the program cannot be waited for: {error}");
    loop {
        if let Some(status) = child.try_wait().map_err(told)? {
            return Ok(status);
        }
        if begun.elapsed() > limit {
            child.kill().and_then(|()| child.wait()).map_err(told)?;
            return Err(format!("the program does not end within {limit:?}"));
        }
        sleep(LOOK);
    }
}

/// All that a stream of a program that has ended still holds.
fn rest(stream: Option<impl Read>) -> Result<Vec<u8>, String> {
    let mut bytes = Vec::new();
    if let Some(mut stream) = stream {
        stream
            .read_to_end(&mut bytes)
            .map_err(|error| format!("what the program says cannot be read: {error}"))?;
    }
    Ok(bytes)
}

#[cfg(test)]
mod tests {
    use super::*;

    fn said(program: &str, input: &[u8], writing: &Writing) -> Said {
        match start(Path::new(program), None, input, writing, LIMIT) {
            Ok(said) => said,
            Err(fault) => panic!("{program}: {fault}"),
        }
    }

    #[test]
    fn all_bytes_arrive_in_order() {
        let input: Vec<u8> = (0..5_000).map(|byte| (byte % 251) as u8).collect();
        let mut ways = Writing::in_pieces(input.len());
        ways.push(Writing::Whole);
        for way in ways {
            let said = said("cat", &input, &way);
            assert!(said.output == input, "{way}");
            assert_eq!(said.status, Some(0));
        }
    }

    #[test]
    fn status_and_errors_are_told() {
        let script = b"echo one; echo two >&2; exit 3";
        let said = said("sh", script, &Writing::Whole).to_string();
        assert_eq!(said, r#"status 3, output "one\n", errors "two\n""#);
    }

    #[test]
    fn the_text_arrives() {
        for text in [vec![], b"a;b c".to_vec(), vec![200; 20_000]] {
            let said = start(Path::new("echo"), Some(&text), b"", &Writing::Whole, LIMIT);
            let due = [&text[..], b"\n"].concat();
            assert!(said.is_ok_and(|said| said.output == due));
        }
    }

    #[test]
    fn a_program_need_not_read_all() {
        let input = [0; 200_000];
        for way in [Writing::Whole, Writing::Pieces(7), Writing::Open] {
            assert_eq!(said("true", &input, &way).status, Some(0));
        }
    }

    #[test]
    fn a_program_that_does_not_end_is_found_out() {
        let limit = Duration::from_millis(50);
        let found = start(Path::new("cat"), None, b"more", &Writing::Open, limit);
        assert!(found.is_err_and(|fault| fault.contains("does not end within 50ms")));
    }

    #[test]
    fn a_program_that_is_not_there_is_found_out() {
        let program = Path::new("/no/such/program");
        let found = start(program, None, b"", &Writing::Whole, LIMIT);
        assert!(found.is_err_and(|fault| fault.contains("does not start")));
    }
}

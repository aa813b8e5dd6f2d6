//! The program `tuft`.
#![forbid(unsafe_code)]

use std::ffi::OsString;
use std::io::{stderr, stdin, stdout};
use std::process::ExitCode;

fn main() -> ExitCode {
    let typed: Vec<OsString> = std::env::args_os().skip(1).collect();
    ExitCode::from(tuft::commands::run(
        &typed,
        &mut stdin(),
        &mut stdout(),
        &mut stderr(),
    ))
}

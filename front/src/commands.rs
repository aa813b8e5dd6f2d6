//! The commands of the program.
use crate::arguments::{arguments, too_much, Arguments};
use crate::diagnostic::{hint, quoted};
use crate::draw::{self, Picture};
use crate::files;
use crate::format::format as laid_out;
use crate::help::{self, Command, COMMANDS};
use crate::judged::judge;
use crate::names::Names;
use crate::opened::{open, Choice, Opened, Stop};
use crate::pattern;
use crate::refusals;
use crate::report;
use crate::sets::sets;
use crate::tell::{self, Answered};
use crate::unpack;
use std::ffi::{OsStr, OsString};
use std::io::{Read, Write};
use std::path::Path;

/// What a command answers: bytes for standard output, lines for standard error, and the exit status.
struct Reply {
    status: u8,
    output: Vec<u8>,
    notes: String,
}

/// The status where the file has an error, and where anything else went wrong.
const FILE_ERROR: u8 = 2;
const OTHER: u8 = 3;

impl Reply {
    fn output(output: impl Into<Vec<u8>>) -> Reply {
        Reply {
            status: 0,
            output: output.into(),
            notes: String::new(),
        }
    }

    fn notes(status: u8, notes: String) -> Reply {
        Reply {
            status,
            output: Vec::new(),
            notes,
        }
    }
}

/// A line on standard error that says what went wrong, with status 3.
fn failure(message: String) -> Reply {
    Reply::notes(OTHER, format!("tuft: {message}\n"))
}

/// Runs the program with the words typed behind its name, and gives its exit status.
pub fn run(
    typed: &[OsString],
    input: &mut dyn Read,
    output: &mut dyn Write,
    notes: &mut dyn Write,
) -> u8 {
    let reply = reply(typed, input).unwrap_or_else(|reply| reply);
    // Where standard error cannot be written there is nowhere left to tell it.
    let _ = notes.write_all(reply.notes.as_bytes());
    match output
        .write_all(&reply.output)
        .and_then(|()| output.flush())
    {
        Ok(()) => reply.status,
        Err(error) => {
            let reason = files::reason(&error);
            let _ = writeln!(notes, "tuft: standard output: cannot be written: {reason}");
            OTHER
        }
    }
}

/// The reply to what was typed; as an error where the command could not do its work.
fn reply(typed: &[OsString], input: &mut dyn Read) -> Result<Reply, Reply> {
    let Some((first, rest)) = typed.split_first() else {
        return Err(failure("no command; tuft --help lists them".to_string()));
    };
    match first.to_string_lossy().as_ref() {
        "--help" | "-h" => Ok(Reply::output(help::overview())),
        "--version" => Ok(Reply::output(format!(
            "tuft {}\n",
            env!("CARGO_PKG_VERSION")
        ))),
        "help" => help_on(rest),
        name => command(known(name)?, rest, input),
    }
}

/// The command of a name.
fn known(name: &str) -> Result<&'static Command, Reply> {
    help::command(name).ok_or_else(|| {
        let others = ["help", "--help", "--version"];
        let names = COMMANDS.iter().map(|command| command.name).chain(others);
        failure(format!("no command {}{}", quoted(name), hint(name, names)))
    })
}

/// `tuft help`, `tuft help COMMAND`.
fn help_on(rest: &[OsString]) -> Result<Reply, Reply> {
    match rest {
        [] => Ok(Reply::output(help::overview())),
        [name] if name == "help" => Ok(Reply::output(help::overview())),
        [name] => Ok(Reply::output(help::of(known(&name.to_string_lossy())?))),
        [_, second, ..] => Err(failure(too_much(second, "tuft help COMMAND"))),
    }
}

fn command(command: &Command, typed: &[OsString], input: &mut dyn Read) -> Result<Reply, Reply> {
    let arguments = arguments(command, typed).map_err(failure)?;
    if arguments.help {
        return Ok(Reply::output(help::of(command)));
    }
    match command.name {
        "check" => check(&arguments, input),
        "sets" => with_rule(&arguments, input, |answered, opened| {
            Ok(sets(answered, &opened.names()).into_bytes())
        }),
        "pack" => {
            let output = output_of(command, &arguments)?;
            with_rule(&arguments, input, |answered, _| {
                written(&output, &answered.bytes, &arguments)
            })
        }
        "draw" => drawn(&arguments, &output_of(command, &arguments)?, input),
        "unpack" => unpacked(&arguments, input),
        "fmt" => formatted(&arguments, input),
        _ => started(&arguments),
    }
}

/// The file behind `-o`, which has to be there.
fn output_of(command: &Command, arguments: &Arguments) -> Result<OsString, Reply> {
    let output = arguments.output.clone();
    output.ok_or_else(|| failure(format!("{} to which file? {}", command.name, command.usage)))
}

/// Writes a file, and gives what then is left for standard output: all of it for `-`.
fn written(output: &OsStr, bytes: &[u8], arguments: &Arguments) -> Result<Vec<u8>, Reply> {
    if files::is_standard(output) {
        return Ok(bytes.to_vec());
    }
    files::write(output, bytes, arguments.word(0)).map_err(failure)?;
    Ok(Vec::new())
}

/// `tuft check`
fn check(arguments: &Arguments, input: &mut dyn Read) -> Result<Reply, Reply> {
    let mut opened = open(arguments.word(0), input).map_err(failure)?;
    let (answers, status) = match opened.answers(&Choice::Some(arguments.rules())) {
        Ok(answers) => (answers, None),
        Err(Stop::File) => (Vec::new(), Some(FILE_ERROR)),
        Err(Stop::Other(message)) => return Err(failure(message)),
    };
    let status = status.unwrap_or_else(|| report::status(&answers));
    if arguments.json {
        return Ok(Reply {
            status,
            output: report::json(&opened, &answers, status).into_bytes(),
            notes: String::new(),
        });
    }
    let lines = if status == FILE_ERROR {
        String::new()
    } else {
        report::lines(&answers, &opened.names())
    };
    Ok(Reply {
        status,
        output: lines.into_bytes(),
        notes: opened.notes(),
    })
}

/// The answers under the rules that are chosen, or the reply that tells why there are none.
fn answers(opened: &mut Opened, choice: &Choice) -> Result<Vec<Answered>, Reply> {
    opened.answers(choice).map_err(|stop| match stop {
        Stop::File => Reply::notes(FILE_ERROR, opened.notes()),
        Stop::Other(message) => failure(message),
    })
}

/// Judges a file by one rule, and shows what is made of the answer.
fn with_rule(
    arguments: &Arguments,
    input: &mut dyn Read,
    show: impl Fn(&Answered, &Opened) -> Result<Vec<u8>, Reply>,
) -> Result<Reply, Reply> {
    let mut opened = open(arguments.word(0), input).map_err(failure)?;
    let answers = answers(&mut opened, &Choice::One(arguments.rules().pop()))?;
    let shown: Result<Vec<Vec<u8>>, Reply> = answers
        .iter()
        .map(|answered| show(answered, &opened))
        .collect();
    Ok(Reply {
        status: 0,
        output: shown?.concat(),
        notes: opened.notes(),
    })
}

/// `tuft draw`
fn drawn(arguments: &Arguments, output: &OsStr, input: &mut dyn Read) -> Result<Reply, Reply> {
    let draw = drawer(output)?;
    let mut opened = open(arguments.word(0), input).map_err(failure)?;
    let rules = arguments.rules();
    let one_rule = !rules.is_empty();
    let answers = answers(&mut opened, &Choice::Any(rules))?;
    let picture = picture(draw, &opened.names(), &answers, one_rule);
    Ok(Reply {
        status: 0,
        output: written(output, picture.as_bytes(), arguments)?,
        notes: opened.notes(),
    })
}

/// What draws a file with the ending of this name.
fn drawer(output: &OsStr) -> Result<fn(&Picture) -> String, Reply> {
    match Path::new(output).extension().and_then(OsStr::to_str) {
        Some("svg") => Ok(draw::svg),
        Some("dot") => Ok(draw::dot),
        _ => {
            let output = output.to_string_lossy();
            Err(failure(format!(
                "{output}: draw what? The name has to end in .svg or .dot"
            )))
        }
    }
}

/// The picture of a plan that was judged, with the rule in its caption where it is about one.
fn picture(
    draw: fn(&Picture) -> String,
    names: &Names,
    answers: &[Answered],
    one_rule: bool,
) -> String {
    let Some(Answered { rule, judged, .. }) = answers.first() else {
        return String::new();
    };
    let rule = format!(", rule {rule}: {}", pattern::demand(&judged.plan, names));
    draw(&Picture {
        names,
        plan: &judged.plan,
        unreached: &tell::unreached_nodes(answers),
        caption: format!("{}{}", names.plan, if one_rule { &rule } else { "" }),
    })
}

/// `tuft unpack`
fn unpacked(arguments: &Arguments, input: &mut dyn Read) -> Result<Reply, Reply> {
    let file = arguments.word(0);
    let bytes = files::read(file, input).map_err(failure)?;
    let judged = judge(&bytes).map_err(|number| refused(file, number, &bytes))?;
    let words = unpack::words(&judged.plan).into_bytes();
    match &arguments.output {
        Some(output) if !files::is_standard(output) => {
            // names and comments would be lost
            files::create(output, &words).map_err(failure)?;
            Ok(Reply::output(""))
        }
        _ => Ok(Reply::output(words)),
    }
}

/// That bytes are refused; of words, which command reads them.
fn refused(file: &OsStr, number: u32, bytes: &[u8]) -> Reply {
    let (file, words) = (files::shown(file), refusals::words(number));
    let text = std::str::from_utf8(bytes).is_ok_and(|text| text.contains("plan "));
    let hint = if text {
        "; a plan in words is read by 'tuft check'"
    } else {
        ""
    };
    Reply::notes(
        FILE_ERROR,
        format!("{file}: refused {number}: {words}{hint}\n"),
    )
}

/// `tuft fmt`
fn formatted(arguments: &Arguments, input: &mut dyn Read) -> Result<Reply, Reply> {
    let file = arguments.word(0);
    let bytes = files::read(file, input).map_err(failure)?;
    let refused = |read| Reply::notes(FILE_ERROR, Opened::of(file, read).notes());
    let words = laid_out(&bytes).map_err(refused)?;
    let changed = words.as_bytes() != bytes;
    if arguments.check {
        return Ok(layout_reply(file, changed));
    }
    if files::is_standard(file) {
        return Ok(Reply::output(words));
    }
    if changed {
        files::replace(file, words.as_bytes()).map_err(failure)?;
    }
    Ok(Reply::output(""))
}

/// What `tuft fmt --check` answers.
fn layout_reply(file: &OsStr, changed: bool) -> Reply {
    if !changed {
        return Reply::output("");
    }
    Reply {
        status: 1,
        output: format!("{}: tuft fmt would lay it out anew\n", files::shown(file)).into_bytes(),
        notes: String::new(),
    }
}

/// `tuft new`
fn started(arguments: &Arguments) -> Result<Reply, Reply> {
    let file = arguments.word(0);
    if arguments.words.is_empty() || files::is_standard(file) {
        return Ok(Reply::output(help::STARTING_PLAN));
    }
    files::create(file, help::STARTING_PLAN.as_bytes()).map_err(failure)?;
    Ok(Reply::output(""))
}

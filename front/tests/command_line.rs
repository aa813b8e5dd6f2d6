//! The built program: statuses, files that cannot be read, output that cannot be written.
mod folder;

use folder::names_in;
use std::ffi::OsStr;
use std::fs::{self, File};
use std::io::Write;
use std::os::unix::ffi::OsStrExt;
use std::os::unix::fs::PermissionsExt;
use std::path::{Path, PathBuf};
use std::process::{Command, Output, Stdio};

const TWO_JOBS: &str = include_str!("../../plans/two-jobs.jobs");

/// A folder of a test's own, new and empty, in which the program is started.
struct Folder(PathBuf);

impl Folder {
    fn new(test: &str) -> Folder {
        let path = Path::new(env!("CARGO_TARGET_TMPDIR")).join(test);
        let _ = fs::remove_dir_all(&path);
        fs::create_dir_all(&path).expect("a folder");
        Folder(path)
    }

    fn with(self, name: &str, text: &str) -> Folder {
        fs::write(self.0.join(name), text).expect("a file");
        self
    }

    fn text(&self, name: &str) -> String {
        fs::read_to_string(self.0.join(name)).expect("a text")
    }

    /// The names of all files.
    fn files(&self) -> Vec<String> {
        names_in(&self.0)
    }

    fn command<S: AsRef<OsStr>>(&self, typed: &[S]) -> Command {
        let mut command = Command::new(env!("CARGO_BIN_EXE_tuft"));
        command
            .args(typed)
            .current_dir(&self.0)
            .stdin(Stdio::null());
        command
    }

    /// The exit status and what was written to standard output and error.
    fn run<S: AsRef<OsStr>>(&self, typed: &[S]) -> (i32, String, String) {
        told(self.command(typed).output().expect("the program"))
    }

    /// The same with text on standard input.
    fn fed(&self, typed: &[&str], text: &str) -> (i32, String, String) {
        let mut command = self.command(typed);
        let command = command
            .stdin(Stdio::piped())
            .stdout(Stdio::piped())
            .stderr(Stdio::piped());
        let mut child = command.spawn().expect("the program");
        let mut input = child.stdin.take().expect("standard input");
        input.write_all(text.as_bytes()).expect("a reader");
        drop(input);
        told(child.wait_with_output().expect("the program"))
    }
}

fn told(output: Output) -> (i32, String, String) {
    let text = |bytes: Vec<u8>| String::from_utf8(bytes).expect("text");
    (
        output.status.code().expect("a status"),
        text(output.stdout),
        text(output.stderr),
    )
}

/// An answer with nothing on standard error.
fn said(status: i32, output: &str) -> (i32, String, String) {
    (status, output.to_string(), String::new())
}

/// An answer of status 3 with one line on standard error.
fn failed(line: &str) -> (i32, String, String) {
    (3, String::new(), format!("tuft: {line}\n"))
}

#[test]
fn statuses_of_check() {
    let open = TWO_JOBS.replace("every prepared", "every finished ; prepared");
    let stuck = TWO_JOBS.replace("accepts hand-over then working", "then working");
    let folder = Folder::new("statuses")
        .with("holds.jobs", TWO_JOBS)
        .with("open.jobs", &open)
        .with("stuck.jobs", &stuck)
        .with("none.jobs", "plan none\n")
        .with("wrong.jobs", "plan wrong\nrule r\n  every never-declared\n");
    let holds = "HOLDS  in-order: every complete run spells prepared ; handed ; finished\n1 rule: 1 holds\n";
    assert_eq!(folder.run(&["check", "holds.jobs"]), said(0, holds));
    assert_eq!(
        folder.run(&["check", "holds.jobs", "in-order", "in-order"]),
        said(0, holds)
    );
    assert_eq!(folder.run(&["check", "open.jobs"]).0, 1);
    assert_eq!(folder.run(&["check", "wrong.jobs"]).0, 2);
    let no_rule = (2, String::new(), "none.jobs: error: no rule\n".to_string());
    assert_eq!(folder.run(&["check", "none.jobs"]), no_rule);
    assert_eq!(folder.run(&["sets", "none.jobs"]), no_rule);
    let (status, output, _) = folder.run(&["check", "stuck.jobs"]);
    let expected = "\
HOLDS  in-order, but no run can end
no run brings every job to its end, so these answers say nothing of any run
no run comes to end of first
1 rule: 1 holds, but no run can end
";
    assert_eq!((status, output.as_str()), (3, expected));
}

/// A file without rules can be drawn.
#[test]
fn pictures_without_rules() {
    let (jobs, _) = TWO_JOBS.split_once("rule").expect("a rule");
    let folder = Folder::new("pictures")
        .with("bare.jobs", jobs)
        .with("ruled.jobs", TWO_JOBS);
    assert_eq!(
        folder.run(&["draw", "bare.jobs", "-o", "bare.dot"]),
        said(0, "")
    );
    assert_eq!(
        folder.run(&["draw", "ruled.jobs", "-o", "ruled.dot"]),
        said(0, "")
    );
    assert_eq!(folder.text("bare.dot"), folder.text("ruled.dot"));
    assert!(folder.text("bare.dot").starts_with("digraph "));
    assert_eq!(
        folder.run(&["draw", "bare.jobs", "-o", "bare.svg"]),
        said(0, "")
    );
    assert!(folder.text("bare.svg").ends_with("</svg>\n"));
}

#[test]
fn rules_on_the_command_line() {
    let two = format!("{TWO_JOBS}\nrule once\n  every prepared\n");
    let folder = Folder::new("rules")
        .with("a.jobs", TWO_JOBS)
        .with("b.jobs", &two);
    assert_eq!(
        folder.run(&["check", "a.jobs", "in-oder"]),
        failed("a.jobs: no rule 'in-oder'; did you mean 'in-order'?")
    );
    assert_eq!(
        folder.run(&["sets", "a.jobs", "other"]),
        failed("a.jobs: no rule 'other'")
    );
    assert_eq!(
        folder.run(&["sets", "b.jobs"]),
        failed("b.jobs: which rule? There are in-order, once")
    );
    let (status, output, _) = folder.run(&["check", "b.jobs", "once"]);
    assert_eq!(
        (status, output.lines().next()),
        (0, Some("HOLDS  once: every complete run spells prepared"))
    );
}

#[test]
fn a_pattern_with_too_many_states() {
    let plan = "plan large\nevent a b\njob j from n to m\n  n gives a then m\n\nrule r\n  watch b\n  every [^]* ; a ; [^] times 6\n";
    let folder = Folder::new("large").with("large.jobs", plan);
    let error = "large.jobs:6:6: error: the pattern of rule 'r' needs more than 64 states; write it shorter, or as several rules\n    rule r\n         ^\n";
    for typed in [
        &["check", "large.jobs"][..],
        &["sets", "large.jobs"],
        &["pack", "large.jobs", "-o", "x.plan"],
        &["draw", "large.jobs", "-o", "x.svg"],
    ] {
        let (status, output, notes) = folder.run(typed);
        assert_eq!((status, output.as_str()), (2, ""), "{typed:?}");
        assert!(notes.contains(error), "{notes}");
    }
    assert_eq!(folder.files(), ["large.jobs"]);
}

#[test]
fn files_that_cannot_be_read() {
    let folder = Folder::new("unreadable").with("secret.jobs", TWO_JOBS);
    fs::create_dir(folder.0.join("folder.jobs")).expect("a folder");
    for command in ["check", "sets", "unpack", "fmt"] {
        assert_eq!(
            folder.run(&[command, "gone.jobs"]),
            failed("gone.jobs: cannot be read: there is no such file or folder")
        );
        assert_eq!(
            folder.run(&[command, "folder.jobs"]),
            failed("folder.jobs: cannot be read: it is a folder")
        );
    }
    let secret = folder.0.join("secret.jobs");
    fs::set_permissions(&secret, fs::Permissions::from_mode(0o000)).expect("a change");
    if File::open(&secret).is_err() {
        assert_eq!(
            folder.run(&["check", "secret.jobs"]),
            failed("secret.jobs: cannot be read: it is not permitted")
        );
    }
}

#[test]
fn output_that_cannot_be_written() {
    let folder = Folder::new("full").with("a.jobs", TWO_JOBS);
    for typed in [
        &["check", "a.jobs"][..],
        &["check", "a.jobs", "--json"],
        &["sets", "a.jobs"],
        &["new"],
        &["--help"],
        &["fmt", "-"],
    ] {
        let full = File::create("/dev/full").expect("a full disk");
        let input = File::open(folder.0.join("a.jobs")).expect("a file");
        let output = folder
            .command(typed)
            .stdin(input)
            .stdout(full)
            .output()
            .expect("the program");
        assert_eq!(
            told(output),
            failed("standard output: cannot be written: there is no space left"),
            "{typed:?}"
        );
    }
    assert_eq!(
        folder.run(&["pack", "a.jobs", "-o", "/dev/full"]),
        failed("/dev/full: cannot be written: there is no space left")
    );
    let nowhere = failed("no/x.svg: cannot be written: there is no such file or folder");
    assert_eq!(folder.run(&["draw", "a.jobs", "-o", "no/x.svg"]), nowhere);
}

#[test]
fn a_pipe_that_nobody_reads() {
    let folder = Folder::new("pipe").with("a.jobs", TWO_JOBS);
    let mut command = folder.command(&["check", "-"]);
    let command = command
        .stdin(Stdio::piped())
        .stdout(Stdio::piped())
        .stderr(Stdio::piped());
    let mut child = command.spawn().expect("the program");
    drop(child.stdout.take());
    let mut input = child.stdin.take().expect("standard input");
    input.write_all(TWO_JOBS.as_bytes()).expect("a reader");
    drop(input);
    let output = child.wait_with_output().expect("the program");
    assert_eq!(
        told(output),
        failed("standard output: cannot be written: nobody reads it any more")
    );
}

#[test]
fn standard_input() {
    let folder = Folder::new("input");
    let holds = "HOLDS  in-order: every complete run spells prepared ; handed ; finished\n1 rule: 1 holds\n";
    assert_eq!(folder.fed(&["check", "-"], TWO_JOBS), said(0, holds));
    assert_eq!(
        folder.fed(&["fmt", "-"], &TWO_JOBS.replace("  ", " ")),
        said(0, TWO_JOBS)
    );
    assert_eq!(folder.fed(&["fmt", "--check", "-"], TWO_JOBS), said(0, ""));
    assert_eq!(
        folder.fed(&["pack", "-", "-o", "x.plan"], TWO_JOBS),
        said(0, "")
    );
    assert_eq!(
        folder.fed(&["draw", "-", "-o", "x.dot"], TWO_JOBS),
        said(0, "")
    );
    assert_eq!(folder.files(), ["x.dot", "x.plan"]);
    let (status, output, notes) = folder.fed(&["check", "-"], "plan\n");
    assert_eq!((status, output.as_str()), (2, ""));
    assert!(
        notes.starts_with("<standard input>:1:5: error: "),
        "{notes}"
    );
}

#[test]
fn words_that_are_not_understood() {
    let folder = Folder::new("words").with("a.jobs", TWO_JOBS);
    let cases: [(&[&str], &str); 15] = [
        (&[], "no command; tuft --help lists them"),
        (&["chekc"], "no command 'chekc'; did you mean 'check'?"),
        (
            &["--verson"],
            "no command '--verson'; did you mean '--version'?",
        ),
        (&["verify", "a.jobs"], "no command 'verify'"),
        (&["help", "drw"], "no command 'drw'; did you mean 'draw'?"),
        (
            &["help", "draw", "new"],
            "'new' is too much: tuft help COMMAND",
        ),
        (
            &["check"],
            "check of which file? tuft check FILE [RULE...] [--json]",
        ),
        (
            &["check", "a.jobs", "--josn"],
            "check has no option '--josn'; did you mean '--json'?",
        ),
        (&["sets", "a.jobs", "--json"], "sets has no option '--json'"),
        (
            &["sets", "a.jobs", "in-order", "once"],
            "'once' is too much: tuft sets FILE [RULE]",
        ),
        (
            &["pack", "a.jobs"],
            "pack to which file? tuft pack FILE [RULE] -o OUT.plan",
        ),
        (&["pack", "a.jobs", "-o"], "no file behind '-o'"),
        (
            &["pack", "a.jobs", "-o", "x", "-o", "y"],
            "'-o' stands twice",
        ),
        (
            &["draw", "a.jobs", "-o", "x.png"],
            "x.png: draw what? The name has to end in .svg or .dot",
        ),
        (
            &["draw", "a.jobs", "-o", "-"],
            "-: draw what? The name has to end in .svg or .dot",
        ),
    ];
    for (typed, line) in cases {
        assert_eq!(folder.run(typed), failed(line), "{typed:?}");
    }
    assert_eq!(folder.files(), ["a.jobs"]);
}

#[test]
fn help_and_version() {
    let folder = Folder::new("help");
    assert_eq!(folder.run(&["--version"]), said(0, "tuft 0.1.0\n"));
    assert_eq!(folder.run(&["--help"]), said(0, &tuft::help::overview()));
    assert_eq!(folder.run(&["help"]), said(0, &tuft::help::overview()));
    for command in &tuft::help::COMMANDS {
        let help = said(0, &tuft::help::of(command));
        assert_eq!(folder.run(&["help", command.name]), help);
        assert_eq!(folder.run(&[command.name, "--help"]), help);
        assert_eq!(folder.run(&[command.name, "-h", "and", "more"]), help);
        assert!(tuft::help::overview().contains(command.usage));
    }
}

#[test]
fn a_new_plan() {
    let folder = Folder::new("new");
    assert_eq!(folder.run(&["new"]), said(0, tuft::help::STARTING_PLAN));
    assert_eq!(folder.run(&["new", "first.jobs"]), said(0, ""));
    assert_eq!(folder.text("first.jobs"), tuft::help::STARTING_PLAN);
    assert_eq!(
        folder.run(&["new", "first.jobs"]),
        failed("first.jobs: cannot be written: it is there already")
    );
    assert_eq!(folder.run(&["fmt", "--check", "first.jobs"]), said(0, ""));
    let holds = "\
HOLDS  in-order: every complete run spells prepared ; handed ; finished
HOLDS  not-too-early: no complete run spells [^]* ; finished ; [^]* ; handed ; [^]*
2 rules: 2 hold
";
    assert_eq!(folder.run(&["check", "first.jobs"]), said(0, holds));
}

#[test]
fn files_laid_out_anew() {
    let ragged = TWO_JOBS.replace("  ", "      ");
    let folder = Folder::new("layout")
        .with("a.jobs", &ragged)
        .with("wrong.jobs", "plan\n");
    let path = folder.0.join("a.jobs");
    fs::set_permissions(&path, fs::Permissions::from_mode(0o640)).expect("a change");
    assert_eq!(
        folder.run(&["fmt", "--check", "a.jobs"]),
        said(1, "a.jobs: tuft fmt would lay it out anew\n")
    );
    assert_eq!(folder.text("a.jobs"), ragged);
    assert_eq!(folder.run(&["fmt", "a.jobs"]), said(0, ""));
    assert_eq!(folder.text("a.jobs"), TWO_JOBS);
    assert_eq!(
        fs::metadata(&path).expect("a file").permissions().mode() & 0o777,
        0o640
    );
    assert_eq!(folder.run(&["fmt", "--check", "a.jobs"]), said(0, ""));
    let (status, output, notes) = folder.run(&["fmt", "wrong.jobs"]);
    assert_eq!((status, output.as_str()), (2, ""));
    assert!(notes.starts_with("wrong.jobs:1:5: error: "), "{notes}");
    assert_eq!(folder.text("wrong.jobs"), "plan\n");
    assert_eq!(folder.files(), ["a.jobs", "wrong.jobs"]);
}

/// A file that is laid out already is not written, and a link stays one.
#[test]
fn files_left_as_they_are() {
    let folder = Folder::new("left")
        .with("a.jobs", TWO_JOBS)
        .with("b.jobs", &TWO_JOBS.replace("  ", " "));
    let before = fs::metadata(folder.0.join("a.jobs")).expect("a file");
    assert_eq!(folder.run(&["fmt", "a.jobs"]), said(0, ""));
    let after = fs::metadata(folder.0.join("a.jobs")).expect("a file");
    assert_eq!(
        std::os::unix::fs::MetadataExt::ino(&before),
        std::os::unix::fs::MetadataExt::ino(&after)
    );
    std::os::unix::fs::symlink("b.jobs", folder.0.join("link.jobs")).expect("a link");
    assert_eq!(folder.run(&["fmt", "link.jobs"]), said(0, ""));
    assert_eq!(folder.text("b.jobs"), TWO_JOBS);
    assert!(fs::symlink_metadata(folder.0.join("link.jobs"))
        .expect("a link")
        .is_symlink());
}

/// What was read is not written over.
#[test]
fn the_file_that_was_read_stays() {
    let folder = Folder::new("over").with("a.svg", TWO_JOBS);
    let line = "./a.svg: not written over: it was read from";
    assert_eq!(
        folder.run(&["pack", "a.svg", "-o", "./a.svg"]),
        failed(line)
    );
    assert_eq!(
        folder.run(&["draw", "a.svg", "-o", "./a.svg"]),
        failed(line)
    );
    assert_eq!(folder.text("a.svg"), TWO_JOBS);
}

#[test]
fn names_that_are_not_text() {
    let folder = Folder::new("names");
    let name = OsStr::from_bytes(b"a\xff.jobs");
    fs::write(folder.0.join(name), TWO_JOBS).expect("a file");
    assert_eq!(folder.run(&[OsStr::new("check"), name]).0, 0);
    let gone = OsStr::from_bytes(b"b\xff.jobs");
    let line = "b\u{fffd}.jobs: cannot be read: there is no such file or folder";
    assert_eq!(folder.run(&[OsStr::new("check"), gone]), failed(line));
    fs::write(folder.0.join("-dash.jobs"), TWO_JOBS).expect("a file");
    assert_eq!(folder.run(&["check", "--", "-dash.jobs"]).0, 0);
}

/// A plan in bytes where words are due, words where bytes are, and words that would be lost.
#[test]
fn bytes_and_words() {
    let folder = Folder::new("bytes").with("a.jobs", TWO_JOBS);
    assert_eq!(folder.run(&["pack", "a.jobs", "-o", "a.plan"]), said(0, ""));
    let in_bytes = (
        2,
        String::new(),
        "a.plan: error: this is a plan in bytes; 'tuft unpack' tells it in words\n".to_string(),
    );
    assert_eq!(folder.run(&["check", "a.plan"]), in_bytes);
    let in_words = (
        2,
        String::new(),
        "a.jobs: refused 2: a count of the head is outside its range; a plan in words is read by 'tuft check'\n"
            .to_string(),
    );
    assert_eq!(folder.run(&["unpack", "a.jobs"]), in_words);
    assert_eq!(
        folder.run(&["unpack", "a.plan", "-o", "a.jobs"]),
        failed("a.jobs: cannot be written: it is there already")
    );
    assert_eq!(folder.text("a.jobs"), TWO_JOBS);
    assert_eq!(
        folder.run(&["unpack", "a.plan", "-o", "b.jobs"]),
        said(0, "")
    );
    assert_eq!(folder.run(&["help", "help"]), folder.run(&["help"]));
}

/// A rule that is open beside one that holds because no run can end: 1 comes before 3.
#[test]
fn an_open_rule_where_no_run_can_end() {
    let mixed = "\
plan mixed
event a
channel k gives a
channel c
job x from s to e
  s calls k then m calls c then e
job y from p to e
  p accepts c then q accepts k then e
job z from p to e
  p accepts k then e
rule seen
  every a
rule unseen
  every []
";
    let folder = Folder::new("mixed").with("a.jobs", mixed);
    let (status, output, _) = folder.run(&["check", "a.jobs"]);
    let first: Vec<&str> = output.lines().take(2).collect();
    assert_eq!(
        (status, first),
        (
            1,
            vec![
                "HOLDS  seen, but no run can end",
                "OPEN   unseen: it is not shown that every complete run spells []"
            ]
        )
    );
}

/// Files that never end are read in part.
#[test]
fn a_file_without_end() {
    let folder = Folder::new("endless");
    let (status, output, notes) = folder.run(&["check", "/dev/zero"]);
    assert_eq!((status, output.as_str()), (2, ""));
    let first = notes.lines().next();
    let expected = "/dev/zero:1:1: error: the file is longer than 262,144 bytes";
    assert_eq!(first, Some(expected));
}

/// What is read is not written over, under another name neither.
#[test]
fn a_second_name_of_a_file() {
    let folder = Folder::new("linked").with("a.jobs", TWO_JOBS);
    fs::hard_link(folder.0.join("a.jobs"), folder.0.join("b.plan")).expect("a link");
    assert_eq!(
        folder.run(&["pack", "a.jobs", "-o", "b.plan"]),
        failed("b.plan: not written over: it was read from")
    );
    assert_eq!(folder.text("a.jobs"), TWO_JOBS);
}

/// Errors that the judge finds stand among the others in the order of the file.
#[test]
fn notes_in_the_order_of_the_file() {
    let plan = "\
plan p
event a b c
job j from s to e
  s gives a then s gives b then e
rule large
  every [a b]* ; a ; [a b] times 7
rule late
  every a ; c
";
    let folder = Folder::new("order").with("a.jobs", plan);
    let (status, _, notes) = folder.run(&["check", "a.jobs"]);
    let lines: Vec<&str> = notes
        .lines()
        .filter(|line| line.starts_with("a.jobs"))
        .collect();
    assert_eq!(
        (status, lines),
        (
            2,
            vec![
                "a.jobs:5:6: error: the pattern of rule 'large' needs more than 64 states; write it shorter, or as several rules",
                "a.jobs:8:13: warning: rule 'late' watches 'c', and no job gives it"
            ]
        )
    );
}

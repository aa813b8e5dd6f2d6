//! The commands: what each takes, and what `--help` says of it.

/// A command of the program.
pub struct Command {
    pub name: &'static str,
    /// What is typed.
    pub usage: &'static str,
    /// One line of what it does.
    pub does: &'static str,
    /// The whole help, behind the two lines above.
    pub text: &'static str,
    /// The options that it takes, besides `--help`.
    pub options: &'static [&'static str],
    /// How many words it takes, at least and at most.
    pub least: usize,
    pub most: usize,
}

pub const COMMANDS: [Command; 7] = [
    Command {
        name: "check",
        usage: "tuft check FILE [RULE...] [--json]",
        does: "Tells for each rule whether it holds.",
        text: "\
Judges the plan by each rule of the file, or by the rules that are named, in
the order of the file.

  HOLDS   it is proved that every complete run is as the rule says. Where it
          says too that no run can end, there is no complete run.
  OPEN    that is not shown: some run may break the rule, or none. For each way
          in which a run may end wrongly it is told what the rule saw, by a
          shortest example, and what it waits for or what came instead.

Nodes to which no run comes are named. Errors and warnings of the file go to
standard error.

  --json  prints one JSON document instead, with the errors and warnings of the
          file; docs/PLANS.md says what is in it

Exit status: 0 all rules hold and some run may end; 1 a rule is open; 2 the
file has an error; 3 anything else, also where all rules hold but no run can end.
",
        options: &["--json"],
        least: 1,
        most: usize::MAX,
    },
    Command {
        name: "sets",
        usage: "tuft sets FILE [RULE]",
        does: "Shows what the rule may have seen at each node.",
        text: "\
Lists the states of the rule, each by a shortest example of what leads to it
and by what the rule allows next; then for each node the states that may hold
while a job is there, and last those in which a run may end.

RULE may be left out where the file has just one.

Exit status: 0; 2 the file has an error; 3 anything else.
",
        options: &[],
        least: 1,
        most: 2,
    },
    Command {
        name: "draw",
        usage: "tuft draw FILE [RULE] -o OUT",
        does: "Draws the jobs as an SVG picture or a DOT graph.",
        text: "\
Draws each job as a group of nodes, with its moves, their events and channels.
Nodes to which no run comes are grey: under RULE, or without it under any rule
of the file.

  -o OUT  the file to write; its ending says what: .svg or .dot

Exit status: 0; 2 the file has an error; 3 anything else.
",
        options: &["-o"],
        least: 1,
        most: 2,
    },
    Command {
        name: "pack",
        usage: "tuft pack FILE [RULE] -o OUT.plan",
        does: "Writes the plan with one rule as bytes.",
        text: "\
Writes the bytes that are judged: the plan with the pattern of one rule.
RULE may be left out where the file has just one.

  -o OUT  the file to write, - for standard output

Exit status: 0; 2 the file has an error; 3 anything else.
",
        options: &["-o"],
        least: 1,
        most: 2,
    },
    Command {
        name: "unpack",
        usage: "tuft unpack FILE.plan [-o OUT]",
        does: "Prints the bytes of a plan in words.",
        text: "\
The bytes have no names: jobs are called job-0, nodes n0, events e1, channels
c0, all by their numbers. Packing the words gives the same bytes, unless the
moves of the jobs are mixed there; a comment then says so.

  -o OUT  a new file to write, - for standard output, as without it

Exit status: 0; 2 the bytes are refused; 3 anything else.
",
        options: &["-o"],
        least: 1,
        most: 1,
    },
    Command {
        name: "fmt",
        usage: "tuft fmt FILE [--check]",
        does: "Lays a file out anew.",
        text: "\
Indents and spaces the lines, and mends carriage returns and a byte-order
mark. Comments stay. The file is replaced only where something changes.
With - for FILE standard input is laid out on standard output.

  --check  changes nothing, and answers 1 if the file would change

Exit status: 0; 1 with --check, the file would change; 2 the file has an
error; 3 anything else.
",
        options: &["--check"],
        least: 1,
        most: 1,
    },
    Command {
        name: "new",
        usage: "tuft new [FILE]",
        does: "Prints a small plan to begin with.",
        text: "\
Prints a small plan with comments, or writes it to FILE, which must not exist.

Exit status: 0; 3 anything else.
",
        options: &[],
        least: 0,
        most: 1,
    },
];

/// The command of a name.
pub fn command(name: &str) -> Option<&'static Command> {
    COMMANDS.iter().find(|command| command.name == name)
}

/// What `tuft --help` prints.
pub fn overview() -> String {
    let lines = COMMANDS.iter();
    let lines: String = lines
        .map(|command| format!("  {:36}{}\n", command.usage, command.does))
        .collect();
    format!(
        "\
tuft judges job plans: it proves of every complete run of a plan's jobs that
it is as the plan's rules say, or tells what is left open.

{lines}  {:36}{}

Plans are written in words (docs/PLANS.md); `tuft new` prints one. With - for
FILE standard input is read. Exit status: 0 all is well, 1 a rule is open, 2 the
file has an error, 3 anything else.
",
        "tuft help COMMAND", "Says more of a command."
    )
}

/// What `tuft COMMAND --help` prints.
pub fn of(command: &Command) -> String {
    format!("{}\n\n{}\n\n{}", command.usage, command.does, command.text)
}

/// The plan that `tuft new` prints.
pub const STARTING_PLAN: &str = "\
# A plan: its jobs, how they move from node to node, and the rules that its
# runs have to keep. `tuft check` tells whether they do.
plan first-plan

# Things that happen, and that rules may watch.
event prepared handed finished

# Where one job calls and another accepts. Their meeting gives the event.
channel hand-over gives handed

# A job begins at one node and ends at another. A step may give an event.
job first from start to end
  start gives prepared then ready calls hand-over then end

job second from waiting to end
  waiting accepts hand-over then working gives finished then end

# What every complete run has to spell: these events, in this order.
rule in-order
  every prepared ; handed ; finished

# What no complete run may spell. [^] is any watched event.
rule not-too-early
  never [^]* ; finished ; [^]* ; handed ; [^]*
";

//! What the documents show of plans and answers is what the program says.
use std::fs;
use std::path::{Path, PathBuf};

mod run;

fn root() -> PathBuf {
    Path::new(env!("CARGO_MANIFEST_DIR")).join("..")
}

fn document(name: &str) -> String {
    fs::read_to_string(root().join(name)).expect(name)
}

/// The blocks of a document that are indented by four blanks or more, without them. Blank lines within a block are of it.
fn blocks(document: &str) -> Vec<String> {
    let mut blocks = vec![String::new()];
    for line in document.lines() {
        if line.starts_with("    ") || line.is_empty() {
            let last = blocks.last_mut().expect("there is always one");
            last.push_str(line.get(4..).unwrap_or(""));
            last.push('\n');
        } else {
            blocks.push(String::new());
        }
    }
    let trimmed = blocks.iter().map(|block| block.trim_matches('\n'));
    let some = trimmed.filter(|block| !block.is_empty());
    some.map(str::to_string).collect()
}

/// The words of a block without the blanks by which all of its lines are indented.
fn unindented(block: &str) -> String {
    let blanks = block.len() - block.trim_start().len();
    let lines = block.lines().map(|line| line.get(blanks..).unwrap_or(""));
    lines.collect::<Vec<&str>>().join("\n") + "\n"
}

/// What a command of a document answers, called from the root of the checkout.
fn answer(command: &str) -> String {
    let root = root();
    let words: Vec<String> = command
        .split(' ')
        .skip(1)
        .map(|word| match word.strip_prefix("plans/") {
            Some(_) => root.join(word).display().to_string(),
            None => word.to_string(),
        })
        .collect();
    let words: Vec<&str> = words.iter().map(String::as_str).collect();
    String::from_utf8(run::run(&words, b"").output).expect("text")
}

#[test]
fn the_answers_of_the_readme() {
    let readme = document("README.md");
    let mut shown = 0;
    for block in blocks(&readme) {
        if let Some((command, output)) = block.split_once("\n\n") {
            if command.starts_with("./tuft check ") {
                assert_eq!(answer(command), format!("{output}\n"), "{command}");
                shown += 1;
            }
        }
    }
    assert_eq!(shown, 2);
}

/// The piece of a plan in the README stands in the plan.
#[test]
fn the_plan_of_the_readme() {
    let plan = document("plans/parliament.jobs");
    let pieces = blocks(&document("README.md"));
    let piece = pieces.iter().find(|block| block.contains("job import"));
    for part in piece.expect("a piece of the plan").split("\n\n") {
        assert!(plan.contains(part), "{part}");
    }
}

/// Every plan on the page is a whole file without errors and warnings; this is what is said of its rules.
#[test]
fn the_plans_of_the_page_on_modelling() {
    let said = "\
two-jobs: in-order HOLDS
loop: pages HOLDS
choice: outcome HOLDS
try-again: loaded-at-last HOLDS
three-tries: three-at-most HOLDS
answered: in-order HOLDS
two-places: nothing-from-an-empty-queue HOLDS, never-three-in-a-row HOLDS
memory: in-order HOLDS
same-event: both-saved OPEN
own-events: de-once HOLDS, fr-once HOLDS, both-saved HOLDS
counted: all-before-audit OPEN
counted-by-one: all-before-audit HOLDS
turns: in-turns OPEN, one-at-a-time HOLDS
own-turns: in-turns HOLDS
told-on: one-or-the-other OPEN
told-by-the-meeting: one-or-the-other HOLDS
too-early: delivered-first OPEN
";
    let page = document("docs/PLANS.md");
    let mut found = String::new();
    for block in blocks(&page) {
        let plan = unindented(&block);
        if let Some(name) = plan
            .strip_prefix("plan ")
            .and_then(|rest| rest.lines().next())
        {
            if !plan.contains("\nrule ") {
                continue;
            }
            let answered = run::run(&["check", "-"], plan.as_bytes());
            assert_eq!(answered.notes, "", "{name}");
            found.push_str(&format!("{name}: {}\n", verdicts(&answered.output)));
        }
    }
    assert_eq!(found, said);
}

/// Each rule of an answer with its verdict.
fn verdicts(output: &[u8]) -> String {
    let text = String::from_utf8_lossy(output);
    let verdict = |line: &str| {
        let (verdict, rest) = line.split_once(' ')?;
        let rule = rest.trim_start().split([':', ',']).next()?;
        ["HOLDS", "OPEN"]
            .contains(&verdict)
            .then(|| format!("{rule} {verdict}"))
    };
    text.lines()
        .filter_map(verdict)
        .collect::<Vec<_>>()
        .join(", ")
}

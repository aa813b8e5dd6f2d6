//! What is shown of random plans is what the independent implementation says of their bytes.
mod plans;
mod run;

use plans::{plan, Random};
use run::run;
use tuft::model::Model;
use tuft::pack::pack;
use tuft::read::read;

const PLANS: usize = 300;

/// The answer of the independent implementation under one rule: whether it holds, the sets, and the final set.
struct Answer {
    holds: bool,
    sets: Vec<u64>,
    last: u64,
}

/// The answers under all rules, unless the pattern of one is too large.
fn answers(model: &Model) -> Option<Vec<Answer>> {
    model
        .rules
        .iter()
        .map(|rule| answer(&pack(model, rule)))
        .collect()
}

fn answer(bytes: &[u8]) -> Option<Answer> {
    let mut row = [0; 256];
    let (holds, counts) = match reference::judge(bytes, &mut row) {
        reference::Answer::Refused(number) => {
            assert_eq!(number, 16);
            return None;
        }
        reference::Answer::Verified(counts) => (true, counts),
        reference::Answer::Inconclusive(counts) => (false, counts),
    };
    Some(Answer {
        holds,
        sets: row.to_vec(),
        last: counts.final_set,
    })
}

/// The text that a command prints for a file, and its status.
fn printed(typed: &[&str], text: &str) -> (u8, String) {
    let answer = run(typed, text.as_bytes());
    (
        answer.status,
        String::from_utf8(answer.output).expect("text"),
    )
}

#[test]
fn answers_and_sets() {
    let random = &mut Random::new(21);
    let mut statuses = [0; 4];
    for round in 0..PLANS {
        let written = plan(random);
        let model = read(written.text.as_bytes()).model.expect("a plan");
        let answers = answers(&model);
        let (status, output) = printed(&["check", "-"], &written.text);
        assert_eq!(status, expected_status(&answers), "plan {round}");
        assert_eq!(
            told(&output),
            expected_lines(&model, &answers),
            "plan {round}"
        );
        statuses[status as usize] += 1;
        for (place, rule) in model.rules.iter().enumerate() {
            let output = printed(&["sets", "-", &rule.name], &written.text).1;
            let expected = answer(&pack(&model, rule)).map(|answer| expected_sets(&model, &answer));
            assert_eq!(
                shown_sets(&output),
                expected.unwrap_or_default(),
                "plan {round}, rule {place}"
            );
        }
    }
    assert!(statuses.iter().all(|&times| times > 0), "{statuses:?}");
}

fn expected_status(answers: &Option<Vec<Answer>>) -> u8 {
    match answers {
        None => 2,
        Some(answers) if answers.is_empty() => 2,
        Some(answers) if answers.iter().any(|answer| !answer.holds) => 1,
        Some(answers) if answers.iter().any(|answer| answer.last == 0) => 3,
        Some(_) => 0,
    }
}

/// The lines of `check` on rules and nodes: the answer and the rule's name, and the nodes to which no run comes.
fn told(output: &str) -> Vec<String> {
    let lines = output.lines().filter(|line| !line.starts_with(' '));
    let lines = lines.filter(|line| !line.starts_with(|first: char| first.is_ascii_digit()));
    lines
        .map(|line| line.split([':', ',']).next().unwrap_or("").to_string())
        .collect()
}

fn expected_lines(model: &Model, answers: &Option<Vec<Answer>>) -> Vec<String> {
    let Some(answers) = answers else {
        return Vec::new();
    };
    let rules = model.rules.iter().zip(answers);
    let rules = rules.map(|(rule, answer)| {
        format!(
            "{} {}",
            if answer.holds { "HOLDS " } else { "OPEN  " },
            rule.name
        )
    });
    let stuck = answers.iter().any(|answer| answer.last == 0);
    let no_end = stuck.then(|| "no run brings every job to its end".to_string());
    let unreached = unreached_lines(model, answers);
    rules.chain(no_end).chain(unreached).collect()
}

/// A line for each job that has nodes with an empty set under one of the rules, up to the first comma.
fn unreached_lines(model: &Model, answers: &[Answer]) -> Vec<String> {
    let mut lines = Vec::new();
    let mut node = 0;
    for job in &model.jobs {
        let mut unreached = Vec::new();
        for name in &job.nodes {
            if answers.iter().any(|answer| answer.sets[node] == 0) {
                unreached.push(name.as_str());
            }
            node += 1;
        }
        match unreached.as_slice() {
            [] => {}
            [only] => lines.push(format!("no run comes to {only} of {}", job.name)),
            [first, ..] => lines.push(format!("no run comes to {first}")),
        }
    }
    lines
}

/// The lines of `sets` behind the states, with single blanks.
fn shown_sets(output: &str) -> Vec<String> {
    let lines = output.lines().skip_while(|line| !line.is_empty()).skip(1);
    let lines = lines
        .skip_while(|line| !line.is_empty())
        .filter(|line| !line.is_empty());
    lines
        .map(|line| line.split_whitespace().collect::<Vec<_>>().join(" "))
        .collect()
}

fn expected_sets(model: &Model, answer: &Answer) -> Vec<String> {
    let mut lines = Vec::new();
    let mut sets = answer.sets.iter();
    for job in &model.jobs {
        let entry = &job.nodes[job.entry];
        lines.push(match job.standing {
            true => format!("service {} from {entry}", job.name),
            false => format!("job {} from {entry} to {}", job.name, job.nodes[job.exit]),
        });
        for (node, set) in job.nodes.iter().zip(sets.by_ref()) {
            lines.push(format!("{node} {}", numbers(*set, "no run comes here")));
        }
    }
    lines.push(format!(
        "at the end {}",
        numbers(answer.last, "no run can end")
    ));
    lines
}

fn numbers(set: u64, none: &str) -> String {
    let numbers: Vec<String> = (0..64)
        .filter(|state| set >> state & 1 == 1)
        .map(|state| state.to_string())
        .collect();
    if numbers.is_empty() {
        return format!("- {none}");
    }
    numbers.join(" ")
}

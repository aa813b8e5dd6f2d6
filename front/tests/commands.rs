//! Every command on every plan in `plans/`, compared with what is stored in `stored/NAME/`. With TUFT_STORE=1 in the environment that is
//! written anew.
mod folder;
mod run;

use folder::names_in;
use run::run;
use std::collections::BTreeMap;
use std::fs;
use std::path::Path;

const STORED: &str = "front/tests/stored";

/// What commands wrote, by the name of the file that stores it.
type Outputs = BTreeMap<String, Vec<u8>>;

#[test]
fn every_command_on_every_plan() {
    let checkout = Path::new(env!("CARGO_MANIFEST_DIR")).join("..");
    std::env::set_current_dir(checkout).expect("the checkout");
    let plans = names_in("plans").into_iter();
    let plans: Vec<String> = plans
        .filter_map(|name| name.strip_suffix(".jobs").map(str::to_string))
        .collect();
    assert!(!plans.is_empty(), "no plans");
    if std::env::var_os("TUFT_STORE").is_some_and(|value| value == "1") {
        store(&plans);
    }
    assert_eq!(
        names_in(STORED),
        plans,
        "the folders of {STORED}, and the plans"
    );
    for plan in plans {
        compare(&plan, &outputs(&plan), &stored(&plan));
    }
}

/// Writes all outputs anew.
fn store(plans: &[String]) {
    let _ = fs::remove_dir_all(STORED);
    for plan in plans {
        fs::create_dir_all(format!("{STORED}/{plan}")).expect("a folder");
        for (file, output) in outputs(plan) {
            fs::write(format!("{STORED}/{plan}/{file}"), output).expect("a file");
        }
    }
}

/// The outputs that are stored for a plan.
fn stored(plan: &str) -> Outputs {
    let folder = format!("{STORED}/{plan}");
    let names = names_in(&folder).into_iter();
    names
        .map(|name| {
            (
                name.clone(),
                fs::read(format!("{folder}/{name}")).expect("a file"),
            )
        })
        .collect()
}

fn compare(plan: &str, outputs: &Outputs, stored: &Outputs) {
    let files: Vec<_> = outputs.keys().collect();
    assert_eq!(
        files,
        stored.keys().collect::<Vec<_>>(),
        "{plan}: what is made, and what is stored"
    );
    for (file, output) in outputs {
        let (made, kept) = (
            String::from_utf8_lossy(output),
            String::from_utf8_lossy(&stored[file]),
        );
        assert_eq!(
            made, kept,
            "{plan}/{file}: what is made, and what is stored"
        );
        assert_eq!(output, &stored[file], "{plan}/{file}: the bytes");
    }
}

/// The outputs of all commands on a plan.
fn outputs(plan: &str) -> Outputs {
    let file = format!("plans/{plan}.jobs");
    let mut outputs = Outputs::new();
    let mut insert = |file: String, output: Vec<u8>| {
        let before = outputs.insert(file, output);
        assert_eq!(before, None, "{plan}: two outputs of one name");
    };
    insert("check".to_string(), transcript(&["check", &file]));
    insert(
        "check.json".to_string(),
        output(&["check", "--json", &file], b""),
    );
    insert("picture.svg".to_string(), drawn(&["draw", &file], "svg"));
    insert("picture.dot".to_string(), drawn(&["draw", &file], "dot"));
    for rule in rules(&file) {
        let packed = output(&["pack", &file, &rule, "-o", "-"], b"");
        let unpacked = output(&["unpack", "-"], &packed);
        assert_eq!(
            output(&["pack", "-", "-o", "-"], &unpacked),
            packed,
            "{file} {rule}: packed, unpacked and packed"
        );
        insert(format!("{rule}.sets"), transcript(&["sets", &file, &rule]));
        insert(format!("{rule}.dot"), drawn(&["draw", &file, &rule], "dot"));
        insert(format!("{rule}.plan"), packed);
        insert(format!("{rule}.unpacked"), unpacked);
    }
    let laid_out = run(&["fmt", "--check", &file], b"");
    assert_eq!(
        (laid_out.status, laid_out.notes.as_str()),
        (0, ""),
        "{file}: its layout"
    );
    outputs
}

/// The names of the rules of a file.
fn rules(file: &str) -> Vec<String> {
    let read = tuft::read::read(&fs::read(file).expect("a file"));
    let model = read.model.unwrap_or_else(|| panic!("{file} has errors"));
    model.rules.into_iter().map(|rule| rule.name).collect()
}

/// What a command wrote to standard error and to standard output, and its status.
fn transcript(typed: &[&str]) -> Vec<u8> {
    let answer = run(typed, b"");
    let status = format!("status {}\n", answer.status);
    [answer.notes.as_bytes(), &answer.output, status.as_bytes()].concat()
}

/// What a command that did its work wrote to standard output.
fn output(typed: &[&str], input: &[u8]) -> Vec<u8> {
    let answer = run(typed, input);
    assert!(
        answer.status != 2 && !answer.output.is_empty(),
        "{typed:?}: {}",
        answer.notes
    );
    answer.output
}

/// A picture, by way of a file.
fn drawn(typed: &[&str], ending: &str) -> Vec<u8> {
    let picture = format!("{}/picture.{ending}", env!("CARGO_TARGET_TMPDIR"));
    let answer = run(&[typed, &["-o", &picture]].concat(), b"");
    assert_eq!(answer.status, 0, "{typed:?}: {}", answer.notes);
    fs::read(picture).expect("a picture")
}

//! Plans in words pack to the bytes of the plans that are kept.
use std::fs;
use std::path::{Path, PathBuf};
use tuft::pack::pack;
use tuft::read::read;

fn root() -> PathBuf {
    Path::new(env!("CARGO_MANIFEST_DIR")).join("..")
}

fn file(name: &str) -> Vec<u8> {
    fs::read(root().join(name)).expect(name)
}

/// The bytes of a text under its only rule.
fn packed(text: &str) -> Vec<u8> {
    let model = read(text.as_bytes()).model.expect("a plan without errors");
    pack(&model, &model.rules[0])
}

/// The first indented block of a document.
fn first_block(document: &str) -> String {
    let inside = |line: &&str| line.is_empty() || line.starts_with("    ");
    let lines = document
        .lines()
        .skip_while(|line| !line.starts_with("    "));
    let lines = lines
        .take_while(inside)
        .map(|line| line.get(4..).unwrap_or(""));
    lines.collect::<Vec<&str>>().join("\n")
}

#[test]
fn the_plan_of_the_document() {
    let document = String::from_utf8(file("docs/PLANS.md")).unwrap();
    assert_eq!(packed(&first_block(&document)), file("plans/two-jobs.plan"));
}

/// Each plan that is kept in bytes is kept in words too, and these pack to the bytes.
#[test]
fn the_plans_that_are_kept() {
    let mut packed_plans = Vec::new();
    for entry in fs::read_dir(root().join("plans")).expect("plans") {
        let path = entry.expect("an entry of plans").path();
        if path.extension().is_some_and(|ending| ending == "plan") {
            let words = fs::read_to_string(path.with_extension("jobs")).expect("a plan in words");
            assert_eq!(packed(&words), fs::read(&path).unwrap(), "{path:?}");
            packed_plans.push(path);
        }
    }
    assert_eq!(packed_plans.len(), 5);
}

/// Without a list, nodes count as they are mentioned: the entry first, an exit that no move mentions last.
#[test]
fn nodes_are_numbered() {
    let nodes = |text: &str| read(text.as_bytes()).model.unwrap().jobs[0].nodes.clone();
    let moves = "c then a\n  b then a\n";
    assert_eq!(
        nodes(&format!("plan p\njob j from b to z\n  {moves}")),
        ["b", "c", "a", "z"]
    );
    assert_eq!(
        nodes(&format!("plan p\njob j from b to a\n  {moves}")),
        ["b", "c", "a"]
    );
    let listed = "plan p\njob j from b to a\n  nodes a x\n  b then a\n  nodes b\n";
    assert_eq!(nodes(listed), ["a", "x", "b"]);
}

/// A rule watches what its pattern names, and what `watch` adds.
#[test]
fn watched_events() {
    let rule = |text: &str| {
        let text = format!("plan p\nevent a b c d\nrule r\n{text}\n");
        read(text.as_bytes()).model.unwrap().rules[0].alphabet
    };
    assert_eq!(rule("every 0"), 0);
    assert_eq!(rule("never a ; [^c]"), 0b1010);
    assert_eq!(rule("watch d\nevery []\nwatch b d"), 0b10100);
}

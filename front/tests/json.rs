//! JSON documents.
mod run;

use run::run;
use tuft::json::{document, Value};

#[test]
fn characters_that_need_care() {
    let text = Value::text("a \"b\" \\ c\n\t\r\u{0}\u{1f}\u{7f}é→😀");
    assert_eq!(
        document(&text),
        "\"a \\\"b\\\" \\\\ c\\n\\t\\r\\u0000\\u001f\u{7f}é→😀\"\n"
    );
}

#[test]
fn layout() {
    let value = Value::Object(vec![
        ("none", Value::Null),
        ("yes", Value::Truth(true)),
        ("most", Value::Number(u64::MAX)),
        ("empty", Value::List(Vec::new())),
        ("texts", Value::texts(["a", "b"])),
        (
            "objects",
            Value::List(vec![
                Value::Object(vec![("no", Value::Truth(false))]),
                Value::Null,
            ]),
        ),
    ]);
    let expected = "\
{
  \"none\": null,
  \"yes\": true,
  \"most\": 18446744073709551615,
  \"empty\": [],
  \"texts\": [\"a\", \"b\"],
  \"objects\": [
    {
      \"no\": false
    },
    null
  ]
}
";
    assert_eq!(document(&value), expected);
}

/// Checks a plan on standard input, with nothing on standard error.
fn check(plan: &str, status: u8, document: &str) {
    let answer = run(&["check", "--json", "-"], plan.as_bytes());
    assert_eq!(String::from_utf8_lossy(&answer.output), document);
    assert_eq!((answer.status, answer.notes.as_str()), (status, ""));
}

#[test]
fn a_file_without_rules() {
    let expected = r#"{
  "file": "<standard input>",
  "plan": "p",
  "status": 2,
  "errors": [
    {
      "line": null,
      "column": null,
      "message": "no rule"
    }
  ],
  "warnings": [],
  "rules": [],
  "unreached": []
}
"#;
    check("plan p\n", 2, expected);
}

#[test]
fn an_error_behind_the_words() {
    let plan = "plan p\nevent a b\njob j from n to m\n  n gives a then n gives b then m\nrule small\n  every a\nrule large\n  every [^]* ; a ; [a b] times 6\n";
    let expected = r#"{
  "file": "<standard input>",
  "plan": "p",
  "status": 2,
  "errors": [
    {
      "line": 7,
      "column": 6,
      "message": "the pattern of rule 'large' needs more than 64 states; write it shorter, or as several rules"
    }
  ],
  "warnings": [],
  "rules": [],
  "unreached": []
}
"#;
    check(plan, 2, expected);
}

#[test]
fn rules_of_both_kinds() {
    let plan = "\
plan p
event a b
channel c
job j from n to m
  n gives a then o gives b then m
  n accepts c then far then m
rule open
  every a ; [a b] ; b+
rule holding
  never b ; a
";
    let expected = r#"{
  "file": "<standard input>",
  "plan": "p",
  "status": 1,
  "errors": [],
  "warnings": [
    {
      "line": 3,
      "column": 9,
      "message": "channel 'c' is accepted by job 'j', and no other job calls it: these accepts never happen"
    }
  ],
  "rules": [
    {
      "name": "open",
      "kind": "every",
      "pattern": "a ; [^] ; b+",
      "verdict": "open",
      "runs_may_end": true,
      "states": 6,
      "meetings": 0,
      "ordering": 0,
      "pairs": 3,
      "fill": 13,
      "final": [
        {
          "number": 3,
          "seen": ["a", "b"],
          "next": ["b"],
          "accepted": false
        }
      ]
    },
    {
      "name": "holding",
      "kind": "never",
      "pattern": "b ; a",
      "verdict": "holds",
      "runs_may_end": true,
      "states": 4,
      "meetings": 0,
      "ordering": 0,
      "pairs": 3,
      "fill": 19,
      "final": [
        {
          "number": 1,
          "seen": ["a"],
          "next": [],
          "accepted": false
        }
      ]
    }
  ],
  "unreached": [
    {
      "job": "j",
      "node": "far"
    }
  ]
}
"#;
    check(plan, 1, expected);
}

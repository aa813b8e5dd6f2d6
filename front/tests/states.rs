//! Rules that hold and rules that are open, told in words; and the states behind the words.
mod run;

use run::run;
use traceflow::Automaton;
use tuft::states::{states_of, State};

/// A plan of one job that gives events one after the other, under one rule.
fn chain(events: &[&str], rule: &str) -> String {
    let moves: String = (1..)
        .zip(events)
        .map(|(node, event)| format!(" gives {event} then n{node}"))
        .collect();
    let end = events.len();
    let body = if moves.is_empty() {
        moves
    } else {
        format!("  n0{moves}\n")
    };
    format!("plan p\nevent a b c d\njob j from n0 to n{end}\n{body}rule r\n{rule}\n")
}

/// What `check` answers to a plan, warnings aside.
fn check(plan: &str) -> (u8, String) {
    answered(&["check", "-"], plan)
}

/// The status and the output of a command, warnings aside.
fn answered(typed: &[&str], plan: &str) -> (u8, String) {
    let answer = run(typed, plan.as_bytes());
    assert!(!answer.notes.contains("error"), "{}", answer.notes);
    let output = String::from_utf8(answer.output).expect("standard output is text");
    (answer.status, output)
}

/// What is said of a chain under a rule that is open, but for the line of the rule and the last one.
fn ends(events: &[&str], rule: &str) -> Vec<String> {
    ends_of(&chain(events, rule))
}

/// The same of any plan.
fn ends_of(plan: &str) -> Vec<String> {
    let (status, output) = check(plan);
    assert_eq!(status, 1, "{output}");
    let lines: Vec<&str> = output.lines().collect();
    assert_eq!(
        lines[1],
        "       By the sets a run may end like this, though perhaps none does:"
    );
    assert_eq!(lines[lines.len() - 1], "1 rule: 1 open");
    let ends = lines[2..lines.len() - 1].iter();
    ends.map(|line| {
        line.strip_prefix("         ")
            .expect("indented")
            .to_string()
    })
    .collect()
}

#[test]
fn rules_that_hold() {
    assert_eq!(
        check(&chain(&["a", "b"], "every a ; b")),
        (
            0,
            "HOLDS  r: every complete run spells a ; b\n1 rule: 1 holds\n".to_string()
        )
    );
    assert_eq!(
        check(&chain(&["a", "b"], "never b ; [a c]*")),
        (
            0,
            "HOLDS  r: no complete run spells b ; [a c]*\n1 rule: 1 holds\n".to_string()
        )
    );
}

#[test]
fn rules_that_are_open() {
    assert_eq!(
        check(&chain(&["a"], "every a ; b")),
        (
            1,
            "OPEN   r: it is not shown that every complete run spells a ; b\n\
             \x20      By the sets a run may end like this, though perhaps none does:\n\
             \x20        after a: the rule waits for b\n\
             1 rule: 1 open\n"
                .to_string()
        )
    );
    assert_eq!(
        check(&chain(&["a", "b"], "never a ; b")),
        (
            1,
            "OPEN   r: it is not shown that no complete run spells a ; b\n\
             \x20      By the sets a run may end like this, though perhaps none does:\n\
             \x20        after a, b: that is what may never be\n\
             1 rule: 1 open\n"
                .to_string()
        )
    );
}

#[test]
fn wrong_ends() {
    let cases: [(&[&str], &str, &str); 13] = [
        (&[], "every a", "nothing seen yet: the rule waits for a"),
        (
            &[],
            "every [a b]",
            "nothing seen yet: the rule waits for a or b",
        ),
        (
            &["d"],
            "every d ; ([a b c] | 0 ; d)",
            "after d: the rule waits for a, b, c or d",
        ),
        (
            &["b"],
            "every a ; b",
            "b came first, where the rule allows a",
        ),
        (
            &["a", "b"],
            "every a ; c\nwatch b",
            "after a: b came, where the rule allows c",
        ),
        (
            &["a", "b"],
            "every a ; (c | d) ; b",
            "after a: b came, where the rule allows c or d",
        ),
        (
            &["a", "b"],
            "every a ; c?\nwatch b",
            "after a: b came, where the rule allows c or the end",
        ),
        (
            &["a", "b"],
            "every a ; [c d]*\nwatch b",
            "after a: b came, where the rule allows c, d or the end",
        ),
        (
            &["a", "a"],
            "every a",
            "after a: a came, where the rule allows only the end",
        ),
        (
            &["a"],
            "every 0\nwatch a",
            "a came first, where the rule allows only the end",
        ),
        (
            &["a"],
            "every a ; []",
            "after a: the rule allows no run at all",
        ),
        (
            &["a", "a", "a", "b", "b", "a"],
            "every a times 3 ; b times 2 ; a ; c",
            "after a 3 times, b 2 times, a: the rule waits for c",
        ),
        (
            &[],
            "never a*",
            "nothing seen yet: that is what may never be",
        ),
    ];
    for (events, rule, end) in cases {
        assert_eq!(ends(events, rule), [end], "{rule}");
    }
}

/// Of many final states the first eight are told. Two jobs that loop side by side bring every count to the exits.
#[test]
fn many_wrong_ends() {
    let plan = "plan p\nevent a\njob j from n to m\nn gives a then n then m\njob k from n to m\nn gives a then n then m\nrule r\nevery a times 12\n";
    let (status, output) = check(plan);
    let expected = "\
OPEN   r: it is not shown that every complete run spells a times 12
       By the sets a run may end like this, though perhaps none does:
         nothing seen yet: the rule waits for a
         after a: the rule waits for a
         after a 2 times: the rule waits for a
         after a 3 times: the rule waits for a
         after a 4 times: the rule waits for a
         after a 5 times: the rule waits for a
         after a 6 times: the rule waits for a
         after a 7 times: the rule waits for a
         and 5 more
1 rule: 1 open
";
    assert_eq!((status, output.as_str()), (1, expected));
}

#[test]
fn plans_without_jobs() {
    let cases = [
        ("every a*", 0, "HOLDS  r: there are no jobs, so the one run is empty, and it spells a*\n1 rule: 1 holds\n"),
        ("every a", 1, "OPEN   r: there are no jobs, so the one run is empty, and it does not spell a\n1 rule: 1 open\n"),
        ("never a", 0, "HOLDS  r: there are no jobs, so the one run is empty, and it does not spell a\n1 rule: 1 holds\n"),
        ("never a*", 1, "OPEN   r: there are no jobs, so the one run is empty, and it spells a*\n1 rule: 1 open\n"),
    ];
    for (rule, status, output) in cases {
        let plan = format!("plan p\nevent a\nrule r\n{rule}\n");
        assert_eq!(check(&plan), (status, output.to_string()), "{rule}");
    }
}

/// A pattern is told with the fewest brackets for which it is read as the same.
#[test]
fn words_of_patterns() {
    let cases = [
        ("(a ; b) ; c", "a ; b ; c"),
        ("a ; (b ; c)", "a ; (b ; c)"),
        ("(a | b) | c", "a | b | c"),
        ("a | (b | c)", "a | (b | c)"),
        ("(a ; b) | (c ; d)", "a ; b | c ; d"),
        ("(a | b) ; (c | d)", "(a | b) ; (c | d)"),
        ("((a)* ; (b ; c)*)*", "(a* ; (b ; c)*)*"),
        ("(a*)*", "a**"),
        ("(0)* | []* | [b a] | [a]", "0* | []* | [a b] | a"),
        ("[^a] | [^] | [a b c d]", "[^a] | [^] | [^]"),
    ];
    for (typed, told) in cases {
        told_as("a b c d", typed, told);
    }
    // A set is told by the others, where these are fewer.
    told_as(
        "a b c d e f g",
        "[^a b] | [^a b c] | [^a b c d]",
        "[^a b] | [^a b c] | [e f g]",
    );
    told_as(
        "a b c d e f g h",
        "[^a b c] | [^a b c d]",
        "[^a b c] | [e f g h]",
    );
}

/// Shorthand is told where it stands for just these items.
#[test]
fn shorthand_of_patterns() {
    let cases = [
        ("a ; a*", "a+"),
        ("a ; b ; b*", "a ; b ; b*"),
        ("a ; (b ; b*)", "a ; b+"),
        ("a* ; a", "a* ; a"),
        ("a ; a ; (a ; a)*", "(a ; a)+"),
        ("(a ; b) ; (a ; b)*", "(a ; b)+"),
        ("a* ; a**", "a*+"),
        ("a | 0", "a?"),
        ("0 | a", "0 | a"),
        ("a | b | 0", "(a | b)?"),
        ("a ; b | 0", "(a ; b)?"),
        ("a | (b | 0)", "a | b?"),
        ("0 | 0", "0?"),
        ("a ; a", "a ; a"),
        ("a ; a ; a", "a times 3"),
        ("a ; (a ; a)", "a ; (a ; a)"),
        ("a ; b ; b ; b", "a ; b ; b ; b"),
        ("a ; (b ; b ; b)", "a ; b times 3"),
        ("b ; b ; b ; a ; a", "b times 3 ; a ; a"),
        ("(a ; a ; a)*", "(a times 3)*"),
        ("(a ; a ; a) ; (a ; a ; a)", "a times 3 ; a times 3"),
        ("a+ ; a+ ; a+", "a+ times 3"),
        ("(a ; b) ; (a ; b)", "a ; b ; (a ; b)"),
        ("(a ; b) ; (a ; b) ; (a ; b) | c", "(a ; b) times 3 | c"),
        ("a? times 4 ; b", "a? times 4 ; b"),
        ("[^a] times 3", "[b c] times 3"),
    ];
    for (typed, told) in cases {
        told_as("a b c", typed, told);
    }
}

/// Whether a pattern of some watched events is told so.
fn told_as(watched: &str, typed: &str, told: &str) {
    let plan = format!("plan p\nevent {watched}\nrule r\nwatch {watched}\nevery {typed}\n");
    let output = answered(&["sets", "-"], &plan).1;
    let head = format!("plan p, rule r: every {told}");
    assert_eq!(output.lines().next(), Some(head.as_str()));
}

/// What was seen is told by events that the sets allow there. Event a comes only behind b: by a step, where a job would have to meet itself
/// for another way; or by a meeting, whose one side alone could come first.
#[test]
fn examples_are_of_the_plan() {
    let alone = "\
plan p
event a b d
channel c gives a
job j from s to end
  s calls c then end
  s accepts c then end
  s gives b then t gives a then end
rule r
  watch a
  every b ; d
";
    let together = "\
plan p
event a b d
channel c gives a
job j from s to end
  s gives b then t accepts c then end
job k from s to end
  s calls c then end
rule r
  watch a
  every b ; d
";
    for plan in [alone, together] {
        let (status, output) = check(plan);
        assert_eq!(status, 1);
        let line = "         after b: a came, where the rule allows d\n";
        assert!(output.contains(line), "{output}");
    }
}

/// A node to which no run comes under one rule is unreached, though the other rule cannot tell.
#[test]
fn nodes_that_one_rule_shows_unreached() {
    let plan = "\
plan p
event a g
channel k gives g
channel c
job one from s to u
  s gives a then t calls c then u
  s calls k then u
job two from v to y
  v accepts k then x accepts c then y
rule blind
  every 0
rule seeing
  every a | g
";
    let expected = "\
HOLDS  blind: every complete run spells 0
HOLDS  seeing, but no run can end
no run brings every job to its end, so these answers say nothing of any run
no run comes to y of two
2 rules: 2 hold, but no run can end
";
    assert_eq!(check(plan), (3, expected.to_string()));
}

/// Two jobs that each wait for the other.
const STUCK: &str = "\
plan stuck
event a b
channel c gives a
channel d gives b
job one from start to end
  start calls c then middle accepts d then end
job two from start to end
  start calls d then middle accepts c then end
rule first
  every a ; b
rule second
  never a ; b
";

#[test]
fn runs_that_cannot_end() {
    let expected = "\
HOLDS  first, but no run can end
HOLDS  second, but no run can end
no run brings every job to its end, so these answers say nothing of any run
no run comes to middle, end of one
no run comes to middle, end of two
2 rules: 2 hold, but no run can end
";
    assert_eq!(check(STUCK), (3, expected.to_string()));
}

#[test]
fn sets_of_a_stuck_plan() {
    let expected = "\
plan stuck, rule second: never a ; b

states
   0  nothing seen yet; next a
   1  after a; next b
   2  after b; cannot become what may never be
   3  after a, b; may not end

job one from start to end
  start   0
  middle  -  no run comes here
  end     -  no run comes here

job two from start to end
  start   0
  middle  -  no run comes here
  end     -  no run comes here

at the end  -  no run can end
";
    assert_eq!(
        answered(&["sets", "-", "second"], STUCK),
        (0, expected.to_string())
    );
}

#[test]
fn sets_with_a_service() {
    let plan = "\
plan memory
event stored fetched published
channel store gives stored
channel fetch gives fetched
service memory from empty
  empty accepts store then full accepts fetch then full then full
job importer from ready to end
  ready calls store then end
job publisher from ready to end
  ready calls fetch then fetched-it gives published then end
rule in-order
  every stored ; fetched ; published
";
    let expected = "\
plan memory, rule in-order: every stored ; fetched ; published

states
   0  nothing seen yet; next stored
   1  after stored; next fetched
   2  after fetched; broken
   3  after stored, fetched; next published
   4  after stored, fetched, published; may end

service memory from empty
  empty       0
  full        1 3 4

job importer from ready to end
  ready       0
  end         1 3 4

job publisher from ready to end
  ready       0 1
  fetched-it  3
  end         4

at the end  4
";
    assert_eq!(answered(&["sets", "-"], plan), (0, expected.to_string()));
}

/// An automaton of three events; a row has where each of them leads.
fn automaton(rows: &[[u8; 3]], accepting: u64) -> Automaton {
    let row = |(state, to): (usize, &[u8; 3])| {
        let mut moves = [state as u8; 32];
        moves[1..4].copy_from_slice(to);
        moves
    };
    Automaton {
        states: vec![0; rows.len()],
        moves: rows.iter().enumerate().map(row).collect(),
        accepting,
    }
}

fn state(number: usize, seen: &[usize], next: &[usize], may_end: bool, alive: bool) -> State {
    State {
        number,
        seen: seen.to_vec(),
        next: next.to_vec(),
        may_end,
        alive,
    }
}

/// Ways that cross: see the tests.
fn crossing() -> Automaton {
    automaton(
        &[
            [1, 2, 5],
            [4, 3, 1],
            [3, 4, 4],
            [4, 4, 3],
            [4, 4, 4],
            [1, 5, 5],
        ],
        0b1000,
    )
}

/// State 3 can be reached by `1 2` and by `2 1`, and by `3 1 3`: the first is told. Of state 4 nothing leads on.
#[test]
fn shortest_examples() {
    let automaton = crossing();
    assert_eq!(
        states_of(&automaton, 0b1110, &[u64::MAX; 32]),
        [
            state(0, &[], &[1, 2, 3], false, true),
            state(1, &[1], &[2, 3], false, true),
            state(2, &[2], &[1], false, true),
            state(3, &[1, 2], &[3], true, true),
            state(4, &[1, 1], &[], false, false),
            state(5, &[3], &[1, 2, 3], false, true),
        ]
    );
}

/// Without event 1 state 1 is out of reach, and only watched events lead on.
#[test]
fn only_watched_events_lead_on() {
    let automaton = automaton(&[[1, 0, 2], [1, 1, 1], [1, 2, 2]], 0b10);
    assert_eq!(
        states_of(&automaton, 0b1100, &[u64::MAX; 32]),
        [
            state(0, &[], &[], false, false),
            state(1, &[], &[2, 3], true, true),
            state(2, &[3], &[], false, false),
        ]
    );
}

/// Where event 1 may be given in state 2 alone, and event 3 in state 5 alone, the other way to state 3 is told. For state 5, to which event 3
/// leads from state 0, the shortest list of all is told.
#[test]
fn examples_of_events_that_may_be_given() {
    let automaton = crossing();
    let mut given = [0; 32];
    (given[1], given[2], given[3]) = (0b100, 0b1, 0b100000);
    let seen: Vec<Vec<usize>> = states_of(&automaton, 0b1110, &given)
        .into_iter()
        .map(|state| state.seen)
        .collect();
    assert_eq!(seen, [&[][..], &[1], &[2], &[2, 1], &[1, 1], &[3]]);
}

/// Each way in which the sets let the pattern be broken is told, those of one state in one line.
#[test]
fn every_wrong_event() {
    let plan = "\
plan p
event deployed gave-up notified
channel go abort tell
job test from start to end
  start gives gave-up then stop calls abort then end
  start then ok calls go then end
job deploy from idle to end
  idle accepts go then deploying gives deployed then over
  idle accepts abort then over
  over calls tell then end
job notify from idle to end
  idle accepts tell then n gives notified then sent
  sent gives notified then end
  sent then end
rule r
  every (deployed | gave-up) ; notified
";
    assert_eq!(
        ends_of(plan),
        [
            "after deployed: gave-up came, where the rule allows notified",
            "after gave-up: deployed came, where the rule allows notified",
            "after deployed, notified: deployed, gave-up or notified came, where the rule allows only the end",
        ]
    );
}

/// What may never be is told up to the event with which it came.
#[test]
fn what_may_never_be_is_told_once() {
    let plan = |rule: &str| {
        format!(
            "plan p\nevent a b\njob j from s to t\n  s gives a then s\n  s gives b then s\n  s then t\nrule r\n  watch a b\n  never {rule}\n"
        )
    };
    let told = |rule: &str| ends_of(&plan(rule));
    assert_eq!(
        told("[^]* ; a ; a ; [^]*"),
        ["after a 2 times: that is what may never be"]
    );
    // it stays met behind a, whichever comes, and is met by nothing too
    assert_eq!(
        told("0 | a ; [^]*"),
        [
            "nothing seen yet: that is what may never be",
            "after a: that is what may never be"
        ]
    );
    // it is met only for a while
    assert_eq!(
        told("a ; a?"),
        [
            "after a: that is what may never be",
            "after a 2 times: that is what may never be"
        ]
    );
    assert_eq!(
        told("[^]*"),
        ["nothing seen yet: that is what may never be"]
    );
}

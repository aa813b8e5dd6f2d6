//! Whatever the bytes of a file are, it is read to a plan that can be judged, or to clear errors.
mod plans;

use plans::{plan, without_places, Random};
use traceflow::{judge, Answer};
use tuft::diagnostic::{render, Diagnostic};
use tuft::format::format;
use tuft::model::Model;
use tuft::pack::pack;
use tuft::read::{read, Read};

/// Every rule of a plan packs to bytes that the judge answers with a verdict, or with 16: too many states.
fn judged(model: &Model) {
    for rule in &model.rules {
        let answer = judge(&pack(model, rule), &mut [0; 256]);
        let refused = matches!(answer, Answer::Refused(number) if number != 16);
        assert!(!refused, "{answer:?} for rule {} of {model:?}", rule.name);
    }
}

/// Whether a diagnostic is at a place of the source, and shown in three lines without control characters.
fn is_shown(source: &str, d: &Diagnostic) -> bool {
    let line = source.split('\n').nth(d.place.line - 1);
    let inside = line.is_some_and(|line| d.place.column <= line.chars().count() + 1);
    let shown = render("f.jobs", source, d);
    let clean = !shown.chars().any(|c| c.is_control() && c != '\n');
    inside && clean && shown.matches('\n').count() == 3
}

/// What holds of every file. Gives what was read.
fn checked(bytes: &[u8]) -> Read {
    let file = read(bytes);
    let told = &file.diagnostics;
    assert_eq!(file.model.is_none(), told.iter().any(|d| d.is_error()));
    assert!(told.windows(2).all(|two| two[0].place <= two[1].place));
    for d in told {
        assert!(is_shown(&file.source, d), "{d:?} of {:?}", file.source);
    }
    if let Some(model) = &file.model {
        judged(model);
        let text = format(bytes).expect("a file without errors is laid out");
        let again = read(text.as_bytes()).model.map(without_places);
        assert_eq!(again, Some(without_places(model.clone())), "{text}");
    }
    laid_out(bytes);
    file
}

/// A file that is laid out has no errors but unknown names and limits, and stays as it is when it is laid out again.
fn laid_out(bytes: &[u8]) {
    match format(bytes) {
        Ok(text) => assert_eq!(format(text.as_bytes()).ok(), Some(text)),
        Err(file) => assert!(file.diagnostics.iter().any(|d| d.is_error())),
    }
}

fn messages(file: &Read) -> Vec<String> {
    file.diagnostics.iter().map(|d| d.message.clone()).collect()
}

/// `LINE:COLUMN: message` for each diagnostic.
fn told(bytes: &[u8]) -> Vec<String> {
    let file = checked(bytes);
    let line = |d: &Diagnostic| format!("{}:{}: {}", d.place.line, d.place.column, d.message);
    file.diagnostics.iter().map(line).collect()
}

/// Random plans are read as what they were written from. Some of them are as large as a plan can be.
#[test]
fn random_plans() {
    let random = &mut Random::new(1);
    let mut most = [0; 8];
    for round in 0..400 {
        let written = plan(random);
        let file = checked(written.text.as_bytes());
        let told = messages(&file).join("\n");
        let model = file.model.map(without_places);
        assert!(
            model.as_ref() == Some(&written.model),
            "round {round}: {told}\n{}",
            written.text
        );
        for (most, size) in most.iter_mut().zip(sizes(&written.model)) {
            *most = size.max(*most);
        }
    }
    assert_eq!(most, [31, 64, 16, 256, 256, 128, 128, 64]);
}

/// How many events, channels, jobs, nodes, steps, calls and accepts a plan has, and items in its longest pattern.
fn sizes(model: &Model) -> [usize; 8] {
    let items = model.rules.iter().map(|rule| rule.items.len());
    [
        model.events.len(),
        model.channels.len(),
        model.jobs.len(),
        model.jobs.iter().map(|job| job.nodes.len()).sum(),
        model.steps.len(),
        model.calls.len(),
        model.accepts.len(),
        items.max().unwrap_or(0),
    ]
}

/// Laying a plan out keeps its warnings.
#[test]
fn laid_out_plans_have_the_same_warnings() {
    let random = &mut Random::new(2);
    for _ in 0..200 {
        let text = plan(random).text;
        let mut before = messages(&read(text.as_bytes()));
        let mut after = messages(&read(format(text.as_bytes()).unwrap().as_bytes()));
        before.sort();
        after.sort();
        assert_eq!(before, after);
    }
}

/// A piece of a text, cut where characters begin.
fn piece(random: &mut Random, text: &str) -> (usize, usize) {
    let places: Vec<usize> = text.char_indices().map(|(at, _)| at).collect();
    let first = random.upto(places.len() - 1);
    let last = (first + random.upto(12)).min(places.len() - 1);
    (places[first], places[last])
}

/// The text with a piece taken out, written twice, or put in the place of another; or cut off behind it.
fn damaged(random: &mut Random, text: &str) -> String {
    let (first, last) = piece(random, text);
    let cut = &text[first..last];
    match random.upto(3) {
        0 => format!("{}{}", &text[..first], &text[last..]),
        1 => format!("{}{cut}{}", &text[..last], &text[last..]),
        2 => text[..last].to_string(),
        _ => {
            let (at, end) = piece(random, text);
            format!("{}{cut}{}", &text[..at], &text[end..])
        }
    }
}

#[test]
fn damaged_plans() {
    let random = &mut Random::new(3);
    let (mut sound, mut broken) = (0, 0);
    for _ in 0..60 {
        let good = plan(random).text;
        for _ in 0..50 {
            let mut text = good.clone();
            for _ in 0..=random.upto(3) {
                text = damaged(random, &text) + "\n";
            }
            match checked(text.as_bytes()).model {
                Some(_) => sound += 1,
                None => broken += 1,
            }
        }
    }
    assert!(
        sound > 200 && broken > 1000,
        "{sound} sound, {broken} broken"
    );
}

#[test]
fn random_words() {
    const WORDS: [&str; 36] = [
        "plan", "event", "channel", "gives", "job", "jobs", "service", "services", "from", "to",
        "times", "nodes", "then", "calls", "accepts", "rule", "every", "never", "watch", "a", "b",
        "c", "0", "3", ";", "|", "*", "+", "?", "(", ")", "[", "]", "^", "\n", "\n",
    ];
    let random = &mut Random::new(4);
    for _ in 0..3000 {
        let mut text = "plan a\nevent a b\nchannel c\n".to_string();
        for _ in 0..random.upto(60) {
            text += random.pick(&WORDS);
            text += " ";
        }
        checked(text.as_bytes());
    }
}

#[test]
fn random_patterns() {
    const WORDS: [&str; 15] = [
        "a", "b", "0", "3", ";", "|", "*", "+", "?", "(", ")", "[", "]", "^", "times",
    ];
    let random = &mut Random::new(5);
    let mut sound = 0;
    for _ in 0..6000 {
        let mut text = "plan p\nevent a b\nrule r\n  every a ".to_string();
        for _ in 0..random.upto(9) {
            text += random.pick(&WORDS);
            text += " ";
        }
        sound += usize::from(checked(text.as_bytes()).model.is_some());
    }
    assert!(sound > 600, "{sound} sound patterns");
}

#[test]
fn random_bytes() {
    let random = &mut Random::new(6);
    for round in 0..2000 {
        let length = random.upto(200);
        let mask = if round % 2 == 0 { 0xff } else { 0x7f };
        let bytes: Vec<u8> = (0..length).map(|_| random.number() as u8 & mask).collect();
        assert!(checked(&bytes).model.is_none());
    }
}

const GOOD: &str = "plan p
event a

job j from s to t
  s gives a then t

rule r
  every a
";

#[test]
fn a_file_that_is_too_long() {
    let message = "1:1: the file is longer than 262,144 bytes";
    assert_eq!(told(&vec![b' '; 1 << 20]), [message]);
    assert_eq!(told(&vec![0xff; 1 << 20]), [message]);
    let commented = |bytes: usize| {
        let hashes = "#".repeat(bytes - GOOD.len() - 2);
        format!("{GOOD}\n{hashes}\n")
    };
    assert_eq!(told(commented(262_144).as_bytes()), [""; 0]);
    assert_eq!(told(commented(262_145).as_bytes()), [message]);
}

/// A file may be of the greatest length, and too long when it is laid out.
#[test]
fn a_file_that_is_too_long_when_laid_out() {
    let mut text = "plan p\njob j from s to t\n".to_string();
    while text.len() + 9 <= 262_144 {
        text += "s then t\n";
    }
    let file = format(text.as_bytes()).unwrap_err();
    let message = "the file is longer than 262,144 bytes when it is laid out";
    assert_eq!(messages(&file), [message]);
}

#[test]
fn bytes_that_are_no_text() {
    assert_eq!(
        told(b"plan p\nevent \xc3\xa9 \xff b\n"),
        ["2:9: the file has to be UTF-8, and the byte ff is not UTF-8 here"]
    );
    assert_eq!(
        told(b"plan p\nevent a\0b\n"),
        ["2:8: the control character U+0000 has no place in a file"]
    );
    assert_eq!(
        told(b"plan p\x07\nevent a\0b\x1b\nevent c # \x7f\n"),
        ["1:7: the control character U+0007 has no place in a file; 3 more follow"]
    );
}

#[test]
fn line_ends_and_the_mark() {
    let message = "the line ends with a carriage return; run 'tuft fmt' on the file, which writes plain line feeds";
    let returns = GOOD.replace('\n', "\r\n");
    assert_eq!(told(returns.as_bytes()), [format!("1:7: {message}")]);
    assert_eq!(
        told(GOOD.replace('\n', "\r").as_bytes()),
        [format!("1:7: {message}")]
    );
    let mark = "1:1: the file begins with a byte-order mark; run 'tuft fmt' on it, which takes the mark away";
    let marked = format!("\u{feff}{GOOD}");
    assert_eq!(told(marked.as_bytes()), [mark]);
    let both = format!("\u{feff}{returns}");
    assert_eq!(
        told(both.as_bytes()),
        [mark.to_string(), format!("1:7: {message}")]
    );
    assert_eq!(format(both.as_bytes()).unwrap(), GOOD);
}

/// A rule with the pattern, in a file with an event `a`.
fn pattern(text: &str) -> String {
    format!("plan p\nevent a\njob j from s to t\n  s gives a then t\nrule r\n  every {text}\n")
}

#[test]
fn deep_brackets() {
    let nested = |deep: usize| pattern(&("(".repeat(deep) + "a" + &")".repeat(deep)));
    assert_eq!(told(nested(100).as_bytes()), [""; 0]);
    let message = "brackets stand more than 100 deep in one another";
    assert_eq!(told(nested(101).as_bytes()), [format!("6:109: {message}")]);
    assert_eq!(
        told(nested(100_000).as_bytes()),
        [format!("6:109: {message}")]
    );
    let open = pattern(&"(".repeat(200_000));
    assert_eq!(told(open.as_bytes()), [format!("6:109: {message}")]);
}

#[test]
fn patterns_that_grow() {
    let many = |items: &str| {
        format!("6:3: the pattern of rule 'r' needs {items} items, and at most 64 are possible: one for each event, set, 0, ;, | and *, those that shorthand stands for included")
    };
    let plus = pattern(&("(".repeat(60) + "a" + &"+)".repeat(60)));
    assert_eq!(told(plus.as_bytes()), [many("more than 1000")]);
    let stars = pattern(&("a".to_string() + &"*".repeat(200_000)));
    assert_eq!(told(stars.as_bytes()), [many("more than 1000")]);
    let sequence = pattern(&("a;".repeat(100_000) + "a"));
    assert_eq!(told(sequence.as_bytes()), [many("more than 1000")]);
    let times = pattern(&("a".to_string() + &" times 64".repeat(20_000)));
    assert_eq!(told(times.as_bytes()), [many("more than 1000")]);
    assert_eq!(told(pattern("a times 33").as_bytes()), [many("65")]);
    assert_eq!(told(pattern("a times 32 times 1").as_bytes()), [""; 0]);
}

#[test]
fn very_long_lines() {
    let name = "x".repeat(200_000);
    assert_eq!(
        told(format!("plan p\nevent {name}\n").as_bytes()),
        ["2:7: the name has 200000 characters, and at most 64 are possible"]
    );
    let words = format!("plan p\nevent {}\n", "a ".repeat(100_000));
    let words = told(words.as_bytes());
    assert_eq!(words.len(), 1001);
    assert_eq!(
        words[0],
        "2:9: event 'a' is declared twice; the first is in line 2"
    );
    assert_eq!(words[1000], "2:2009: 98999 more follow");
    let chain = format!(
        "plan p\njob j from s to t\n  s {}then t\n",
        "then s ".repeat(30_000)
    );
    assert_eq!(
        told(chain.as_bytes()),
        ["3:1797: this is step 257, and a plan has at most 256, copies counted"]
    );
}

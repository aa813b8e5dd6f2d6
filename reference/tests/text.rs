//! Patterns typed as text: their items, their refusals, and plans judged by
//! them.

mod draft;

use std::collections::HashMap;

use draft::{counts, events, set, Draft, NONE, P, UNTOUCHED};
use reference::{judge_text, pattern_part, read_text, Answer, Automaton, Counts, Item};

/// Events 1, 2, 3 and 31.
const ALPHABET: u32 = 0x8000_000E;

/// Events 1 to 31.
const ALL: u32 = !1;

fn read(text: &str) -> Result<Vec<Item>, u32> {
    read_text(text.as_bytes(), ALPHABET)
}

/// Items in a short form: a letter for its event alone, `0` for the empty
/// string and the operators for themselves.
fn postfix(items: &str) -> Result<Vec<Item>, u32> {
    let item = |item| match item {
        '0' => Item::Empty,
        ';' => Item::Sequence,
        '|' => Item::Choice,
        '*' => Item::Star,
        letter => events(&[letter as u64 - 'a' as u64 + 1]),
    };
    Ok(items.chars().map(item).collect())
}

/// As many letters in sequence.
fn letters(count: usize) -> String {
    vec!["a"; count].join(";")
}

fn judge_typed(draft: &Draft, text: &str) -> (Answer, Vec<u64>) {
    draft.judge_by(|plan, row| judge_text(plan, text.as_bytes(), row))
}

/// A refusal leaves the row unchanged.
fn assert_refused(plan: &[u8], text: &str, number: u32) {
    let mut row = [UNTOUCHED; 300];
    let answer = judge_text(plan, text.as_bytes(), &mut row);
    assert_eq!(answer, Answer::Refused(number), "{text}");
    assert_eq!(row, [UNTOUCHED; 300]);
}

#[test]
fn items_of_texts() {
    for (text, items) in [
        ("a", "a"),
        ("0", "0"),
        ("a|b;c*", "abc*;|"),
        ("(a|b);c*", "ab|c*;"),
        ("a;b|c", "ab;c|"),
        ("a;b;c", "ab;c;"),
        ("a;(b;c)", "abc;;"),
        ("a|b|c", "ab|c|"),
        ("a|(b|c)", "abc||"),
        ("a|b;c;a|b", "abc;a;|b|"),
        ("a**", "a**"),
        ("(a;b)*|0*", "ab;*0*|"),
        ("((a)*)*", "a**"),
        ("(a|(b;(0|c)*)*)", "ab0c|*;*|"),
    ] {
        assert_eq!(read(text), postfix(items), "{text}");
    }
}

#[test]
fn sets_in_texts() {
    for (text, set) in [
        ("[]", events(&[])),
        ("[a]", events(&[1])),
        ("[aa]", events(&[1])),
        ("[ca]", events(&[1, 3])),
        ("[^]", events(&[1, 2, 3, 31])),
        ("[^b]", events(&[1, 3, 31])),
        ("[^bb]", events(&[1, 3, 31])),
        ("[^abc]", events(&[31])),
    ] {
        assert_eq!(read(text), Ok(vec![set]), "{text}");
    }
    assert_eq!(read_text(b"[^]", ALL), Ok(vec![Item::Events(ALL)]));
    assert_eq!(read_text(b"[^]", 0), Ok(vec![events(&[])]));
}

#[test]
fn each_letter_is_an_event() {
    for (event, letter) in (1..).zip(b'a'..=b'z') {
        let alone = Ok(vec![events(&[event])]);
        assert_eq!(read_text(&[letter], ALL), alone);
        assert_eq!(read_text(&[b'[', letter, b']'], ALL), alone);
        let rest = Ok(vec![Item::Events(ALL & !(1 << event))]);
        assert_eq!(read_text(&[b'[', b'^', letter, b']'], ALL), rest);
        assert_eq!(read_text(&[letter], ALL & !(1 << event)), Err(20));
    }
}

#[test]
fn texts_that_break_the_grammar() {
    for text in [
        "", "a;", ";a", "a|", "|a", "a||b", "a;;b", "a;|b", "a|;b", "ab", "a0", "00", "a(b)",
        "(a)b", "(a)(b)", "a[b]", "[a]b", "()", "(", ")", "(a", "a)", "((a)", "(a))", ")a(",
        "(a;)", "(|a)", "*", "*a", "(*a)", "a;*", "a|*b", "[", "]", "[a", "a]", "[^", "[^a",
        "[a]]", "[[a]]", "[(a)]", "[a^]", "[^^a]", "[a^b]", "[0]", "[^0]", "[a;b]", "[a|b]",
        "[a*]", "[A]", "^", "^a", "A", "Z", "1", "`", "{", "a+", "a?", ".", " ", " a", "a ",
        "a; b", "[ a]", "a\n", "a\0", "é", "[é]",
    ] {
        assert_eq!(read(text), Err(18), "{text:?}");
    }
    for byte in 128..=255 {
        assert_eq!(read_text(&[byte], ALL), Err(18));
        assert_eq!(read_text(&[b'a', byte], ALL), Err(18));
        assert_eq!(read_text(&[b'[', byte, b']'], ALL), Err(18));
    }
}

#[test]
fn long_texts() {
    let nested = format!("{}a{}", "(".repeat(127), ")".repeat(127));
    assert_eq!(nested.len(), 255);
    assert_eq!(read(&nested), postfix("a"));
    let set = format!("[{}]", "ab".repeat(126));
    assert_eq!(set.len(), 254);
    assert_eq!(read(&set), Ok(vec![events(&[1, 2])]));
    assert_eq!(read(&format!("{set}*")).unwrap().len(), 2);
    // One byte too many, and nothing else wrong.
    assert_eq!(read(&format!("{set}**")), Err(18));
    assert_eq!(read(&format!("[{}]", "a".repeat(254))), Err(18));
    // Too long comes before too many items.
    assert_eq!(read(&format!("a{}", "*".repeat(254))), Err(19));
    assert_eq!(read(&format!("a{}", "*".repeat(255))), Err(18));
}

#[test]
fn texts_with_many_items() {
    assert_eq!(read(&letters(32)).unwrap().len(), 63);
    assert_eq!(read(&format!("{}*", letters(32))).unwrap().len(), 64);
    assert_eq!(read(&format!("{}**", letters(32))), Err(19));
    assert_eq!(read(&letters(33)), Err(19));
    assert_eq!(read(&format!("({})", letters(33))), Err(19));
    assert_eq!(read(&format!("a{}", "*".repeat(63))).unwrap().len(), 64);
    assert_eq!(read(&format!("a{}", "*".repeat(64))), Err(19));
}

#[test]
fn letters_outside_the_alphabet() {
    for text in ["d", "a;d", "(d)*", "[d]", "[ad]", "[^d]", "[^ad]", "[dd]|a"] {
        assert_eq!(read(text), Err(20), "{text}");
    }
    assert_eq!(read_text(b"a", 0), Err(20));
    assert_eq!(read_text(b"0;[]|[^]", 0).unwrap().len(), 5);
}

#[test]
fn the_first_of_18_to_20() {
    // A strange letter or too many items, and then a fault of the grammar.
    for text in ["d;", "[d", "(d", "[^d]]"] {
        assert_eq!(read(text), Err(18), "{text}");
    }
    assert_eq!(read(&format!("{};", letters(33))), Err(18));
    assert_eq!(read(&format!("({}", letters(33))), Err(18));
    // A strange letter, and then too many items.
    assert_eq!(read(&format!("d;{}", letters(32))), Err(19));
    assert_eq!(read(&format!("{};[^d]", letters(32))), Err(19));
}

/// Texts of one form with their items.
type Texts = HashMap<String, Vec<Item>>;

/// Adds a text, which no other reading may give.
fn add(texts: &mut Texts, text: String, items: Vec<Item>) {
    assert_eq!(texts.insert(text.clone(), items), None, "{text}");
}

/// Older and newer texts joined by an operator, to `length` bytes in all.
fn joined(older: &[Texts], newer: &[Texts], sign: char, item: Item, length: usize) -> Texts {
    let mut texts = Texts::new();
    for left in 1..length.saturating_sub(1) {
        for (one, first) in &older[left] {
            for (other, second) in &newer[length - 1 - left] {
                let items = [&first[..], second, &[item]].concat();
                add(&mut texts, format!("{one}{sign}{other}"), items);
            }
        }
    }
    texts
}

/// All texts of the grammar up to some length, by length, whose one letter is
/// `a`, each with its one reading. They are built up from shorter ones.
fn grammar(most: usize) -> Vec<Texts> {
    let (mut units, mut sequences, mut choices) = (vec![], vec![], vec![]);
    for length in 0..=most {
        let mut unit = Texts::new();
        if length == 1 {
            add(&mut unit, "a".into(), vec![events(&[1])]);
            add(&mut unit, "0".into(), vec![Item::Empty]);
        }
        if length >= 2 {
            let some = "a".repeat(length - 2);
            let listed = if length == 2 { 0 } else { 2 };
            add(&mut unit, format!("[{some}]"), vec![Item::Events(listed)]);
            let starred: &Texts = &units[length - 1];
            for (text, items) in starred {
                let items = [&items[..], &[Item::Star]].concat();
                add(&mut unit, format!("{text}*"), items);
            }
            let inner: &Texts = &choices[length - 2];
            for (text, items) in inner {
                add(&mut unit, format!("({text})"), items.clone());
            }
        }
        if length >= 3 {
            let some = "a".repeat(length - 3);
            let rest = if length == 3 { ALPHABET } else { ALPHABET & !2 };
            add(&mut unit, format!("[^{some}]"), vec![Item::Events(rest)]);
        }
        units.push(unit.clone());
        let mut sequence = joined(&sequences, &units, ';', Item::Sequence, length);
        for (text, items) in unit {
            add(&mut sequence, text, items);
        }
        sequences.push(sequence.clone());
        let mut choice = joined(&choices, &sequences, '|', Item::Choice, length);
        for (text, items) in sequence {
            add(&mut choice, text, items);
        }
        choices.push(choice);
    }
    choices
}

/// Every text up to five bytes of these signs is read as the grammar says.
#[test]
fn all_short_texts() {
    let signs = "a0;|*()[^]";
    let mut texts = vec![String::new()];
    for good in grammar(5) {
        for text in &texts {
            let expected = good.get(text).cloned().ok_or(18);
            assert_eq!(read(text), expected, "{text}");
        }
        let longer = |text: &String| {
            let text = text.clone();
            signs.chars().map(move |sign| format!("{text}{sign}"))
        };
        texts = texts.iter().flat_map(longer).collect();
    }
}

/// Longer texts of the grammar, where operators and brackets mix.
#[test]
fn good_texts_up_to_nine_bytes() {
    for good in grammar(9) {
        for (text, items) in good {
            assert_eq!(read(&text), Ok(items), "{text}");
        }
    }
}

#[test]
fn own_pattern_typed() {
    let two_jobs = Draft::two_jobs();
    for text in ["a;b;c", "a;(b;c)", "((a;b));[c]"] {
        assert_eq!(judge_typed(&two_jobs, text), two_jobs.judge(), "{text}");
    }
    assert_eq!(judge_typed(&Draft::p(), "a"), Draft::p().judge());
    let four = Draft::many_states(4);
    let text = "[ab]*;a;[ab];[ab];[ab];[ab]";
    assert_eq!(judge_typed(&four, text), four.judge());
    assert_eq!(counts(four.judge().0).states, 33);
}

/// The verdict is about the text's language, of the plan's kind.
#[test]
fn other_patterns_typed() {
    let none = Draft {
        kind: NONE,
        ..Draft::p()
    };
    let both = |text| [&Draft::p(), &none].map(|draft| judge_typed(draft, text).0);
    for text in ["a", "a*", "[^]", "0|a"] {
        let [every, none] = both(text);
        assert!(matches!(every, Answer::Verified(_)), "{text}");
        assert!(matches!(none, Answer::Inconclusive(_)), "{text}");
    }
    for text in ["0", "a;a", "[]", "[^a]", "[]*"] {
        let [every, none] = both(text);
        assert!(matches!(every, Answer::Inconclusive(_)), "{text}");
        assert!(matches!(none, Answer::Verified(_)), "{text}");
    }
    // P under `a*`: one state for the beginning, one after any number of a.
    let expected = Counts {
        states: 2,
        meetings: 0,
        ordering: 0,
        pairs: 2,
        fill: 50,
        final_set: set(&[1]),
    };
    let (answer, row) = judge_typed(&Draft::p(), "a*");
    assert_eq!(answer, Answer::Verified(expected));
    assert_eq!(row, [set(&[0]), set(&[1])]);
}

#[test]
fn own_items_come_before_the_text() {
    let mut last = P;
    last[21] = 0x01;
    let two = Draft {
        items: vec![events(&[1]); 2],
        ..Draft::p()
    };
    let short = Draft {
        items: vec![Item::Choice],
        ..Draft::p()
    };
    let strange = Draft {
        items: vec![events(&[2])],
        ..Draft::p()
    };
    let mut kind = P;
    kind[17] = 0xB0;
    for text in ["a", "", "b", &letters(33)] {
        assert_refused(&P[..10], text, 1);
        assert_refused(&P[..21], text, 10);
        assert_refused(&kind, text, 11);
        assert_refused(&strange.bytes(), text, 12);
        assert_refused(&short.bytes(), text, 13);
        assert_refused(&two.bytes(), text, 14);
        assert_refused(&last, text, 15);
    }
}

/// The pattern of `Draft::many_states(5)`: 65 states.
const FIVE: &str = "[ab]*;a;[ab];[ab];[ab];[ab];[ab]";

#[test]
fn states_are_those_of_the_text() {
    let four = Draft::many_states(4).bytes();
    let five = Draft::many_states(5);
    let items = read(FIVE).unwrap();
    assert_eq!(items, five.items);
    assert_eq!(Automaton::of_items(&items, 6), Err(16));
    assert_refused(&four, FIVE, 16);
    // 18 to 20 come before 16.
    assert_refused(&four, &format!("{FIVE};"), 18);
    assert_refused(&four, &format!("{FIVE}{}", "*".repeat(64)), 19);
    assert_refused(&four, &format!("{FIVE};c"), 20);
    // The own pattern may have more than 64 states; its part stays empty.
    assert_eq!(five.judge().0, Answer::Refused(16));
    let (answer, _) = judge_typed(&five, "a");
    assert_eq!(counts(answer).states, 3);
    assert_refused(&five.bytes(), FIVE, 16);
    assert_eq!(pattern_part(&five.bytes()), 0..0);
}

#[test]
fn a_short_row_comes_last() {
    let four = Draft::many_states(4).bytes();
    for (text, number) in [
        ("a;", 18),
        (letters(33).as_str(), 19),
        ("c", 20),
        (FIVE, 16),
        ("a", 17),
    ] {
        let mut short = [UNTOUCHED];
        let answer = judge_text(&four, text.as_bytes(), &mut short);
        assert_eq!(answer, Answer::Refused(number), "{text}");
        assert_eq!(short, [UNTOUCHED]);
    }
    let mut enough = [UNTOUCHED; 2];
    let answer = judge_text(&four, b"a", &mut enough);
    assert_eq!(counts(answer).states, 3);
}

//! The inputs on which the program is tried.

use crate::case;
use crate::draft::{Draft, PRINTED};
use crate::program::largest;
use crate::program::line::{answer, answer_by, name, READ};
use crate::program::writing::Writing;
use crate::random::Random;
use crate::text::MOST_BYTES;
use crate::{recess, refusals, standing};
use reference::Answer;
use std::collections::BTreeMap;

pub struct Input {
    pub name: String,
    /// The program's argument, if it is given one.
    pub text: Option<Vec<u8>>,
    pub bytes: Vec<u8>,
    pub writing: Writing,
}

/// Generated plans for each refusal, and for each of the two verdicts.
const REFUSED: usize = 15;
const JUDGED: usize = 60;
/// The same with a text, for each answer.
const TYPED: usize = 4;
/// One in so many of them is written in pieces.
const IN_PIECES: usize = 4;
/// Plans of the seed that are looked through for them.
const LOOKED_THROUGH: u64 = 3_000;
/// Plans without jobs, and plans with a memory server, for each answer, with a text and without.
const OF_SORT: usize = 4;
/// Such plans that are drawn to find them, each refusal aimed at in turn.
const OF_SORT_DRAWN: usize = 1_000;
/// The largest plans, for each verdict.
const LARGEST: usize = 3;
/// Lengths around that which the program reads, one above that of a pipe too.
const LONG: [usize; 5] = [READ - 1, READ, READ + 1, 5_000, 70_000];
/// Lengths of texts from the longest that is read on.
pub const LONG_TEXTS: [usize; 5] = [MOST_BYTES, MOST_BYTES + 1, READ, READ + 1, 100_000];

/// All inputs of this seed.
pub fn all(seed: u64) -> Vec<Input> {
    let random = &mut Random::new(seed);
    let plans = largest::judged(LARGEST, random);
    let all_sets = largest::all_sets(random);
    let mut inputs = short();
    inputs.extend(generated(seed, random));
    inputs.extend(plans.iter().flat_map(|plan| around(plan)));
    inputs.extend(around(&all_sets));
    inputs.extend(long(&PRINTED, random));
    let of_each_verdict = plans.iter().step_by(LARGEST);
    inputs.extend(of_each_verdict.flat_map(|plan| long(plan, random)));
    inputs.extend(long(&all_sets, random));
    inputs.extend(printed_with_texts());
    inputs.extend(generated_with_texts(seed));
    let without_jobs = "without jobs";
    inputs.extend(known(without_jobs, &recess::known(), &TEXTS_WITHOUT_JOBS));
    inputs.extend(generated_of_sort(without_jobs, recess::recess, random));
    let with_server = "with a server";
    inputs.extend(known(with_server, &standing::known(), &TEXTS_WITH_SERVER));
    inputs.extend(generated_of_sort(with_server, standing::server, random));
    inputs
}

impl Input {
    fn new(name: &str, bytes: &[u8], writing: Writing) -> Input {
        Input {
            name: name.to_string(),
            text: None,
            bytes: bytes.to_vec(),
            writing,
        }
    }

    /// The bytes written at once to the program, which is given the text.
    fn typed(name: &str, bytes: &[u8], text: &[u8]) -> Input {
        Input {
            text: Some(text.to_vec()),
            ..Input::new(name, bytes, Writing::Whole)
        }
    }

    /// The bytes written at once, and in pieces in all ways.
    fn in_all_ways(name: &str, bytes: &[u8]) -> Vec<Input> {
        let ways = [Writing::Whole].into_iter();
        ways.chain(Writing::in_pieces(bytes.len()))
            .map(|way| Input::new(name, bytes, way))
            .collect()
    }
}

/// No byte, one byte, the printed plan up to each of its lengths and beyond, and the lengths around the least of a plan.
fn short() -> Vec<Input> {
    let whole = |name: &str, bytes: &[u8]| Input::new(name, bytes, Writing::Whole);
    let mut inputs = vec![whole("no byte", &[])];
    inputs.extend([0, 8, b'\n', 0xff].map(|byte| whole("one byte", &[byte])));
    let cut = |length: usize| whole("the printed plan, cut", &PRINTED[..length]);
    inputs.extend((1..PRINTED.len()).map(cut));
    inputs.extend(Input::in_all_ways("the printed plan", &PRINTED));
    let longer = [&PRINTED[..], &[0]].concat();
    inputs.extend(Input::in_all_ways("the printed plan and a byte", &longer));
    for byte in [0, 8, 0xff] {
        inputs.extend((9..=12).map(|length| whole("a repeated byte", &vec![byte; length])));
    }
    inputs
}

/// How many inputs of each answer there are.
#[derive(Default)]
struct Kept(BTreeMap<String, usize>);

impl Kept {
    /// Counts one more of this answer, and tells how many there were; none if these are as many as wanted.
    fn one_more(&mut self, answer: &Answer, wanted: usize) -> Option<usize> {
        let kept = self.0.entry(name(answer)).or_default();
        let before = *kept;
        *kept = wanted.min(before + 1);
        (before < wanted).then_some(before)
    }
}

/// Generated plans, some of each answer; some are written in pieces.
fn generated(seed: u64, random: &mut Random) -> Vec<Input> {
    let mut inputs = Vec::new();
    let mut kept = Kept::default();
    for number in 0..LOOKED_THROUGH {
        let plan = case::make(seed, number).plan;
        let answer = answer(&plan);
        let wanted = match answer {
            Answer::Refused(_) => REFUSED,
            _ => JUDGED,
        };
        if let Some(before) = kept.one_more(&answer, wanted) {
            let mut ways = Writing::in_pieces(plan.len());
            if before % IN_PIECES > 0 || ways.is_empty() {
                ways = vec![Writing::Whole];
            }
            let name = format!("plan {number}");
            inputs.push(Input::new(&name, &plan, random.pick(&ways)));
        }
    }
    inputs
}

/// A large plan in all ways, with a byte more in all ways, and cut.
fn around(plan: &[u8]) -> Vec<Input> {
    let longer = [plan, &[0]].concat();
    let mut inputs = Input::in_all_ways("a large plan", plan);
    inputs.extend(Input::in_all_ways("a large plan and a byte", &longer));
    let lengths = [512, 1_024, plan.len() - 1];
    let cut = |length| Input::new("a large plan, cut", &plan[..length], Writing::Whole);
    inputs.extend(lengths.map(cut));
    inputs
}

/// The plan with zeros and with noise after it up to each of the long lengths, in some way in pieces too; and with standard
/// input that stays open, where the program has all that it reads.
fn long(plan: &[u8], random: &mut Random) -> Vec<Input> {
    let mut inputs = Vec::new();
    for length in LONG {
        let more = length - plan.len();
        for after in [vec![0; more], random.bytes(more)] {
            let bytes = [plan, &after].concat();
            let way = random.pick(&Writing::in_pieces(length));
            let mut ways = vec![Writing::Whole, way];
            if length >= READ {
                ways.push(Writing::Open);
            }
            let named = |way| Input::new("a plan with many bytes after it", &bytes, way);
            inputs.extend(ways.into_iter().map(named));
        }
    }
    inputs
}

/// Texts for the printed plan, whose alphabet is {a}.
const TEXTS: [&str; 24] = [
    "", "a", "0", "[]", "[^]", "[^a]", "a;a", "a|0", "((a))*", "a**", "b", "[^b]", "[ab]", "A",
    " ", "a ", "-", "--help", "a;", "()", "(a", "[a", "[a^]", "\u{e9}",
];

/// The printed plan, and one that is refused, with short texts and with long ones.
fn printed_with_texts() -> Vec<Input> {
    let typed = |text: &[u8]| Input::typed("the printed plan", &PRINTED, text);
    let mut inputs: Vec<Input> = TEXTS.iter().map(|text| typed(text.as_bytes())).collect();
    // Two stars of letters in a row beside each other: 72 states and one more.
    let row = |letters: usize| format!("({})*", vec!["a"; letters].join(";"));
    inputs.push(typed(format!("{}|{}", row(8), row(9)).as_bytes()));
    for length in LONG_TEXTS {
        for text in long_texts(length) {
            inputs.push(typed(&text));
            let cut = &PRINTED[..PRINTED.len() - 1];
            inputs.push(Input::typed("the printed plan, cut", cut, &text));
        }
    }
    inputs
}

/// Texts of this length. Cut to an odd one, the first is still in the grammar, with too many items; cut to the longest that is read,
/// the second is, with few; the third is not.
fn long_texts(length: usize) -> [Vec<u8>; 3] {
    let letters = b"a;".repeat(length);
    let set = [b"[", &b"a".repeat(MOST_BYTES - 2)[..], b"]"].concat();
    let brackets = (length - 1) / 2;
    let middle = &b"a*"[..2 - length % 2];
    [
        letters[..length].to_vec(),
        [set, b"*".repeat(length - MOST_BYTES)].concat(),
        [b"(".repeat(brackets), b")".repeat(brackets)].join(middle),
    ]
}

/// Generated plans with their texts, some of each answer. No argument can hold a zero.
fn generated_with_texts(seed: u64) -> Vec<Input> {
    let mut inputs = Vec::new();
    let mut kept = Kept::default();
    for number in 0..LOOKED_THROUGH {
        let case = case::make(seed, number);
        let text = &case.text.bytes;
        let answer = answer_by(Some(text), &case.plan);
        if !text.contains(&0) && kept.one_more(&answer, TYPED).is_some() {
            inputs.push(Input::typed(&format!("plan {number}"), &case.plan, text));
        }
    }
    inputs
}

/// Texts for the plans without jobs and with known verdicts, whose alphabet is empty or {a}.
const TEXTS_WITHOUT_JOBS: [&str; 5] = ["0", "a", "a*", "[^]", "[]|0"];
/// Texts for the plans with a server and with known answers, whose alphabet is {a,b}.
const TEXTS_WITH_SERVER: [&str; 5] = ["a", "a;b", "a;(b|0)", "b", "[^]*"];

/// The plans of one sort with known answers, in all ways and with short texts.
fn known(sort: &str, drafts: &[Draft], texts: &[&str]) -> Vec<Input> {
    let name = &format!("a known plan {sort}");
    let mut inputs = Vec::new();
    for plan in drafts.iter().map(Draft::encode) {
        inputs.extend(Input::in_all_ways(name, &plan));
        let typed = |text: &&str| Input::typed(name, &plan, text.as_bytes());
        inputs.extend(texts.iter().map(typed));
    }
    inputs
}

/// Generated plans of one sort, with a fault or without, some of each answer under their own patterns and some under their texts.
fn generated_of_sort(
    sort: &str,
    drawn: fn(&mut Random) -> Draft,
    random: &mut Random,
) -> Vec<Input> {
    let mut inputs = Vec::new();
    let (mut kept, mut typed) = (Kept::default(), Kept::default());
    let faults = refusals::own().into_iter().cycle();
    for (number, fault) in faults.take(OF_SORT_DRAWN).enumerate() {
        let case = case::faulty(drawn(random), &[fault], random);
        let (plan, text) = (&case.plan, &case.text.bytes);
        let name = format!("plan {number} {sort}");
        if kept.one_more(&answer(plan), OF_SORT).is_some() {
            inputs.push(Input::new(&name, plan, Writing::Whole));
        }
        let answer = answer_by(Some(text), plan);
        if !text.contains(&0) && typed.one_more(&answer, OF_SORT).is_some() {
            inputs.push(Input::typed(&name, plan, text));
        }
    }
    inputs
}

#[cfg(test)]
mod tests {
    use super::*;

    #[test]
    fn long_texts_have_their_lengths_and_are_cut_as_told() {
        let refusal = |text: &[u8]| reference::read_text(text, 1 << 1).err();
        for length in LONG_TEXTS {
            let texts = long_texts(length);
            assert!(texts.iter().all(|text| text.len() == length));
            let cut = texts.map(|text| refusal(&text[..MOST_BYTES]));
            let third = (length > MOST_BYTES).then_some(18);
            assert_eq!(cut, [Some(19), None, third]);
        }
    }
}

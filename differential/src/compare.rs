//! Both implementations on one case: their outcomes compared, and each held against
//! laws that need no other implementation.

use crate::case::Case;
use crate::draft::{as_read, Item};
use crate::hex::hex;
use crate::layout::{alphabet, NODES};
use crate::read_back::{self, ReadBack};
use crate::refusals::{is_of_plan, SHORT_ROW};
use crate::{recess_law, standing_law};
use std::fmt::Write;
use std::ops::Range;
use std::panic::catch_unwind;
use traceflow::{Answer, Counts, Values};

/// What one implementation makes of a plan, by its own pattern or by a text.
#[derive(Clone, PartialEq, Eq)]
struct Outcome {
    answer: Answer,
    row: Vec<u64>,
    values: Values,
}

/// All that one implementation makes of a case.
#[derive(Clone)]
struct Outcomes {
    own: Outcome,
    typed: Outcome,
    pattern_part: Range<usize>,
    read_back: ReadBack,
}

/// The answers that both give, by the plan's own pattern and by the text, the pattern part, and what is read back.
#[derive(Debug)]
pub struct Answers {
    pub own: Answer,
    pub typed: Answer,
    pub pattern_part: Range<usize>,
    pub read_back: ReadBack,
}

/// The answers, or a report of the first difference or broken law.
pub fn compare(case: &Case) -> Result<Answers, String> {
    let outcomes = catch_unwind(|| (proved(case), independent(case)));
    let Ok((proved, independent)) = outcomes else {
        return Err(format!("one of the two panics\n{}", describe(case)));
    };
    let fault = difference(&proved, &independent)
        .or_else(|| broken_law(case, &proved).map(|law| format!("proved: {law}")))
        .or_else(|| broken_law(case, &independent).map(|law| format!("independent: {law}")))
        .or_else(|| misread(case));
    match fault {
        None => Ok(Answers {
            own: proved.own.answer,
            typed: proved.typed.answer,
            pattern_part: proved.pattern_part,
            read_back: proved.read_back,
        }),
        Some(fault) => Err(report(&fault, case, &proved, &independent)),
    }
}

fn proved(case: &Case) -> Outcomes {
    let judge = |text: Option<&[u8]>| {
        let (mut row, mut values) = (case.row.clone(), case.values);
        let refused = traceflow::judge_into(&case.plan, text, &mut row, &mut values);
        Outcome {
            answer: Answer::of(refused, &values),
            row,
            values,
        }
    };
    Outcomes {
        own: judge(None),
        typed: judge(Some(&case.text.bytes)),
        pattern_part: traceflow::pattern_part(&case.plan),
        read_back: read_back::proved(case),
    }
}

fn independent(case: &Case) -> Outcomes {
    let judge = |text: Option<&[u8]>| {
        let mut row = case.row.clone();
        let answer = independent_answer(&case.plan, text, &mut row);
        Outcome {
            answer,
            row,
            values: told(&answer).unwrap_or(case.values),
        }
    };
    Outcomes {
        own: judge(None),
        typed: judge(Some(&case.text.bytes)),
        pattern_part: reference::pattern_part(&case.plan),
        read_back: read_back::independent(case),
    }
}

/// The independent implementation's answer in the types of the proved one, by a text or by the plan's own pattern.
pub fn independent_answer(plan: &[u8], text: Option<&[u8]>, row: &mut [u64]) -> Answer {
    let counts = |counts: reference::Counts| Counts {
        states: counts.states,
        meetings: counts.meetings,
        ordering: counts.ordering,
        pairs: counts.pairs,
        fill: counts.fill,
        final_set: counts.final_set,
    };
    let answer = match text {
        None => reference::judge(plan, row),
        Some(text) => reference::judge_text(plan, text, row),
    };
    match answer {
        reference::Answer::Refused(refusal) => Answer::Refused(refusal),
        reference::Answer::Verified(found) => Answer::Verified(counts(found)),
        reference::Answer::Inconclusive(found) => Answer::Inconclusive(counts(found)),
    }
}

/// What a verdict writes to the places for it.
fn told(answer: &Answer) -> Option<Values> {
    let (verified, counts) = match answer {
        Answer::Refused(_) => return None,
        Answer::Verified(counts) => (1, counts),
        Answer::Inconclusive(counts) => (0, counts),
    };
    Some([
        verified,
        counts.states.into(),
        counts.meetings.into(),
        counts.ordering.into(),
        counts.pairs.into(),
        counts.fill.into(),
        counts.final_set,
    ])
}

fn difference(one: &Outcomes, other: &Outcomes) -> Option<String> {
    let differ = |one: &Outcome, other: &Outcome| {
        if one.answer != other.answer {
            Some("the answers differ")
        } else if one.row != other.row {
            Some("the rows differ")
        } else if one.values != other.values {
            Some("the values of the verdicts differ")
        } else {
            None
        }
    };
    if let Some(what) = differ(&one.own, &other.own) {
        return Some(what.to_string());
    }
    if let Some(what) = differ(&one.typed, &other.typed) {
        return Some(format!("by the text {what}"));
    }
    if one.pattern_part != other.pattern_part {
        return Some("the pattern parts differ".to_string());
    }
    read_back::difference(&one.read_back, &other.read_back)
}

fn broken_law(case: &Case, outcomes: &Outcomes) -> Option<String> {
    let Outcomes { own, typed, .. } = outcomes;
    let not_refused = |refusal: &u32| own.answer != Answer::Refused(*refusal);
    if let Some(refusal) = case.expected.filter(not_refused) {
        return Some(format!(
            "the fault made on purpose is one of refusal {refusal}"
        ));
    }
    let by_text = |law: String| format!("by the text {law}");
    broken_by(case, &case.items, own)
        .or_else(|| broken_part(case, outcomes))
        .or_else(|| read_back::broken(case, &own.answer, &outcomes.read_back))
        .or_else(|| broken_by_text(case, own, typed))
        .or_else(|| broken_by(case, case.text.items(), typed).map(by_text))
}

/// What is wrong with one outcome, under items that are none where they are not known.
fn broken_by(case: &Case, items: &[Item], outcome: &Outcome) -> Option<String> {
    let Outcome { answer, row, .. } = outcome;
    broken_lending(case, outcome)
        .or_else(|| recess_law::broken(&case.plan, items, answer))
        .or_else(|| standing_law::broken(&case.records, row, answer))
}

/// A refusal leaves all that is lent. A verdict counts the pairs of its row and leaves the later places.
fn broken_lending(case: &Case, outcome: &Outcome) -> Option<String> {
    let (word, kept) = match outcome.answer {
        Answer::Refused(_) => ("refusal", 0),
        Answer::Verified(counts) | Answer::Inconclusive(counts) => {
            let nodes = NODES.read(&case.plan);
            let sets = outcome.row.iter().take(nodes as usize);
            let members: u32 = sets.map(|set| set.count_ones()).sum();
            if counts.pairs != members || members > nodes * counts.states {
                return Some(format!("the row has {members} pairs"));
            }
            ("verdict", nodes as usize)
        }
    };
    if let Some(place) = first_change(&case.row, &outcome.row, kept) {
        return Some(format!("a {word} changes place {place} of the row"));
    }
    let right = outcome.values == told(&outcome.answer).unwrap_or(case.values);
    (!right).then(|| format!("a {word} writes the values {:?}", outcome.values))
}

/// The pattern part reaches to the plan's end if there is one, and is 0..0 if not. A refusal of the plan under its own pattern gives
/// none unless it is about the row.
fn broken_part(case: &Case, outcomes: &Outcomes) -> Option<String> {
    let present = !matches!(outcomes.own.answer, Answer::Refused(refusal) if refusal != SHORT_ROW);
    let part = &outcomes.pattern_part;
    let right = if present {
        !part.is_empty() && part.end == case.plan.len()
    } else {
        *part == (0..0)
    };
    (!right).then(|| format!("the pattern part is {part:?}"))
}

/// The plan's refusals come before those of the text. A text that spells the plan's own items changes nothing.
fn broken_by_text(case: &Case, own: &Outcome, typed: &Outcome) -> Option<String> {
    if is_of_plan(&own.answer) || is_of_plan(&typed.answer) {
        let differ = own.answer != typed.answer;
        return differ.then(|| "the text changes a refusal of the plan".to_string());
    }
    if case.text.own && own != typed {
        return Some("the text spells the plan's own items and changes the outcome".to_string());
    }
    let refusal = case.text.expected()?;
    let differ = typed.answer != Answer::Refused(refusal);
    differ.then(|| format!("the text was made for refusal {refusal}"))
}

/// Whether the independent implementation reads the text otherwise than it was made.
fn misread(case: &Case) -> Option<String> {
    let made = match case.text.reading.as_ref()? {
        Ok(items) => Ok(as_read(items)),
        Err(refusal) => Err(*refusal),
    };
    let read = reference::read_text(&case.text.bytes, alphabet(&case.plan));
    (read != made).then(|| format!("independent: the text is read as {read:?}, not as {made:?}"))
}

/// The first place, from `start` on, where two rows differ.
pub fn first_change(one: &[u64], other: &[u64], start: usize) -> Option<usize> {
    (start..one.len()).find(|&place| one[place] != other[place])
}

fn report(fault: &str, case: &Case, proved: &Outcomes, independent: &Outcomes) -> String {
    let mut text = format!("{fault}\n{}\n", describe(case));
    for (name, outcomes) in [("proved", proved), ("independent", independent)] {
        let Outcomes { own, typed, .. } = outcomes;
        let part = &outcomes.pattern_part;
        let _ = writeln!(text, "{name}: {:?}, pattern part {part:?}", own.answer);
        let _ = writeln!(text, "{name}, by the text: {:?}", typed.answer);
        let refused = outcomes.read_back.refused;
        let _ = writeln!(text, "{name}, read back: refused {refused:?}");
    }
    let pairs = [
        ("", &proved.own, &independent.own),
        (", by the text", &proved.typed, &independent.typed),
    ];
    for (by, proved, independent) in pairs {
        if let Some(place) = first_change(&proved.row, &independent.row, 0) {
            let (one, other) = (proved.row[place], independent.row[place]);
            let _ = writeln!(text, "place {place}{by}: {one:016x} and {other:016x}");
        }
    }
    text
}

fn describe(case: &Case) -> String {
    format!(
        "bytes {}\ntext \"{}\"\nrow of {} places",
        hex(&case.plan),
        case.text.bytes.escape_ascii(),
        case.row.len()
    )
}

#[cfg(test)]
mod tests {
    use super::*;
    use crate::case;
    use crate::refusals::ORDER;
    use crate::standing_law::tests::with_final_set;

    /// Each way in which a judge may be a little wrong on this outcome.
    fn altered(case: &Case, outcome: &Outcome) -> Vec<Outcome> {
        let mut wrong = Vec::new();
        for place in 0..case.row.len() {
            let mut other = outcome.clone();
            other.row[place] ^= 1;
            wrong.push(other);
        }
        for place in 0..case.values.len() {
            let mut other = outcome.clone();
            other.values[place] ^= 1 << 32;
            wrong.push(other);
        }
        if let Answer::Verified(mut counts) | Answer::Inconclusive(mut counts) = outcome.answer {
            counts.pairs += 1;
            let mut other = outcome.clone();
            other.answer = Answer::Verified(counts);
            wrong.push(other);
        }
        wrong
    }

    /// The outcomes with one of them altered, or with another pattern part.
    fn all_altered(case: &Case, right: &Outcomes) -> Vec<Outcomes> {
        let mut wrong = vec![right.clone(); 1];
        wrong[0].pattern_part.end += 1;
        let with_own = |own| Outcomes {
            own,
            ..right.clone()
        };
        wrong.extend(altered(case, &right.own).into_iter().map(with_own));
        let with_typed = |typed| Outcomes {
            typed,
            ..right.clone()
        };
        wrong.extend(altered(case, &right.typed).into_iter().map(with_typed));
        wrong
    }

    #[test]
    fn an_altered_outcome_is_found_out() {
        for number in 0..300 {
            let case = case::make(1, number);
            let right = proved(&case);
            assert_eq!(broken_law(&case, &right), None);
            for wrong in all_altered(&case, &right) {
                assert!(difference(&right, &wrong).is_some(), "plan {number}");
                assert!(broken_law(&case, &wrong).is_some(), "plan {number}");
            }
        }
    }

    /// The outcomes with this verdict by the plan's own pattern or by the text, all else as it was.
    fn with_verdict(right: &Outcomes, by_text: bool, answer: Answer) -> Outcomes {
        let mut wrong = right.clone();
        let outcome = match by_text {
            false => &mut wrong.own,
            true => &mut wrong.typed,
        };
        outcome.answer = answer;
        outcome.values = told(&answer).unwrap_or(outcome.values);
        wrong
    }

    /// The other verdict; none for a refusal.
    fn reversed(answer: &Answer) -> Option<Answer> {
        match *answer {
            Answer::Refused(_) => None,
            Answer::Verified(counts) => Some(Answer::Inconclusive(counts)),
            Answer::Inconclusive(counts) => Some(Answer::Verified(counts)),
        }
    }

    /// Alters the answers to some cases, if the alteration applies to their items and outcome: each time a law is broken.
    fn all_found_out(altered: impl Fn(&Case, &[Item], &Outcome) -> Option<Answer>) {
        let mut tried = [0; 2];
        for case in (0..3_000).map(|number| case::make(1, number)) {
            let right = proved(&case);
            let own = altered(&case, &case.items, &right.own);
            let typed = altered(&case, case.text.items(), &right.typed);
            for (by_text, answer) in [(false, own), (true, typed)] {
                if let Some(answer) = answer {
                    let wrong = with_verdict(&right, by_text, answer);
                    assert!(broken_law(&case, &wrong).is_some(), "{}", describe(&case));
                    tried[usize::from(by_text)] += 1;
                }
            }
        }
        assert!(tried.iter().all(|&count| count > 20), "{tried:?}");
    }

    #[test]
    fn the_other_verdict_on_a_plan_without_jobs_is_found_out() {
        all_found_out(|case, items, outcome| {
            let applies = case.records.jobs.is_empty() && !items.is_empty();
            reversed(&outcome.answer).filter(|_| applies)
        });
    }

    #[test]
    fn a_final_set_that_takes_in_standing_exits_is_found_out() {
        all_found_out(|case, _, outcome| {
            let jobs = case.records.jobs.iter();
            let sets = jobs.map(|job| outcome.row.get(job.exit as usize).copied());
            let all = sets.reduce(|common, set| Some(common? & set?))??;
            let wrong = with_final_set(outcome.answer, all);
            (wrong != outcome.answer).then_some(wrong)
        });
    }

    /// What is said of a judge that gives this answer by a text.
    fn said(right: &Outcomes, case: &Case, refusal: u32) -> Option<String> {
        let mut wrong = right.clone();
        wrong.typed.answer = Answer::Refused(refusal);
        broken_law(case, &wrong)
    }

    #[test]
    fn another_refusal_by_a_text_is_found_out() {
        for number in 0..300 {
            let case = case::make(1, number);
            let right = proved(&case);
            let due = case.text.expected();
            for refusal in ORDER {
                let answer = Answer::Refused(refusal);
                let of_plan = is_of_plan(&right.own.answer) || is_of_plan(&answer);
                if answer != right.typed.answer && (of_plan || due.is_some()) {
                    assert!(said(&right, &case, refusal).is_some(), "plan {number}");
                }
            }
        }
    }
}

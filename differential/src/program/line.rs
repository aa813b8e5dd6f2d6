//! What the program has to print: the line of the independent implementation's answer, from the words of the rules.

use reference::{Answer, Counts};

/// The program reads so many bytes; a longer input is cut there.
pub const READ: usize = 4_096;

/// The places of the row that the program lends: enough for every plan.
const PLACES: usize = 256;

/// The answer to the plan that the program reads from this input.
pub fn answer(input: &[u8]) -> Answer {
    answer_by(None, input)
}

/// The answer under the text that the program is given as its argument, if it is given one.
pub fn answer_by(text: Option<&[u8]>, input: &[u8]) -> Answer {
    let plan = &input[..input.len().min(READ)];
    let row = &mut [0; PLACES];
    match text {
        None => reference::judge(plan, row),
        Some(text) => reference::judge_text(plan, text, row),
    }
}

/// The verdict, or the refusal with its number.
pub fn name(answer: &Answer) -> String {
    match answer {
        Answer::Refused(number) => format!("refused {number}"),
        Answer::Verified(_) => "verified".to_string(),
        Answer::Inconclusive(_) => "inconclusive".to_string(),
    }
}

/// The line that tells the answer, with its line feed.
pub fn line(answer: &Answer) -> String {
    let told = match answer {
        Answer::Refused(_) => String::new(),
        Answer::Verified(counts) | Answer::Inconclusive(counts) => fields(counts),
    };
    format!("{}{told}\n", name(answer))
}

/// Decimal counts named by the word before them, then the final set as 16 lower-case hexadecimal digits.
fn fields(counts: &Counts) -> String {
    let numbers = [
        ("states", counts.states),
        ("meetings", counts.meetings),
        ("ordering", counts.ordering),
        ("pairs", counts.pairs),
        ("fill", counts.fill),
    ];
    let named: String = numbers
        .iter()
        .map(|(word, number)| format!(" {word} {number}"))
        .collect();
    format!("{named} final {:016x}", counts.final_set)
}

#[cfg(test)]
mod tests {
    use super::*;
    use crate::draft::PRINTED;

    #[test]
    fn the_printed_line() {
        let printed =
            "verified states 3 meetings 0 ordering 0 pairs 2 fill 33 final 0000000000000002\n";
        assert_eq!(line(&answer(&PRINTED)), printed);
    }

    #[test]
    fn a_refusal_has_its_number_alone() {
        assert_eq!(line(&Answer::Refused(5)), "refused 5\n");
        assert_eq!(line(&answer(&[])), "refused 1\n");
    }

    #[test]
    fn a_final_set_of_all_states() {
        let counts = Counts {
            states: 64,
            meetings: 15_042,
            ordering: 0,
            pairs: 16_384,
            fill: 100,
            final_set: !0xf,
        };
        let due = "inconclusive states 64 meetings 15042 ordering 0 pairs 16384 fill 100 final fffffffffffffff0\n";
        assert_eq!(line(&Answer::Inconclusive(counts)), due);
    }
}

//! The built program on some hundreds of inputs: it ends with status 0, writes no errors, and prints the line of the
//! independent implementation's answer, byte by byte, in whatever pieces its input comes, with a text as its argument or without.

mod inputs;
mod largest;
mod line;
mod process;
mod tally;
mod writing;

use crate::hex::hex;
use inputs::Input;
use line::{answer_by, line, READ};
use process::{start, Said, LIMIT};
use std::path::Path;
use tally::Tally;

/// Starts the program on all inputs of this seed. The summary, or what is wrong and with which input.
pub fn check_all(program: &Path, seed: u64) -> Result<String, String> {
    check_with(seed, |input| {
        let Input { text, bytes, .. } = input;
        start(program, text.as_deref(), bytes, &input.writing, LIMIT)
    })
}

fn check_with(
    seed: u64,
    program: impl Fn(&Input) -> Result<Said, String>,
) -> Result<String, String> {
    let mut tally = Tally::default();
    for input in inputs::all(seed) {
        let answer = answer_by(input.text.as_deref(), &input.bytes);
        let expected = right(&line(&answer));
        let came = program(&input);
        if came.as_ref() != Ok(&expected) {
            return Err(report(seed, &input, &expected, &came));
        }
        tally.add(&input, &answer);
    }
    match tally.missing()[..] {
        [] => Ok(tally.summary()),
        ref missing => Err(format!("program: never met: {}", missing.join("; "))),
    }
}

/// What a program has to leave behind that prints this line.
fn right(line: &str) -> Said {
    Said {
        status: Some(0),
        output: line.as_bytes().to_vec(),
        errors: Vec::new(),
    }
}

fn report(seed: u64, input: &Input, expected: &Said, came: &Result<Said, String>) -> String {
    let told = |bytes: &[u8], told: fn(&[u8]) -> String| {
        let (first, rest) = bytes.split_at(bytes.len().min(READ));
        match rest.len() {
            0 => told(first),
            more => format!("{} and {more} more", told(first)),
        }
    };
    let text = match &input.text {
        None => String::new(),
        Some(text) => format!(
            "\ntext {}",
            told(text, |text| text.escape_ascii().to_string())
        ),
    };
    let came = match came {
        Ok(said) => said.to_string(),
        Err(fault) => fault.clone(),
    };
    format!(
        "program, seed {seed}: {}\nbytes {}{text}\nwritten {}\nexpected: {expected}\ncame: {came}",
        input.name,
        told(&input.bytes, hex),
        input.writing
    )
}

#[cfg(test)]
mod tests {
    use super::*;
    use crate::random::Random;
    use crate::text::MOST_BYTES;
    use largest::JUDGED;

    /// What a program leaves behind that takes these bytes for the text and for the plan.
    fn judged(text: Option<&[u8]>, bytes: &[u8]) -> Said {
        right(&line(&answer_by(text, bytes)))
    }

    /// What is said of a program that takes a part of the input for the plan.
    fn found(part: impl Fn(&Input) -> Vec<u8>) -> String {
        let program = |input: &Input| Ok(judged(input.text.as_deref(), &part(input)));
        check_with(7, program).unwrap_err()
    }

    /// What is said of a program that makes another text, or none, of its argument.
    fn found_by_text(taken: impl Fn(&[u8]) -> Option<&[u8]>) -> String {
        let program = |input: &Input| {
            let text = input.text.as_deref().and_then(&taken);
            Ok(judged(text, &input.bytes))
        };
        check_with(7, program).unwrap_err()
    }

    #[test]
    fn a_right_program_passes() {
        for seed in 1..=5 {
            let summary = check_with(seed, |input| {
                Ok(judged(input.text.as_deref(), &input.bytes))
            });
            assert!(summary.is_ok(), "{summary:?}");
        }
    }

    #[test]
    fn a_cut_is_found_out() {
        let all_sets = largest::all_sets(&mut Random::new(7)).len();
        for length in [0, 10, 21, 512, 1_024, JUDGED - 1, JUDGED, all_sets - 1] {
            let cut = |input: &Input| input.bytes[..length.min(input.bytes.len())].to_vec();
            let report = found(cut);
            assert!(
                report.contains("came: status 0"),
                "cut at {length}: {report}"
            );
        }
    }

    #[test]
    fn a_lost_first_byte_is_found_out() {
        let report = found(|input| input.bytes.iter().skip(1).copied().collect());
        assert!(report.contains("came: status 0"), "{report}");
    }

    #[test]
    fn a_program_that_reads_one_piece_is_found_out() {
        let report = found(|input| input.writing.pieces(&input.bytes)[0].to_vec());
        assert!(report.contains("written in pieces"), "{report}");
    }

    #[test]
    fn another_text_is_found_out() {
        let none = found_by_text(|_| None);
        assert!(none.contains("\ntext "), "{none}");
        let empty = found_by_text(|text| Some(text).filter(|text| !text.is_empty()));
        assert!(empty.contains("\ntext \n"), "{empty}");
        for length in [1, 64, MOST_BYTES] {
            let cut = found_by_text(|text| Some(&text[..length.min(text.len())]));
            assert!(cut.contains("\ntext "), "cut at {length}: {cut}");
        }
    }

    #[test]
    fn another_end_is_found_out() {
        let changes: [fn(&mut Said); 5] = [
            |said| said.status = Some(1),
            |said| said.status = None,
            |said| said.errors.push(b'\n'),
            |said| said.output.push(b'\n'),
            |said| said.output.truncate(said.output.len() - 1),
        ];
        for change in changes {
            let program = |input: &Input| {
                let mut said = judged(input.text.as_deref(), &input.bytes);
                change(&mut said);
                Ok(said)
            };
            assert!(check_with(7, program).is_err());
        }
    }

    #[test]
    fn a_report_tells_the_whole_case() {
        let program = |_: &Input| Err("the program does not end".to_string());
        let due = "program, seed 7: no byte\nbytes \nwritten at once\n\
                   expected: status 0, output \"refused 1\\n\", errors \"\"\n\
                   came: the program does not end";
        assert_eq!(check_with(7, program).unwrap_err(), due);
    }
}

//! The ways in which an input is written to the program's standard input.

use crate::program::line::READ;
use std::fmt;

#[derive(Clone, Debug)]
pub enum Writing {
    /// At once; then standard input is closed.
    Whole,
    /// In pieces of so many bytes, with a pause after the first one and now and then.
    Pieces(usize),
    /// In pieces that end at these bytes, with a pause after each.
    SplitAt(Vec<usize>),
    /// At once; standard input stays open until the program has ended.
    Open,
}

/// Small pieces have a pause after the first one and after each that many.
const PAUSED: usize = 500;

impl Writing {
    /// The ways to write so many bytes in pieces.
    pub fn in_pieces(length: usize) -> Vec<Writing> {
        let places = [512, 1_024, READ];
        let within: Vec<usize> = places.into_iter().filter(|&at| at < length).collect();
        let mut ways = Vec::new();
        if length > 1 {
            ways.extend([Writing::Pieces(1), Writing::SplitAt(vec![length - 1])]);
        }
        if length > 7 {
            ways.push(Writing::Pieces(7));
        }
        ways.extend(within.iter().map(|&at| Writing::SplitAt(vec![at])));
        if within.len() > 1 {
            ways.push(Writing::SplitAt(within));
        }
        ways
    }

    /// The pieces of the input, each written by its own call.
    pub fn pieces<'a>(&self, input: &'a [u8]) -> Vec<&'a [u8]> {
        match self {
            Writing::Whole | Writing::Open => vec![input],
            Writing::Pieces(size) => input.chunks(*size).collect(),
            Writing::SplitAt(places) => {
                let ends = places.iter().copied().chain([input.len()]);
                let starts = [0].into_iter().chain(places.iter().copied());
                starts
                    .zip(ends)
                    .map(|(from, to)| &input[from..to])
                    .collect()
            }
        }
    }

    /// Whether a pause follows the piece of this number, which is not the last one.
    pub fn pauses_after(&self, piece: usize) -> bool {
        match self {
            Writing::Pieces(_) => piece % PAUSED == 0,
            _ => true,
        }
    }
}

impl fmt::Display for Writing {
    fn fmt(&self, out: &mut fmt::Formatter) -> fmt::Result {
        match self {
            Writing::Whole => write!(out, "at once"),
            Writing::Pieces(size) => write!(out, "in pieces of {size}"),
            Writing::SplitAt(places) => write!(out, "in pieces that end at bytes {places:?}"),
            Writing::Open => write!(out, "at once, and standard input stays open"),
        }
    }
}

#[cfg(test)]
mod tests {
    use super::*;

    #[test]
    fn the_pieces_are_the_input() {
        for length in [0, 1, 2, 8, 512, 513, 1_025, 4_096, 4_097, 5_000] {
            let input: Vec<u8> = (0..length).map(|byte| byte as u8).collect();
            for way in Writing::in_pieces(length) {
                let pieces = way.pieces(&input);
                assert!(pieces.len() > 1, "{length} bytes {way}");
                assert!(pieces.iter().all(|piece| !piece.is_empty()));
                assert_eq!(pieces.concat(), input, "{length} bytes {way}");
            }
            assert_eq!(Writing::Whole.pieces(&input), [&input[..]]);
        }
    }

    #[test]
    fn the_ways_of_a_long_input() {
        let ways = Writing::in_pieces(5_000);
        let told: Vec<String> = ways.iter().map(Writing::to_string).collect();
        let due = [
            "in pieces of 1",
            "in pieces that end at bytes [4999]",
            "in pieces of 7",
            "in pieces that end at bytes [512]",
            "in pieces that end at bytes [1024]",
            "in pieces that end at bytes [4096]",
            "in pieces that end at bytes [512, 1024, 4096]",
        ];
        assert_eq!(told, due);
    }
}

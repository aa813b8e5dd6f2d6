//! The numbers of the refusals.

use traceflow::Answer;

/// All of them, in the order in which they are asked; 10 to 13 are asked together, item by item.
pub const ORDER: [u32; 21] = [
    1, 2, 3, 4, 5, 6, 21, 7, 8, 9, 10, 11, 12, 13, 14, 15, 18, 19, 20, 16, 17,
];
/// The refusals about a text's bytes.
pub const OF_TEXT: [u32; 3] = [18, 19, 20];
/// The refusal about the automaton, be it that of a text.
pub const MANY_STATES: u32 = 16;
/// The refusal about the row.
pub const SHORT_ROW: u32 = 17;
/// The refusal of jobs that all stand.
pub const ALL_STAND: u32 = 21;

/// The refusals of a plan under its own pattern.
pub fn own() -> Vec<u32> {
    let mut own = ORDER.to_vec();
    own.retain(|refusal| !OF_TEXT.contains(refusal));
    own
}

/// Whether the plan is refused by its bytes, whatever the text: by a number before those of a text.
pub fn is_of_plan(answer: &Answer) -> bool {
    matches!(answer, Answer::Refused(refusal) if comes_after(OF_TEXT[0], *refusal))
}

/// Whether one refusal is asked after the other.
pub fn comes_after(one: u32, other: u32) -> bool {
    let place = |refusal| ORDER.iter().position(|&asked| asked == refusal);
    place(one) > place(other)
}

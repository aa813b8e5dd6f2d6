//! The differential test of the two implementations of the verifier.

pub mod builder;
pub mod case;
pub mod compare;
pub mod coverage;
pub mod draft;
mod fault_in_bytes;
mod fault_in_items;
mod fault_in_jobs;
mod filled;
mod hex;
mod layout;
mod pattern;
pub mod program;
pub mod random;
mod read_back;
mod recess;
mod recess_law;
mod refusals;
pub mod runs;
mod sound;
mod spelling;
mod standing;
mod standing_coverage;
mod standing_law;
mod text;

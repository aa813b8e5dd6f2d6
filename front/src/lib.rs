//! Plans in words, and answers in names: what the program `tuft` is made of.
#![forbid(unsafe_code)]

pub mod arguments;
pub mod commands;
pub mod diagnostic;
pub mod draw;
mod expand;
pub mod files;
pub mod format;
pub mod help;
pub mod json;
pub mod judged;
mod lex;
pub mod model;
pub mod names;
pub mod opened;
pub mod pack;
mod parse;
pub mod pattern;
pub mod read;
pub mod refusals;
pub mod report;
mod resolve;
pub mod sets;
mod source;
pub mod states;
mod syntax;
pub mod tell;
pub mod unpack;
mod warn;

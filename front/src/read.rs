//! From the bytes of a file to the plan that it gives, with all that is to be told of it.
use crate::diagnostic::{Diagnostic, Severity};
use crate::lex::lex;
use crate::model::{Model, Place};
use crate::parse::parse;
use crate::resolve::resolve;
use crate::source::{decode, Source};
use crate::warn::warnings;
use std::collections::BTreeSet;

/// A file that was read. There is a model exactly where no diagnostic is an error.
#[derive(Debug)]
pub struct Read {
    /// The text, with plain line feeds and without a byte-order mark: what the places of the diagnostics are in.
    pub source: String,
    pub model: Option<Model>,
    /// Sorted by their places.
    pub diagnostics: Vec<Diagnostic>,
}

pub fn read(bytes: &[u8]) -> Read {
    let Source {
        text,
        mended,
        errors,
        readable,
    } = decode(bytes);
    let mut diagnostics = mended;
    diagnostics.extend(errors);
    let mut model = None;
    if readable {
        let (found, told) = read_text(&text);
        model = found.filter(|_| diagnostics.is_empty());
        diagnostics.extend(told);
    }
    Read::new(text, model, diagnostics)
}

impl Read {
    pub(crate) fn new(source: String, model: Option<Model>, mut told: Vec<Diagnostic>) -> Read {
        told.sort_by_key(|d| d.place);
        cut(&mut told);
        Read {
            source,
            model,
            diagnostics: told,
        }
    }
}

/// How many errors and warnings are told of a file at most.
const MOST_TOLD: usize = 1000;

/// Cuts a long list, and tells how many more there are.
fn cut(told: &mut Vec<Diagnostic>) {
    if told.len() <= MOST_TOLD {
        return;
    }
    let more = told.split_off(MOST_TOLD);
    let severity = match more.iter().any(|d| d.is_error()) {
        true => Severity::Error,
        false => Severity::Warning,
    };
    told.push(Diagnostic {
        severity,
        place: more[0].place,
        message: format!("{} more follow", more.len()),
    });
}

/// The plan of a text and its warnings, or its errors.
fn read_text(text: &str) -> (Option<Model>, Vec<Diagnostic>) {
    let lexed = lex(text);
    let parsed = parse(&lexed.words);
    let resolved = resolve(&parsed);
    let mut errors = one_a_place(lexed.diagnostics.iter().chain(&parsed.diagnostics));
    add_new(&mut errors, resolved.errors.clone());
    if !errors.is_empty() {
        return (None, errors);
    }
    (Some(resolved.model()), warnings(&resolved))
}

/// The first error of each place: what follows it there is of the same mistake.
pub(crate) fn one_a_place<'a>(errors: impl Iterator<Item = &'a Diagnostic>) -> Vec<Diagnostic> {
    let mut places: BTreeSet<Place> = BTreeSet::new();
    errors
        .filter(|error| places.insert(error.place))
        .cloned()
        .collect()
}

/// Adds errors at places that have none of notation, each once.
fn add_new(errors: &mut Vec<Diagnostic>, more: Vec<Diagnostic>) {
    let told: BTreeSet<Place> = errors.iter().map(|error| error.place).collect();
    let mut seen: BTreeSet<(Place, String)> = BTreeSet::new();
    for error in more {
        if !told.contains(&error.place) && seen.insert((error.place, error.message.clone())) {
            errors.push(error);
        }
    }
}

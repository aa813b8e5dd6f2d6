//! The plan of two jobs under patterns typed as text, up to the longest.

use super::tiny::two_jobs;
use super::{member, Family, Member};

pub fn family() -> Family {
    let mut members = vec![member("own pattern", &two_jobs())];
    members.extend(texts().map(|(size, text)| Member {
        text: Some(text.into_bytes()),
        ..member(size, &two_jobs())
    }));
    Family {
        name: "typed",
        grows: None,
        members,
    }
}

/// The texts, each of 255 bytes but for the first.
fn texts() -> [(&'static str, String); 6] {
    let brackets = format!("{}a{}", "(".repeat(127), ")".repeat(127));
    let items = format!("{}[abca]*", "[abcab];".repeat(31));
    let strange = format!("{}[abcz]*", "[abcab];".repeat(31));
    let letters = format!("{}a", "a;".repeat(127));
    let broken = format!("{};", "(".repeat(254));
    [
        ("`a;b;c`", "a;b;c".to_string()),
        ("255 bytes, 254 brackets", brackets),
        ("255 bytes, 64 items", items),
        ("255 bytes, refused 18", broken),
        ("255 bytes, refused 19", letters),
        ("255 bytes, refused 20", strange),
    ]
}

#[cfg(test)]
mod tests {
    use super::*;

    #[test]
    fn the_plan_is_the_one_of_the_documents() {
        let plan = include_bytes!("../../../plans/two-jobs.plan");
        assert_eq!(two_jobs().encode(), plan);
    }

    #[test]
    fn texts_are_as_named() {
        let read = |text: &str| reference::read_text(text.as_bytes(), 0b1110);
        let found = texts().map(|(_, text)| (text.len(), read(&text).map(|items| items.len())));
        let due = [Ok(5), Ok(1), Ok(64), Err(18), Err(19), Err(20)];
        assert_eq!(found[0], (5, due[0]));
        assert_eq!(found[1..], due.map(|reading| (255, reading))[1..]);
    }
}

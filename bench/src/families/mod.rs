//! The families of plans, each with its members by growing size.

mod handed;
mod jobs;
mod largest;
mod standing;
mod tiny;
mod typed;

use crate::patterns;
use differential::draft::Draft;

/// Plans of one shape.
pub struct Family {
    pub name: &'static str,
    /// What the size of a member says; nothing where the members are of different kinds.
    pub grows: Option<&'static str>,
    pub members: Vec<Member>,
}

pub struct Member {
    pub size: String,
    pub plan: Vec<u8>,
    /// The text by which it is judged; none for its own pattern.
    pub text: Option<Vec<u8>>,
}

pub fn all() -> Vec<Family> {
    let mut families = vec![
        tiny::family(),
        typed::family(),
        sized("chain", "nodes", &[8, 32, 64, 128, 256], jobs::chain),
        sized("ring", "jobs", &[2, 4, 8, 16], jobs::ring),
        sized("star", "callers", &[1, 3, 7, 15], jobs::star_of),
        sized("all-to-all", "jobs", &[2, 4, 8, 16], jobs::all_to_all),
        counter(),
        sized("slow", "chain", &[15, 30, 60, 120, 226], largest::slow),
        largest::family(),
    ];
    families.extend(handed::families());
    families.extend(standing::families());
    families
}

/// One pattern after the other, of more and more states, over the same looping jobs.
fn counter() -> Family {
    let mut patterns: Vec<_> = (0..5).map(patterns::looking_back).collect();
    patterns.push(patterns::cycles(2, 5, 12));
    let states = ["3", "5", "9", "17", "33", "64"];
    let sizes = states.iter().zip(patterns);
    Family {
        name: "counter",
        grows: Some("states"),
        members: sizes
            .map(|(size, pattern)| member(size, &jobs::looping(pattern)))
            .collect(),
    }
}

fn sized(
    name: &'static str,
    grows: &'static str,
    sizes: &[u32],
    draft: fn(u32) -> Draft,
) -> Family {
    let members = sizes.iter();
    Family {
        name,
        grows: Some(grows),
        members: members
            .map(|&size| member(&size.to_string(), &draft(size)))
            .collect(),
    }
}

fn member(size: &str, draft: &Draft) -> Member {
    Member {
        size: size.to_string(),
        plan: draft.encode(),
        text: None,
    }
}

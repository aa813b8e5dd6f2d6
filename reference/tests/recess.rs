//! Plans without jobs (order 4).

mod draft;

use draft::{
    assert_refused, counts, events, judged, set, turned, typed, with_an_arc, Draft, EVERY, NONE,
};
use reference::{judge, judge_text, pattern_part, Answer, Counts, Item};

/// No jobs, alphabet empty, pattern the empty string, kind every. Eleven bytes
/// of sections and one of pattern.
const SMALLEST: [u8; 12] = [0, 0, 0, 0, 0, 0, 0x04, 0, 0, 0, 0, 0];

/// No jobs, alphabet and pattern of P.
const OF_P: [u8; 16] = [
    0, 0, 0, 0, 0, 0, 0x06, 0, 0, 0, 0, 0x30, 0x00, 0x00, 0x00, 0x00,
];

/// The kind of a plan in its sixth byte: none.
const OF_KIND_NONE: u8 = 0x02;

/// The text of `Draft::many_states(5)`: 65 states.
const FIVE: &str = "[ab]*;a;[ab];[ab];[ab];[ab];[ab]";

fn smallest() -> Draft {
    Draft::no_jobs(&[], &[Item::Empty])
}

fn of_p() -> Draft {
    Draft::no_jobs(&[1], &[events(&[1])])
}

fn of_kind(kind: u64, draft: &Draft) -> Draft {
    Draft {
        kind,
        ..draft.clone()
    }
}

/// The counts of a plan without jobs whose automaton has so many states.
fn empty_run(states: u32) -> Counts {
    Counts {
        states,
        meetings: 0,
        ordering: 0,
        pairs: 0,
        fill: 0,
        final_set: set(&[0]),
    }
}

/// The answer where the empty string belongs to the language or not.
fn expected(belongs: bool, kind: u64, states: u32) -> Answer {
    if belongs == (kind == EVERY) {
        Answer::Verified(empty_run(states))
    } else {
        Answer::Inconclusive(empty_run(states))
    }
}

#[test]
fn the_smallest_plan() {
    assert_eq!(smallest().bytes(), SMALLEST);
    assert_eq!(judged(&SMALLEST), Answer::Verified(empty_run(1)));
    assert_eq!(pattern_part(&SMALLEST), 11..12);
    let none = turned(&SMALLEST, 5, OF_KIND_NONE);
    assert_eq!(of_kind(NONE, &smallest()).bytes(), none);
    assert_eq!(judged(&none), Answer::Inconclusive(empty_run(1)));
    assert_eq!(pattern_part(&none), 11..12);
}

#[test]
fn alphabet_and_pattern_of_p() {
    assert_eq!(of_p().bytes(), OF_P);
    assert_eq!(judged(&OF_P), Answer::Inconclusive(empty_run(3)));
    assert_eq!(pattern_part(&OF_P), 11..16);
    let none = turned(&OF_P, 5, OF_KIND_NONE);
    assert_eq!(of_kind(NONE, &of_p()).bytes(), none);
    assert_eq!(judged(&none), Answer::Verified(empty_run(3)));
}

/// The final set is {0} and not all states together, of which one accepts.
#[test]
fn only_state_0_is_final() {
    let draft = of_p();
    for kind in [EVERY, NONE] {
        let counts = counts(of_kind(kind, &draft).judge().0);
        assert_eq!((counts.states, counts.final_set), (3, 1));
    }
}

/// Patterns over the alphabet 1, 2: their number of states, and whether the
/// empty string belongs to the language.
#[test]
fn patterns() {
    use Item::{Choice, Empty, Sequence, Star};
    let [one, two, nothing] = [events(&[1]), events(&[2]), events(&[])];
    let patterns: [(&[Item], u32, bool); 16] = [
        (&[Empty], 2, true),
        (&[one], 3, false),
        (&[nothing], 2, false),
        (&[one, Star], 3, true),
        (&[one, Star, Star], 3, true),
        (&[nothing, Star], 2, true),
        (&[Empty, Star], 2, true),
        (&[one, Empty, Choice], 3, true),
        (&[one, two, Choice], 4, false),
        (&[one, two, Choice, Star], 3, true),
        (&[nothing, Empty, Choice], 2, true),
        (&[nothing, nothing, Choice], 2, false),
        (&[Empty, Empty, Sequence], 2, true),
        (&[one, Star, two, Star, Sequence], 4, true),
        (&[one, Star, two, Sequence], 4, false),
        (&[nothing, one, Star, Sequence], 2, false),
    ];
    for (items, states, belongs) in patterns {
        let draft = Draft::no_jobs(&[1, 2], items);
        for kind in [EVERY, NONE] {
            let answer = judged(&of_kind(kind, &draft).bytes());
            assert_eq!(answer, expected(belongs, kind, states), "{items:?}");
        }
    }
}

/// Whether the empty string belongs to the language, read from the items as
/// the rules build it. `None` where they leave no single operand.
fn empty_string_belongs(items: &[Item]) -> Option<bool> {
    let mut operands = vec![];
    for item in items {
        let operand = match item {
            Item::Empty => true,
            Item::Events(_) => false,
            Item::Sequence => operands.pop()? & operands.pop()?,
            Item::Choice => operands.pop()? | operands.pop()?,
            Item::Star => operands.pop().map(|_| true)?,
        };
        operands.push(operand);
    }
    match operands[..] {
        [whole] => Some(whole),
        _ => None,
    }
}

/// Every list of one to five of these items. A job that stands still on its
/// one node has the empty run alone, too, so it gets the same verdict.
#[test]
fn all_short_patterns() {
    let all = [
        Item::Empty,
        events(&[]),
        events(&[1]),
        Item::Sequence,
        Item::Choice,
        Item::Star,
    ];
    let mut lists = vec![vec![]];
    let mut answers = [0; 2];
    for _ in 1..=5 {
        let longer = |list: &Vec<Item>| all.map(|item| [&list[..], &[item]].concat());
        lists = lists.iter().flat_map(longer).collect();
        for items in &lists {
            let Some(belongs) = empty_string_belongs(items) else {
                let answer = Draft::no_jobs(&[1], items).judge().0;
                let refused = [13, 14].map(Answer::Refused);
                assert!(refused.contains(&answer), "{items:?}");
                continue;
            };
            answers[usize::from(belongs)] += 1;
            for kind in [EVERY, NONE] {
                let draft = of_kind(kind, &Draft::no_jobs(&[1], items));
                let still = Draft {
                    jobs: vec![[1, 0, 0]],
                    ..draft.clone()
                };
                let alike = counts(still.judge().0);
                assert_eq!(alike.final_set, 1);
                let (answer, row) = draft.judge();
                assert_eq!(answer, expected(belongs, kind, alike.states), "{items:?}");
                assert!(row.is_empty());
                let verified = |answer| matches!(answer, Answer::Verified(_));
                assert_eq!(verified(answer), verified(still.judge().0));
            }
        }
    }
    assert!(answers.iter().all(|&lists| lists > 100), "{answers:?}");
}

#[test]
fn channels_without_arcs() {
    // Event 1 is watched, 0 and 2 are not.
    for channels in 0..=64 {
        for kind in [EVERY, NONE] {
            let draft = Draft {
                channels: (0..channels).map(|channel| channel % 3).collect(),
                ..of_kind(kind, &of_p())
            };
            let bytes = draft.bytes();
            assert_eq!(judged(&bytes), expected(false, kind, 3));
            let sections = (85 + 5 * channels as usize).div_ceil(8);
            assert_eq!(pattern_part(&bytes), sections..sections + 5);
        }
    }
}

#[test]
fn many_states() {
    let four = Draft::many_states(4).items;
    let draft = Draft::no_jobs(&[1, 2], &four);
    for kind in [EVERY, NONE] {
        let answer = judged(&of_kind(kind, &draft).bytes());
        assert_eq!(answer, expected(false, kind, 33));
    }
    let mut starred = four;
    starred.push(Item::Star);
    let answer = judged(&Draft::no_jobs(&[1, 2], &starred).bytes());
    assert!(matches!(answer, Answer::Verified(_)));
    // 65 states.
    let five = Draft::no_jobs(&[1, 2], &Draft::many_states(5).items);
    assert_eq!(judged(&five.bytes()), Answer::Refused(16));
    assert_eq!(pattern_part(&five.bytes()), 0..0);
}

/// Jobs and nodes of the head, each 0 or not. Refusal 2 knows only the upper
/// ends; what does not fit together is 5.
#[test]
fn jobs_and_nodes_of_the_head() {
    for nodes in 0..512 {
        let plan = smallest().bytes_with_nodes(nodes);
        match nodes {
            0 => assert_eq!(judged(&plan), Answer::Verified(empty_run(1))),
            1..=256 => assert_refused(&plan, 5),
            _ => assert_refused(&plan, 2),
        }
    }
    for jobs in 1..32 {
        for size in [0, 1, 2, 256, 511] {
            let draft = Draft {
                jobs: vec![[size, 0, 0]; jobs],
                ..smallest()
            };
            let number = if jobs <= 16 { 5 } else { 2 };
            assert_refused(&draft.bytes_with_nodes(0), number);
        }
    }
    // A job of size 0 where the sizes do sum to the nodes.
    let draft = Draft {
        jobs: vec![[1, 0, 0], [0, 1, 1]],
        ..smallest()
    };
    assert_refused(&draft.bytes(), 5);
}

/// A job's size never matters where nodes is 0.
#[test]
fn one_job_of_any_size_without_nodes() {
    for size in 0..512 {
        let draft = Draft {
            jobs: vec![[size, 0, 0]],
            ..smallest()
        };
        assert_refused(&draft.bytes_with_nodes(0), 5);
    }
}

#[test]
fn the_other_counts_keep_their_ranges() {
    let arc = [0, 0, 0];
    let too_many = [
        Draft {
            steps: vec![arc; 257],
            ..smallest()
        },
        Draft {
            calls: vec![arc; 129],
            ..smallest()
        },
        Draft {
            accepts: vec![arc; 129],
            ..smallest()
        },
        Draft {
            channels: vec![0; 65],
            ..smallest()
        },
        Draft::no_jobs(&[], &[Item::Empty; 65]),
        Draft::no_jobs(&[], &[]),
    ];
    for draft in too_many {
        for nodes in [0, 1] {
            assert_refused(&draft.bytes_with_nodes(nodes), 2);
        }
    }
    // Sixty-four items are not too many.
    let mut items = [Item::Star; 64];
    items[0] = Item::Empty;
    let draft = Draft::no_jobs(&[], &items);
    assert_eq!(judged(&draft.bytes()), Answer::Verified(empty_run(1)));
}

#[test]
fn short_plans() {
    // 1 before 2 and 5: fewer than 11 bytes.
    for plan in [
        SMALLEST.to_vec(),
        smallest().bytes_with_nodes(1),
        smallest().bytes_with_nodes(257),
        OF_P.to_vec(),
    ] {
        for length in 0..11 {
            assert_refused(&plan[..length], 1);
        }
    }
    // The sections are there, the pattern is not or not whole.
    assert_refused(&SMALLEST[..11], 10);
    for length in 11..16 {
        assert_refused(&OF_P[..length], 10);
    }
    // 2 before 3: a job too many, and none of them there.
    let jobs = Draft {
        jobs: vec![[0, 0, 0]; 17],
        ..smallest()
    };
    assert_refused(&jobs.bytes_with_nodes(0)[..11], 2);
    // 3 before 5 and 7.
    let channels = Draft {
        channels: vec![0; 4],
        ..smallest()
    };
    let job = Draft {
        jobs: vec![[1, 0, 0]],
        ..smallest()
    };
    let [step, call, accept] = with_an_arc(&smallest(), [0, 0, 0]);
    for (draft, bits, nodes, number) in [
        (&channels, 105, 0, 10),
        (&channels, 105, 1, 5),
        (&job, 111, 0, 5),
        (&step, 111, 0, 7),
        (&step, 111, 1, 5),
        (&call, 112, 0, 7),
        (&call, 112, 1, 5),
        (&accept, 112, 0, 7),
        (&accept, 112, 1, 5),
    ] {
        let plan = draft.bytes_with_nodes(nodes);
        let sections = usize::div_ceil(bits, 8);
        assert_eq!(plan.len(), sections + 1);
        for length in 11..sections {
            assert_refused(&plan[..length], 3);
        }
        assert_refused(&plan[..sections], number);
    }
}

#[test]
fn filling_bits_before_the_pattern() {
    // The last three bits of the eleventh byte.
    for bits in 1..8 {
        assert_refused(&turned(&SMALLEST, 10, bits), 4);
        assert_refused(&turned(&OF_P, 10, bits), 4);
        // 4 before 5.
        assert_refused(&turned(&smallest().bytes_with_nodes(1), 10, bits), 4);
        // 4 before 10.
        assert_refused(&turned(&SMALLEST, 10, bits)[..11], 4);
        // 2 before 4.
        assert_refused(&turned(&smallest().bytes_with_nodes(257), 10, bits), 2);
    }
    // The bit before them is event 31 of the alphabet.
    let answer = judged(&turned(&SMALLEST, 10, 8));
    assert_eq!(answer, Answer::Verified(empty_run(2)));
    // Other numbers of filling bits, by the number of channels.
    for channels in 0..16 {
        let draft = Draft {
            channels: vec![0; channels],
            ..smallest()
        };
        let plan = draft.bytes();
        let bits = 85 + 5 * channels;
        for bit in bits..bits.next_multiple_of(8) {
            assert_refused(&turned(&plan, bit / 8, 0x80 >> (bit % 8)), 4);
        }
    }
    // A job without nodes: 4 before 5. One bit fills the sections.
    let job = Draft {
        jobs: vec![[1, 0, 0]],
        ..smallest()
    };
    assert_refused(&turned(&job.bytes_with_nodes(0), 13, 1), 4);
    // A step without jobs: 4 before 7. Six bits fill the sections.
    let step = Draft {
        steps: vec![[0, 0, 0]],
        ..smallest()
    };
    assert_refused(&step.bytes(), 7);
    for bits in 1..64 {
        assert_refused(&turned(&step.bytes(), 13, bits), 4);
    }
}

#[test]
fn no_ends_without_jobs() {
    for from in [0, 1, 128, 255] {
        for to in [0, 1, 128, 255] {
            // The third number is the event or the channel. Channel 1 and
            // those above do not exist: 7 before 9.
            for third in [0, 1, 31] {
                for draft in with_an_arc(&smallest(), [from, to, third]) {
                    assert_refused(&draft.bytes(), 7);
                    // 5 before 7.
                    assert_refused(&draft.bytes_with_nodes(1), 5);
                    assert_refused(&draft.bytes_with_nodes(256), 5);
                }
            }
        }
    }
    for mut draft in with_an_arc(&smallest(), [0, 0, 63]) {
        assert_refused(&draft.bytes(), 7);
        draft.channels.clear();
        assert_refused(&draft.bytes(), 7);
    }
    // As many as there may be.
    let many = Draft {
        steps: vec![[0, 1, 1]; 256],
        channels: vec![1; 64],
        calls: vec![[0, 1, 0]; 128],
        accepts: vec![[2, 3, 0]; 128],
        ..of_p()
    };
    assert_refused(&many.bytes(), 7);
    assert_refused(&many.bytes_with_nodes(4), 5);
}

#[test]
fn entries_and_exits_without_nodes() {
    // 5 before 6: no node is there for an entry or exit.
    for ends in [[0, 0], [0, 1], [255, 255]] {
        let draft = Draft {
            jobs: vec![[0, ends[0], ends[1]]],
            ..smallest()
        };
        assert_refused(&draft.bytes(), 5);
        assert_refused(&draft.bytes_with_nodes(1), 5);
    }
}

/// Refusals 10 to 15, each alone and after a fault of 4, 5 or 7.
#[test]
fn faulty_patterns() {
    let faulty = |items: &[Item]| Draft::no_jobs(&[1], items);
    let operator = faulty(&[Item::Choice]);
    let star = faulty(&[Item::Star]);
    let one_operand = faulty(&[Item::Empty, Item::Sequence]);
    let two_left = faulty(&[Item::Empty; 2]);
    let strange = faulty(&[events(&[2])]);
    let plain = faulty(&[Item::Empty]);
    // What is done to the bytes after the sections, and the refusal.
    type Fault = fn(&mut Vec<u8>, usize);
    let faults: [(&Draft, Fault, u32); 12] = [
        (&plain, |plan, pattern| plan.truncate(pattern), 10),
        (&plain, |plan, pattern| plan[pattern] = 0xA0, 11),
        (&plain, |plan, pattern| plan[pattern] = 0xC0, 11),
        (&plain, |plan, pattern| plan[pattern] = 0xE0, 11),
        (&strange, |_, _| (), 12),
        (&operator, |_, _| (), 13),
        (&star, |_, _| (), 13),
        (&one_operand, |_, _| (), 13),
        (&two_left, |_, _| (), 14),
        (&plain, |plan, pattern| plan[pattern] = 0x01, 15),
        (&plain, |plan, pattern| plan[pattern] = 0x10, 15),
        (&plain, |plan, _| plan.push(0), 15),
    ];
    for (draft, fault, number) in faults {
        let with_fault = |draft: &Draft, nodes: u64, sections: usize| {
            let mut plan = draft.bytes_with_nodes(nodes);
            fault(&mut plan, sections);
            plan
        };
        assert_refused(&with_fault(draft, 0, 11), number);
        // 4 before all of them.
        assert_refused(&turned(&with_fault(draft, 0, 11), 10, 1), 4);
        // 5 before all of them.
        assert_refused(&with_fault(draft, 3, 11), 5);
        let job = Draft {
            jobs: vec![[3, 0, 0]],
            ..draft.clone()
        };
        assert_refused(&with_fault(&job, 0, 14), 5);
        // 7 before all of them.
        for draft in with_an_arc(draft, [0, 1, 0]) {
            assert_refused(&with_fault(&draft, 0, 14), 7);
        }
        // Channels alone change nothing.
        let channels = Draft {
            channels: vec![0; 5],
            ..draft.clone()
        };
        assert_refused(&with_fault(&channels, 0, 14), number);
    }
    // 5 and 7 before 16 too.
    let five = Draft::no_jobs(&[1, 2], &Draft::many_states(5).items);
    assert_refused(&five.bytes_with_nodes(1), 5);
    for draft in with_an_arc(&five, [0, 1, 0]) {
        assert_refused(&draft.bytes(), 7);
    }
}

/// A plan with a job is still refused by 17.
#[test]
fn rows_of_no_places() {
    let job = Draft {
        jobs: vec![[1, 0, 0]],
        ..smallest()
    };
    assert_eq!(judge(&job.bytes(), &mut []), Answer::Refused(17));
    let judged = judge(&SMALLEST, &mut []);
    assert_eq!(judged, Answer::Verified(empty_run(1)));
    assert_eq!(judge_text(&job.bytes(), b"0", &mut []), Answer::Refused(17));
    let typed = judge_text(&SMALLEST, b"0", &mut []);
    assert_eq!(typed, Answer::Verified(empty_run(1)));
}

/// Texts over the alphabet a, b: their number of states, and whether the empty
/// string belongs to the language. The own pattern is no matter.
#[test]
fn typed_patterns() {
    let texts = [
        ("0", 2, true),
        ("0*", 2, true),
        ("a", 3, false),
        ("a*", 3, true),
        ("(a;b)*", 4, true),
        ("a|b", 4, false),
        ("a|0", 3, true),
        ("0;0", 2, true),
        ("a*;b*", 4, true),
        ("a*;b", 4, false),
        ("[]", 2, false),
        ("[]*", 2, true),
        ("[]|0", 2, true),
        ("[^]", 3, false),
        ("[^]*", 2, true),
        ("[^ab]", 2, false),
    ];
    for (text, states, belongs) in texts {
        for items in [&[Item::Empty], &[events(&[1])]] {
            for kind in [EVERY, NONE] {
                let draft = of_kind(kind, &Draft::no_jobs(&[1, 2], items));
                let answer = typed(&draft.bytes(), text);
                assert_eq!(answer, expected(belongs, kind, states), "{text}");
            }
        }
    }
}

#[test]
fn known_plans_typed() {
    for kind in [EVERY, NONE] {
        let draft = of_kind(kind, &smallest());
        assert_eq!(typed(&draft.bytes(), "0"), judged(&draft.bytes()));
        assert_eq!(typed(&draft.bytes(), "0"), expected(true, kind, 1));
        assert_eq!(typed(&draft.bytes(), "[^]"), expected(false, kind, 1));
        let draft = of_kind(kind, &of_p());
        assert_eq!(typed(&draft.bytes(), "a"), judged(&draft.bytes()));
        assert_eq!(typed(&draft.bytes(), "a"), expected(false, kind, 3));
        assert_eq!(typed(&draft.bytes(), "0"), expected(true, kind, 2));
        let channels = Draft {
            channels: vec![1, 0, 2],
            ..draft
        };
        assert_eq!(typed(&channels.bytes(), "a*"), expected(true, kind, 2));
    }
}

#[test]
fn typed_patterns_of_many_states() {
    let plan = Draft::no_jobs(&[1, 2], &[Item::Empty]).bytes();
    // Cycles of 7 and 9 side by side.
    let again = |times| format!("({})*", vec!["[ab]"; times].join(";"));
    let sixty_four = format!("{}|{}", again(7), again(9));
    assert_eq!(typed(&plan, &sixty_four), Answer::Verified(empty_run(64)));
    assert_eq!(typed(&plan, FIVE), Answer::Refused(16));
    // The own pattern may have more than 64 states.
    let own = Draft::no_jobs(&[1, 2], &Draft::many_states(5).items).bytes();
    assert_eq!(typed(&own, FIVE), Answer::Refused(16));
    assert_eq!(typed(&own, "0"), Answer::Verified(empty_run(2)));
}

#[test]
fn typed_patterns_refused() {
    let plan = Draft::no_jobs(&[1, 2], &[Item::Empty]).bytes();
    let stars = "*".repeat(64);
    for (text, number) in [
        ("", 18),
        ("a;", 18),
        ("A", 18),
        (&"a".repeat(256), 18),
        (&format!("a{stars}"), 19),
        ("c", 20),
        ("[^c]", 20),
        (FIVE, 16),
        // The first of 18, 19, 20 and 16.
        (&format!("c{stars};"), 18),
        (&format!("c{stars}"), 19),
        (&format!("{FIVE}{stars};"), 18),
        (&format!("{FIVE};c"), 20),
    ] {
        assert_eq!(typed(&plan, text), Answer::Refused(number), "{text}");
    }
    // With the empty alphabet each letter is strange.
    assert_eq!(typed(&SMALLEST, "a"), Answer::Refused(20));
    assert_eq!(typed(&SMALLEST, "[^z]"), Answer::Refused(20));
}

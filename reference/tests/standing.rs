//! Standing jobs (order 5): by hand, and against all runs of plans thrown at
//! random, their strings read by derivatives of the pattern.

mod dice;
mod draft;
mod naive;

use std::collections::HashSet;

use dice::Dice;
use draft::{assert_refused, counts, events, set, turned, with_an_arc, Draft, EVERY, NONE, P};
use naive::strings::{longer, positions, states, Read, Rest};
use naive::Naive;
use reference::{judge, judge_text, pattern_part, read_text, Answer, Counts, Item, Plan};

/// Two jobs of one node each, of which the second stands. Alphabet empty,
/// pattern the empty string.
const PAIR: [u8; 19] = [
    0x10, 0x08, 0, 0, 0, 0, 0x04, 0, 0, 0, 0, 0x04, 0x00, 0x00, 0x01, 0x01, 0x01, 0x80, 0x00,
];

/// Jobs of one node each, all standing, alphabet and pattern of P.
fn all_standing(jobs: usize) -> Draft {
    Draft {
        jobs: (0..jobs as u64).map(|node| [1, node, node]).collect(),
        standing: (0..jobs).collect(),
        ..Draft::new(&[1], &[events(&[1])])
    }
}

/// The two jobs from the source document, of which this one stands.
fn two_jobs(standing: usize) -> Draft {
    let mut draft = Draft::two_jobs();
    draft.jobs[standing][2] = draft.jobs[standing][1];
    draft.standing = vec![standing];
    draft
}

/// A client, nodes 0 and 1, calls once for event 2. A memory server, nodes 2
/// and 3, accepts and is back at its entry by event 3.
fn memory_server(items: &[Item]) -> Draft {
    Draft {
        jobs: vec![[2, 0, 1], [2, 2, 2]],
        standing: vec![1],
        channels: vec![2],
        calls: vec![[0, 1, 0]],
        accepts: vec![[2, 3, 0]],
        steps: vec![[3, 2, 3]],
        ..Draft::new(&[2, 3], items)
    }
}

fn is_verified(answer: Answer) -> bool {
    matches!(answer, Answer::Verified(_))
}

fn judge_typed(draft: &Draft, text: &str) -> (Answer, Vec<u64>) {
    draft.judge_by(|plan, row| judge_text(plan, text.as_bytes(), row))
}

/// The set at the exit fields of all jobs, as if none stood: an error.
fn at_all_exits(draft: &Draft, row: &[u64]) -> u64 {
    let exits = draft.jobs.iter().map(|job| row[job[2] as usize]);
    exits.fold(u64::MAX, |common, set| common & set)
}

#[test]
fn plan_p_in_bytes() {
    assert_eq!(P[15..17], [0x02, 0x10]);
    assert_eq!(pattern_part(&P), 17..22);
    let changed = |changes: &[(usize, u8)]| {
        let mut plan = P;
        changes.iter().for_each(|&(byte, value)| plan[byte] = value);
        plan
    };
    assert_refused(&P[..10], 1);
    assert_refused(&changed(&[(0, 0x88)]), 2);
    assert_refused(&P[..16], 3);
    assert_refused(&changed(&[(16, 0x11)]), 4);
    assert_refused(&changed(&[(11, 0x04)]), 5);
    // The job stands: its exit field differs, then it does not.
    assert_refused(&changed(&[(13, 0x06)]), 6);
    assert_refused(&changed(&[(13, 0x02)]), 21);
    // In the bytes of before the step leads from 0 to 2.
    assert_refused(&changed(&[(15, 0x04), (16, 0x20)]), 7);
    assert_refused(&changed(&[(14, 0x02), (15, 0x00)]), 8);
    assert_refused(&P[..21], 10);
    assert_refused(&changed(&[(21, 0x01)]), 15);
    assert_eq!(judge(&P, &mut [0]), Answer::Refused(17));
}

#[test]
fn the_last_bit_of_a_record() {
    let draft = Draft {
        jobs: vec![[1, 0, 0], [1, 1, 1]],
        standing: vec![1],
        ..Draft::new(&[], &[Item::Empty])
    };
    assert_eq!(draft.bytes(), PAIR);
    assert_eq!(pattern_part(&PAIR), 18..19);
    let standing = |plan: &[u8]| {
        let plan = Plan::read(plan);
        plan.map(|plan| plan.jobs.iter().map(|job| job.standing).collect())
    };
    let with = |first, second| standing(&turned(&turned(&PAIR, 13, first), 17, second));
    assert_eq!(with(0, 0), Ok(vec![false, true]));
    assert_eq!(with(0, 0x80), Ok(vec![false, false]));
    assert_eq!(with(0x02, 0x80), Ok(vec![true, false]));
    assert_eq!(with(0x02, 0), Err(21));
}

/// Each job takes 26 bits.
#[test]
fn plans_cut_and_filled() {
    for jobs in 1..=16 {
        for others in [vec![], (1..jobs).collect()] {
            let draft = Draft {
                standing: others,
                ..all_standing(jobs)
            };
            let plan = draft.bytes();
            let bits = 85 + 26 * jobs;
            let sections = bits.div_ceil(8);
            assert_eq!(pattern_part(&plan), sections..sections + 5);
            for length in 11..sections {
                assert_refused(&plan[..length], 3);
            }
            assert_refused(&plan[..sections], 10);
            for bit in bits..8 * sections {
                assert_refused(&turned(&plan, bit / 8, 0x80 >> (bit % 8)), 4);
            }
        }
    }
}

#[test]
fn exit_fields_that_differ() {
    // Nodes 2 to 4 are the standing job's.
    for entry in 0..7 {
        for exit in 0..7 {
            let mut draft = Draft {
                jobs: vec![[2, 0, 1], [3, entry, exit], [1, 5, 5]],
                standing: vec![1],
                ..Draft::p()
            };
            let inside = (2..5).contains(&entry) && (2..5).contains(&exit);
            if inside && entry == exit {
                assert!(is_verified(draft.judge().0));
            } else {
                assert_refused(&draft.bytes(), 6);
            }
            // Of a job that does not stand they may differ.
            draft.standing = vec![2];
            match inside {
                true => assert!(is_verified(draft.judge().0)),
                false => assert_refused(&draft.bytes(), 6),
            }
            // 6 before 21.
            draft.jobs[0][2] = 0;
            draft.standing = vec![0, 1, 2];
            let number = if inside && entry == exit { 21 } else { 6 };
            assert_refused(&draft.bytes(), number);
        }
    }
}

#[test]
fn all_jobs_standing() {
    for jobs in 1..=16 {
        let all = all_standing(jobs);
        assert_refused(&all.bytes(), 21);
        for job in 0..jobs {
            let mut one_ends = all.clone();
            one_ends.standing.remove(job);
            assert_eq!(counts(one_ends.judge().0).final_set, set(&[0]));
            let mut one_stands = all.clone();
            one_stands.standing = vec![job];
            match jobs {
                1 => assert_refused(&one_stands.bytes(), 21),
                _ => assert_eq!(counts(one_stands.judge().0).final_set, set(&[0])),
            }
        }
    }
    // Without jobs it is not so that all stand.
    let draft = Draft::no_jobs(&[], &[Item::Empty]);
    assert!(is_verified(draft.judge().0));
    assert_eq!(pattern_part(&draft.bytes()), 11..12);
}

#[test]
fn before_21() {
    let all = all_standing(2);
    let plan = all.bytes();
    assert_refused(&plan[..10], 1);
    assert_refused(&all_standing(17).bytes(), 2);
    assert_refused(&plan[..17], 3);
    assert_refused(&turned(&plan, 17, 1), 4);
    // Nodes 0 with jobs, sizes that do not sum to the nodes, a size 0.
    for nodes in [0, 1, 3, 256] {
        assert_refused(&all.bytes_with_nodes(nodes), 5);
    }
    let empty_job = Draft {
        jobs: vec![[1, 0, 0], [0, 1, 1]],
        ..all
    };
    assert_refused(&empty_job.bytes(), 5);
}

#[test]
fn after_21() {
    for jobs in 1..=3 {
        let all = all_standing(jobs);
        // 7, what 8 would be, 9, or nothing else wrong.
        for [from, to, channel] in [[0, 9, 0], [9, 9, 0], [0, 2, 0], [0, 0, 1], [0, 0, 0]] {
            for draft in with_an_arc(&all, [from, to, channel]) {
                assert_refused(&draft.bytes(), 21);
            }
        }
        let plan = all.bytes();
        let pattern = plan.len() - 5;
        assert_refused(&plan[..pattern], 21);
        assert_refused(&turned(&plan, pattern, 0x80), 21);
        assert_refused(&[&plan[..], &[0]].concat(), 21);
        for items in [
            vec![events(&[2])],
            vec![Item::Choice],
            vec![Item::Empty; 2],
            Draft::many_states(5).items,
        ] {
            let draft = Draft {
                items,
                ..all.clone()
            };
            assert_refused(&draft.bytes(), 21);
        }
    }
}

/// Steps, calls and accepts at the entry and exit node of a job.
#[test]
fn refusal_8_passes_standing_jobs_over() {
    for standing in [0, 1, 2] {
        let mut draft = Draft {
            jobs: vec![[2, 0, 0], [2, 2, 2], [2, 4, 4]],
            standing: vec![standing],
            ..Draft::new(&[1], &[events(&[1])])
        };
        for (job, node) in [0, 2, 4].into_iter().enumerate() {
            // To itself and to the other node, event or channel 0.
            for to in [node, node + 1] {
                for mut with_arc in with_an_arc(&draft, [node, to, 0]) {
                    match job == standing {
                        true => assert_eq!(counts(with_arc.judge().0).final_set, set(&[0])),
                        false => assert_refused(&with_arc.bytes(), 8),
                    }
                    // One more arc leaves the exit of the next job: 8 before 9.
                    let next = (node + 2) % 6;
                    with_arc.calls.push([next, next, 9]);
                    assert_refused(&with_arc.bytes(), 8);
                }
            }
        }
        // 7 and 9 are asked of standing jobs as of others.
        let node = 2 * standing as u64;
        for strange in [6, (node + 2) % 6] {
            for with_arc in with_an_arc(&draft, [node, strange, 0]) {
                assert_refused(&with_arc.bytes(), 7);
            }
        }
        for with_arc in &with_an_arc(&draft, [node, node, 1])[1..] {
            assert_refused(&with_arc.bytes(), 9);
        }
        draft.standing.clear();
        for with_arc in with_an_arc(&draft, [node, node, 0]) {
            assert_refused(&with_arc.bytes(), 8);
        }
    }
}

/// The sets are as they were; the final set is that of one exit alone.
#[test]
fn two_jobs_of_which_one_stands() {
    let sets = [&[0][..], &[1], &[3, 4], &[0, 1], &[3], &[4]].map(set);
    let of_kind = |kind, standing| Draft {
        kind,
        ..two_jobs(standing)
    };
    let expected = |final_set: &[u64]| Counts {
        states: 5,
        meetings: 1,
        ordering: 6,
        pairs: 8,
        fill: 27,
        final_set: set(final_set),
    };
    // At all exits together it would be empty, and verified of each kind.
    for (kind, standing, answer) in [
        (EVERY, 0, Answer::Verified(expected(&[4]))),
        (NONE, 0, Answer::Inconclusive(expected(&[4]))),
        (EVERY, 1, Answer::Inconclusive(expected(&[3, 4]))),
        (NONE, 1, Answer::Inconclusive(expected(&[3, 4]))),
    ] {
        let draft = of_kind(kind, standing);
        assert_eq!(draft.judge(), (answer, sets.to_vec()));
        assert_eq!(at_all_exits(&draft, &sets), 0);
    }
    // The first job ends while the second, standing, is in the middle of its
    // work, by 1 and 2, or at a node it never leaves, by 1, 2 and 3.
    let naive = Naive::of(&two_jobs(1));
    let complete = |(nodes, _): &(Vec<usize>, usize)| naive.complete(nodes);
    let ends: HashSet<_> = naive.reached().into_iter().filter(complete).collect();
    assert_eq!(ends, HashSet::from([(vec![2, 4], 3), (vec![2, 5], 4)]));
}

#[test]
fn a_server_goes_on_after_the_end() {
    let [two, three] = [events(&[2]), events(&[3])];
    let choice = [two, three, Item::Empty, Item::Choice, Item::Sequence];
    // The complete runs give 2 and, as the server goes on, 2 and 3.
    for (items, kind, verified) in [
        (&[two][..], EVERY, false),
        (&[two, three, Item::Sequence], EVERY, false),
        (&choice, EVERY, true),
        (&[two], NONE, false),
        (&[two, three, Item::Sequence], NONE, false),
        (&[three, two, Item::Sequence], NONE, true),
    ] {
        let draft = Draft {
            kind,
            ..memory_server(items)
        };
        let (answer, row) = draft.judge();
        assert_eq!(is_verified(answer), verified, "{items:?}");
        assert_eq!(counts(answer).final_set, row[1]);
        let seen = check_runs(&draft, answer, &row);
        assert_eq!((seen.ends, seen.away, seen.going_on), (2, 1, 1));
        assert_eq!(seen.wrong > 0, !verified);
    }
    // After 2 it is state 1, after 2 and 3 it is state 3.
    let (answer, row) = memory_server(&choice).judge();
    assert_eq!(row, [&[0][..], &[1, 3], &[0, 3], &[1]].map(set));
    assert_eq!(counts(answer).final_set, set(&[1, 3]));
    // A server that did not stand would be 8.
    let mut ends = memory_server(&choice);
    ends.standing.clear();
    assert_refused(&ends.bytes(), 8);
}

/// A job that is at its exit from the beginning: each run is complete.
#[test]
fn a_clock_that_ticks() {
    let draft = Draft {
        jobs: vec![[1, 0, 0], [1, 1, 1]],
        standing: vec![1],
        steps: vec![[1, 1, 1]],
        ..Draft::new(&[1], &[events(&[1]), Item::Star])
    };
    let expected = Counts {
        states: 2,
        meetings: 0,
        ordering: 1,
        pairs: 4,
        fill: 100,
        final_set: set(&[0, 1]),
    };
    assert_eq!(draft.judge().0, Answer::Verified(expected));
    for (text, verified) in [("a*", true), ("0", false), ("a", false), ("0|a;a*", true)] {
        let answer = judge_typed(&draft, text).0;
        assert_eq!(is_verified(answer), verified, "{text}");
    }
}

#[test]
fn typed_patterns() {
    for standing in [0, 1] {
        let draft = two_jobs(standing);
        assert_eq!(judge_typed(&draft, "a;b;c"), draft.judge());
    }
    // The final set is {4} where the first stands, {3,4} where the second does.
    for (text, answers) in [
        ("a;b;c", [true, false]),
        ("a;b;(c|0)", [true, true]),
        ("a;b", [false, false]),
        ("[^]*;c", [true, false]),
        ("[^c]*;c*", [true, true]),
    ] {
        let typed = |standing| is_verified(judge_typed(&two_jobs(standing), text).0);
        assert_eq!([0, 1].map(typed), answers, "{text}");
    }
    // 21 and 8 come before the text's refusals, those before a short row.
    let plan = two_jobs(1).bytes();
    let mut left = two_jobs(1);
    left.steps.push([2, 0, 1]);
    for (text, number) in [("", 18), ("d", 20), ("a", 17)] {
        let typed = |plan: &[u8]| judge_text(plan, text.as_bytes(), &mut [0; 5]);
        assert_eq!(typed(&plan), Answer::Refused(number));
        assert_eq!(typed(&left.bytes()), Answer::Refused(8));
        assert_eq!(typed(&all_standing(2).bytes()), Answer::Refused(21));
    }
}

/// Complete ends that runs of a plan reach: all, those where a standing job is
/// away from its entry, those where a move may follow, and those whose string
/// does not suit the kind.
#[derive(Default)]
struct Seen {
    ends: usize,
    away: usize,
    going_on: usize,
    wrong: usize,
}

/// All runs of a plan against its answer and its sets.
fn check_runs(draft: &Draft, answer: Answer, row: &[u64]) -> Seen {
    let naive = Naive::of(draft);
    let beginning = Read::from([(0, Rest::of(&draft.items))]);
    let states = states(&beginning, &draft.alphabet);
    let counts = counts(answer);
    assert_eq!(counts.states as usize, states.len());
    let mut seen = Seen::default();
    for (nodes, read) in naive.reached_from(beginning, longer) {
        let reached = positions(&read);
        let state = states.iter().position(|state| *state == reached).unwrap();
        let holds = |set: u64| set >> state & 1 == 1;
        assert!(nodes.iter().all(|&node| holds(row[node])), "{draft:?}");
        if !naive.complete(&nodes) {
            continue;
        }
        assert!(holds(counts.final_set), "{draft:?}");
        let belongs = read.iter().any(|(_, rest)| rest.may_end());
        seen.ends += 1;
        seen.away += usize::from(naive.standing_away(&nodes) > 0);
        seen.going_on += usize::from(naive.moves_at(&nodes).next().is_some());
        seen.wrong += usize::from(belongs != (draft.kind == EVERY));
    }
    assert!(seen.wrong == 0 || !is_verified(answer), "{draft:?}");
    seen
}

#[test]
fn runs_of_plans_thrown_at_random() {
    let mut dice = Dice(7);
    let (mut verified, mut inconclusive, mut away, mut going_on) = (0, 0, 0, 0);
    let (mut other_final_set, mut other_verdict) = (0, 0);
    for _ in 0..60_000 {
        let draft = dice.plan(3, 3, 16);
        if draft.standing.is_empty() {
            continue;
        }
        let (answer, row) = draft.judge();
        let seen = check_runs(&draft, answer, &row);
        // What would come of the standing jobs' exit fields.
        let at_all_exits = at_all_exits(&draft, &row);
        if is_verified(answer) {
            verified += 1;
            other_final_set += usize::from(at_all_exits != counts(answer).final_set);
            away += seen.away;
            going_on += seen.going_on;
        } else {
            inconclusive += 1;
            // Verified, though a run ends wrong.
            let misled = seen.wrong > 0 && Naive::of(&draft).all_right(at_all_exits);
            other_verdict += usize::from(misled);
        }
    }
    let plans = [verified, inconclusive];
    assert!(plans.iter().all(|&plans| plans > 5_000), "{plans:?}");
    let ends = [away, going_on];
    assert!(ends.iter().all(|&ends| ends > 1_000), "{ends:?}");
    let errors = [other_final_set, other_verdict];
    assert!(errors.iter().all(|&plans| plans > 100), "{errors:?}");
}

/// The same under texts, in place of patterns thrown.
#[test]
fn runs_of_typed_plans_thrown_at_random() {
    let mut dice = Dice(8);
    let texts = ["d", "[^]*", "[^d]*;d", "(d;[^d]*)*|0", "[^d]*", "[^];[^]*"];
    let mut verdicts = [[0; 2]; 6];
    for _ in 0..1_000 {
        let draft = dice.plan(3, 3, 16);
        if draft.standing.is_empty() {
            continue;
        }
        for (text, verdicts) in texts.into_iter().zip(&mut verdicts) {
            let items = read_text(text.as_bytes(), set(&draft.alphabet) as u32).unwrap();
            let (answer, row) = judge_typed(&draft, text);
            let own = Draft {
                items,
                ..draft.clone()
            };
            assert_eq!(own.judge(), (answer, row.clone()));
            check_runs(&own, answer, &row);
            verdicts[usize::from(is_verified(answer))] += 1;
        }
    }
    let mut all = verdicts.iter().flatten();
    assert!(all.all(|&plans| plans > 50), "{verdicts:?}");
}

//! Words to bytes, and back: random plans of all sizes, packed, read back, judged, unpacked and packed again.
mod plans;

use plans::{plan, Random};
use std::collections::BTreeMap;
use traceflow::{Answer, Arc, Item, Kind, Plan};
use tuft::format::format;
use tuft::judged::{judge, states_in, Judged};
use tuft::model::{self, Model, Move, Rule};
use tuft::pack::pack;
use tuft::read::read;
use tuft::states::{moved, states, State};
use tuft::unpack;

const PLANS: usize = 500;

/// Calls `look` with the rules of random plans, and with a name by which a failure is found again.
fn each_rule(seed: u64, mut look: impl FnMut(&Model, &Rule, &str)) {
    let random = &mut Random::new(seed);
    for round in 0..PLANS {
        let written = plan(random);
        let model = read(written.text.as_bytes()).model.expect("a plan");
        for rule in &model.rules {
            look(
                &model,
                rule,
                &format!("seed {seed}, plan {round}, rule {}", rule.name),
            );
        }
    }
}

/// How often each case came up.
#[derive(Default)]
struct Tally(BTreeMap<&'static str, usize>);

impl Tally {
    fn note(&mut self, case: &'static str, came_up: bool) {
        *self.0.entry(case).or_default() += usize::from(came_up);
    }

    /// Every case came up, so that nothing was left untried.
    fn complete(&self) {
        assert!(self.0.values().all(|&times| times > 0), "{:?}", self.0);
    }
}

/// The proved judge and the independent implementation give the same answer and the same row; and what is read back is what was packed.
#[test]
fn packed_plans_are_judged_and_read_back() {
    let mut tally = Tally::default();
    each_rule(11, |model, rule, at| {
        let bytes = pack(model, rule);
        let answer = answer(&bytes);
        assert_eq!(answer, reference_answer(&bytes), "{at}");
        let plan = traceflow::tables(&bytes).expect("a plan");
        assert_eq!(plan, numbers(model, rule), "{at}");
        tally.note("verified", matches!(answer.0, Answer::Verified(_)));
        tally.note("inconclusive", matches!(answer.0, Answer::Inconclusive(_)));
        tally.note("too many states", answer.0 == Answer::Refused(16));
        tally.note("without jobs", plan.jobs.is_empty());
        tally.note("with a service", plan.jobs.iter().any(|job| job.standing));
        tally.note("sixteen jobs", plan.jobs.len() == 16);
        tally.note("many nodes", plan.nodes > 200);
        tally.note("all events", plan.alphabet >> 31 == 1);
        tally.note("64 items", plan.items.len() == 64);
    });
    tally.complete();
}

fn answer(bytes: &[u8]) -> (Answer, [u64; 256]) {
    let mut row = [0; 256];
    (traceflow::judge(bytes, &mut row), row)
}

/// The answer of the independent implementation, in the same types.
fn reference_answer(bytes: &[u8]) -> (Answer, [u64; 256]) {
    let mut row = [0; 256];
    let counts = |counts: reference::Counts| traceflow::Counts {
        states: counts.states,
        meetings: counts.meetings,
        ordering: counts.ordering,
        pairs: counts.pairs,
        fill: counts.fill,
        final_set: counts.final_set,
    };
    let answer = match reference::judge(bytes, &mut row) {
        reference::Answer::Refused(number) => Answer::Refused(number),
        reference::Answer::Verified(values) => Answer::Verified(counts(values)),
        reference::Answer::Inconclusive(values) => Answer::Inconclusive(counts(values)),
    };
    (answer, row)
}

/// The numbers of a plan in words, under one rule.
fn numbers(model: &Model, rule: &Rule) -> Plan {
    let mut first = 0;
    let jobs = model.jobs.iter().map(|job| {
        let numbered = traceflow::Job {
            first,
            size: job.nodes.len(),
            entry: first + job.entry,
            exit: first + job.exit,
            standing: job.standing,
        };
        first += job.nodes.len();
        numbered
    });
    Plan {
        jobs: jobs.collect(),
        nodes: first,
        kind: match rule.kind {
            model::Kind::Every => Kind::Every,
            model::Kind::Never => Kind::None,
        },
        alphabet: rule.alphabet,
        steps: arcs(&model.steps),
        channels: model.channels.iter().map(|channel| channel.event).collect(),
        calls: arcs(&model.calls),
        accepts: arcs(&model.accepts),
        items: rule.items.iter().map(item).collect(),
    }
}

fn arcs(moves: &[Move]) -> Vec<Arc> {
    let arc = |&Move { from, to, label }: &Move| Arc { from, to, label };
    moves.iter().map(arc).collect()
}

fn item(item: &model::Item) -> Item {
    match *item {
        model::Item::Empty => Item::Empty,
        model::Item::Events(set) => Item::Events(set),
        model::Item::Sequence => Item::Sequence,
        model::Item::Choice => Item::Choice,
        model::Item::Star => Item::Star,
    }
}

/// The words of bytes, which have the layout of `tuft fmt`, packed again.
fn packed_again(bytes: &[u8], at: &str) -> (String, Vec<u8>) {
    let words = unpack::words(&traceflow::tables(bytes).expect("a plan"));
    let laid_out = format(words.as_bytes()).ok().expect("words without errors");
    assert_eq!(words, laid_out, "{at}: the layout");
    let model = read(words.as_bytes()).model.expect("words without errors");
    let packed = pack(&model, &model.rules[0]);
    (words, packed)
}

#[test]
fn unpacked_plans_pack_to_the_same_bytes() {
    let mut tally = Tally::default();
    each_rule(12, |model, rule, at| {
        let bytes = pack(model, rule);
        let (words, packed) = packed_again(&bytes, at);
        assert_eq!(packed, bytes, "{at}\n{words}");
        assert!(!words.contains('#'), "{at}\n{words}");
        tally.note("nodes are listed", words.contains("\n  nodes "));
        tally.note("no nodes are listed", !words.contains("\n  nodes "));
        tally.note("services", words.contains("\nservice "));
        tally.note("watched besides", words.contains("\n  watch "));
        tally.note("brackets", words.contains('('));
    });
    tally.complete();
}

/// Moves that do not stand job by job come back job by job, and a comment says so.
#[test]
fn unpacked_plans_with_mixed_moves() {
    let mut tally = Tally::default();
    let random = &mut Random::new(13);
    each_rule(14, |model, rule, at| {
        let mut mixed = model.clone();
        random.shuffle(&mut mixed.steps);
        random.shuffle(&mut mixed.calls);
        random.shuffle(&mut mixed.accepts);
        let grouped = grouped(&mixed);
        let (words, packed) = packed_again(&pack(&mixed, rule), at);
        assert_eq!(packed, pack(&grouped, rule), "{at}\n{words}");
        let told = words.starts_with("# the moves stand in another order here than in the bytes\n");
        assert_eq!(told, mixed != grouped, "{at}\n{words}");
        tally.note("told", told);
        tally.note("not told", !told);
    });
    tally.complete();
}

/// The same plan with its moves job by job, those of each job in their order.
fn grouped(model: &Model) -> Model {
    let jobs = model.jobs.iter().enumerate();
    let owners: Vec<usize> = jobs
        .flat_map(|(number, job)| vec![number; job.nodes.len()])
        .collect();
    let mut grouped = model.clone();
    for moves in [&mut grouped.steps, &mut grouped.calls, &mut grouped.accepts] {
        moves.sort_by_key(|arc| owners[arc.from]);
    }
    grouped
}

/// What is told of states: each example leads to its state, for a state of some node's set by such states alone; and the pattern can be met
/// behind exactly the events that are told as next.
#[test]
fn states_are_as_they_are_told() {
    let mut tally = Tally::default();
    each_rule(15, |model, rule, at| {
        let Ok(judged) = judge(&pack(model, rule)) else {
            return;
        };
        let told = states(&judged);
        let held = judged.sets.iter().fold(0, |all, set| all | set);
        let within = |number: usize| states_in(held).any(|state| state == number);
        let alive = within_reach(&judged);
        assert_eq!(told.len(), judged.counts.states as usize, "{at}");
        for state in &told {
            let way = way(&judged, state);
            assert_eq!(way.last(), Some(&state.number), "{at}");
            assert!(
                !within(state.number) || way.iter().all(|&number| within(number)),
                "{at}: {state:?}"
            );
            assert_eq!(state.alive, alive[state.number], "{at}: {state:?}");
            assert_eq!(
                state.may_end,
                judged.automaton.accepting >> state.number & 1 == 1,
                "{at}: {state:?}"
            );
            assert_eq!(
                state.next,
                next(&judged, state.number, &alive),
                "{at}: {state:?}"
            );
            tally.note("dead", !state.alive);
            tally.note("held by no node", !within(state.number));
            tally.note("a long example", state.seen.len() > 5);
        }
    });
    tally.complete();
}

/// The states through which the example of a state leads, from state 0.
fn way(judged: &Judged, state: &State) -> Vec<usize> {
    let mut way = vec![0];
    for &event in &state.seen {
        let last = way[way.len() - 1];
        way.push(moved(&judged.automaton, last, event));
    }
    way
}

/// For each state whether an accepting one is at most 64 watched events away.
fn within_reach(judged: &Judged) -> Vec<bool> {
    let states = 0..judged.automaton.moves.len();
    let mut reach: Vec<bool> = states
        .map(|state| judged.automaton.accepting >> state & 1 == 1)
        .collect();
    for _ in 0..64 {
        let further = |state| reach[state] || !next(judged, state, &reach).is_empty();
        reach = (0..reach.len()).map(further).collect();
    }
    reach
}

/// The watched events that lead from a state to one of a list.
fn next(judged: &Judged, state: usize, to: &[bool]) -> Vec<usize> {
    let watched = (1..32).filter(|event| judged.plan.alphabet >> event & 1 == 1);
    watched
        .filter(|&event| to[judged.automaton.moves[state][event] as usize])
        .collect()
}

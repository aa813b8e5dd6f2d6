//! A plan's bytes in words, with names made from numbers.
use crate::judged::{has, job_of};
use crate::names::{events_in, Names};
use crate::pattern;
use traceflow::{Arc, Item, Job, Plan};

/// So many moves are written in a line at most.
const MOST_IN_A_LINE: usize = 4;

/// The words of a plan. Packing them gives the same bytes, but for moves that do not stand grouped by job there.
pub fn words(plan: &Plan) -> String {
    let names = Names::made();
    let jobs = plan.jobs.iter().enumerate();
    let jobs: String = jobs
        .map(|(number, job)| job_words(plan, number, job, &names))
        .collect();
    format!(
        "{}plan {}\n{}{jobs}\n{}",
        order_note(plan),
        names.plan,
        declarations(plan, &names),
        rule(plan, &names)
    )
}

/// A comment where the moves stand in another order than in the bytes.
fn order_note(plan: &Plan) -> &'static str {
    if [&plan.steps, &plan.calls, &plan.accepts]
        .iter()
        .all(|arcs| grouped(plan, arcs))
    {
        ""
    } else {
        "# the moves stand in another order here than in the bytes\n"
    }
}

/// Whether the moves stand job by job.
fn grouped(plan: &Plan, arcs: &[Arc]) -> bool {
    arcs.is_sorted_by_key(|arc| job_of(plan, arc.from))
}

/// The events up to the highest that is used, and the channels.
fn declarations(plan: &Plan, names: &Names) -> String {
    let highest = highest_event(plan);
    let events: String = (1..=highest)
        .map(|event| format!(" {}", names.event(event)))
        .collect();
    let channels = plan.channels.iter().enumerate();
    let channels: String = channels
        .map(|(channel, &event)| channel_words(channel, event, names))
        .collect();
    let events = if events.is_empty() {
        events
    } else {
        format!("event{events}\n")
    };
    if events.is_empty() && channels.is_empty() {
        return String::new();
    }
    format!("\n{events}{channels}")
}

/// The highest event that is watched or given.
fn highest_event(plan: &Plan) -> usize {
    let given = plan.steps.iter().map(|step| step.label);
    let met = plan.channels.iter().copied();
    events_in(plan.alphabet)
        .chain(given)
        .chain(met)
        .max()
        .unwrap_or(0)
}

fn channel_words(channel: usize, event: usize, names: &Names) -> String {
    let name = names.channel(channel);
    match event {
        0 => format!("channel {name}\n"),
        event => format!("channel {name} gives {}\n", names.event(event)),
    }
}

/// A move with what it does besides: `gives e1`, `calls c0`, `accepts c0` or nothing.
struct Written {
    from: usize,
    to: usize,
    deed: String,
}

fn job_words(plan: &Plan, number: usize, job: &Job, names: &Names) -> String {
    let moves = moves_of(plan, job, names);
    format!(
        "\n{}{}{}",
        head(number, job, names),
        node_list(job, &moves, names),
        chains(&moves, names)
    )
}

/// The first line of a job.
pub fn head(number: usize, job: &Job, names: &Names) -> String {
    let (name, entry) = (names.job(number), names.node(job.entry));
    if job.standing {
        format!("service {name} from {entry}\n")
    } else {
        format!("job {name} from {entry} to {}\n", names.node(job.exit))
    }
}

/// The moves of a job: steps, calls and accepts each in their order. Between the three the next is one that leads on from the last move, or
/// else the one from the lowest node.
fn moves_of(plan: &Plan, job: &Job, names: &Names) -> Vec<Written> {
    let mut waiting = [
        deeds(job, &plan.steps, &|event| given(event, names)),
        deeds(job, &plan.calls, &|channel| {
            format!(" calls {}", names.channel(channel))
        }),
        deeds(job, &plan.accepts, &|channel| {
            format!(" accepts {}", names.channel(channel))
        }),
    ];
    let mut moves: Vec<Written> = Vec::new();
    while let Some(next) = next_of(&mut waiting, moves.last().map_or(job.entry, |last| last.to)) {
        moves.push(next);
    }
    moves
}

fn given(event: usize, names: &Names) -> String {
    match event {
        0 => String::new(),
        event => format!(" gives {}", names.event(event)),
    }
}

/// The moves of one list that are a job's, the last first.
fn deeds(job: &Job, arcs: &[Arc], deed: &dyn Fn(usize) -> String) -> Vec<Written> {
    let own = arcs.iter().rev().filter(|arc| has(job, arc.from));
    own.map(|arc| Written {
        from: arc.from,
        to: arc.to,
        deed: deed(arc.label),
    })
    .collect()
}

/// Takes the next move from the lists, which have it last.
fn next_of(waiting: &mut [Vec<Written>], at: usize) -> Option<Written> {
    let heads = waiting.iter_mut().filter(|list| !list.is_empty());
    let next = heads.min_by_key(|list| list.last().map(|head| (head.from != at, head.from)));
    next.and_then(Vec::pop)
}

/// A `nodes` line, where the nodes would get other numbers by their first mention.
fn node_list(job: &Job, moves: &[Written], names: &Names) -> String {
    let own: Vec<usize> = (job.first..job.first + job.size).collect();
    if mentioned(job, moves) == own {
        return String::new();
    }
    let listed: String = own
        .iter()
        .map(|&node| format!(" {}", names.node(node)))
        .collect();
    format!("  nodes{listed}\n")
}

/// The nodes of a job in the order of their first mention: the entry, those of the moves, and an exit that no move mentions.
fn mentioned(job: &Job, moves: &[Written]) -> Vec<usize> {
    let mut nodes = Vec::new();
    let of_moves = moves.iter().flat_map(|written| [written.from, written.to]);
    for node in [job.entry].into_iter().chain(of_moves).chain([job.exit]) {
        if !nodes.contains(&node) {
            nodes.push(node);
        }
    }
    nodes
}

/// The moves, one behind the other in a line where one leads on to the next.
fn chains(moves: &[Written], names: &Names) -> String {
    let chains = moves.chunk_by(|first, second| first.to == second.from);
    let lines = chains.flat_map(|chain| chain.chunks(MOST_IN_A_LINE));
    lines.map(|line| chain_words(line, names)).collect()
}

fn chain_words(chain: &[Written], names: &Names) -> String {
    let from = chain.first().map_or(0, |written| written.from);
    let moves = chain.iter();
    let moves: String = moves
        .map(|written| format!("{} then {}", written.deed, names.node(written.to)))
        .collect();
    format!("  {}{moves}\n", names.node(from))
}

/// The plan's one rule.
fn rule(plan: &Plan, names: &Names) -> String {
    let kind = pattern::kind(plan.kind);
    let words = pattern::words(&plan.items, names);
    format!("rule pattern\n{}  {kind} {words}\n", watch(plan, names))
}

/// The watched events that the pattern does not name.
fn watch(plan: &Plan, names: &Names) -> String {
    let others = plan.alphabet & !named(&plan.items);
    if others == 0 {
        return String::new();
    }
    format!("  watch {}\n", names.events_of(others).join(" "))
}

/// The events that a pattern names.
fn named(items: &[Item]) -> u32 {
    let sets = items.iter().map(|item| match item {
        Item::Events(set) => *set,
        _ => 0,
    });
    sets.fold(0, |all, set| all | set)
}

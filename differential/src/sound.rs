//! Sound plans of all sizes with jobs, most of them connected from entry to exit.

use crate::draft::{Arc, Draft, Job};
use crate::layout::COUNTS;
use crate::pattern::pattern;
use crate::random::Random;
use crate::standing::stand_some;

/// How large the counts of a plan may be.
#[derive(Clone, Copy)]
pub enum Scale {
    Tiny,
    Small,
    Middling,
    Large,
    /// Every count is the largest one that a plan may have.
    Full,
}

/// A scale for a plan of a run: the larger ones are rarer.
pub fn any_scale(random: &mut Random) -> Scale {
    match random.weighted(&[30, 40, 26, 2, 2]) {
        0 => Scale::Tiny,
        1 => Scale::Small,
        2 => Scale::Middling,
        3 => Scale::Large,
        _ => Scale::Full,
    }
}

/// The least counts of a plan with jobs.
const LEAST: [u32; 7] = [1, 1, 0, 0, 0, 0, 1];

/// The counts of the head, in its order: jobs, nodes, steps, calls, accepts,
/// channels, items.
fn counts(scale: Scale, random: &mut Random) -> [usize; 7] {
    let most = COUNTS.map(|count| count.most);
    let upper = match scale {
        Scale::Tiny => [2, 6, 6, 3, 3, 2, 6],
        Scale::Small => [4, 16, 24, 8, 8, 4, 12],
        Scale::Middling => [8, 64, 80, 32, 32, 16, 32],
        Scale::Large => most,
        Scale::Full => return most.map(|count| count as usize),
    };
    let mut drawn = [0; 7];
    for (index, least) in LEAST.into_iter().enumerate() {
        drawn[index] = random.within(least..=upper[index]) as usize;
    }
    let [jobs, nodes, steps, calls, accepts, channels, items] = drawn;
    let ends = if channels == 0 {
        [0; 2]
    } else {
        [calls, accepts]
    };
    [
        jobs,
        nodes.max(jobs),
        steps,
        ends[0],
        ends[1],
        channels,
        items,
    ]
}

/// A plan with jobs, of which some may stand, that none of refusals 1 to 15 and 21 applies to.
pub fn sound(scale: Scale, random: &mut Random) -> Draft {
    let [jobs, nodes, steps, calls, accepts, channels, items] = counts(scale, random);
    let mut jobs = split(jobs, nodes as u32, random);
    stand_some(&mut jobs, random);
    let mut ways = ways(&jobs, steps + calls + accepts, random);
    let alphabet = alphabet(random);
    let unwatched = random.pick(&[1, 2, 4, 8]);
    let mut event = |random: &mut Random| any_event(alphabet, unwatched, random);
    let busy = random.pick(&[1, 1 + channels / 4, channels]).max(1) as u32;
    let mut channel = |random: &mut Random| random.within(0..=busy - 1);
    Draft {
        nodes: nodes as u32,
        kind: random.within(0..=1),
        alphabet,
        steps: label(&mut ways, steps, &mut event, random),
        channels: (0..channels).map(|_| event(random)).collect(),
        calls: label(&mut ways, calls, &mut channel, random),
        accepts: label(&mut ways, accepts, &mut channel, random),
        items: pattern(alphabet, items, random),
        jobs,
    }
}

/// The nodes split among the jobs, with an entry and an exit in each.
fn split(jobs: usize, nodes: u32, random: &mut Random) -> Vec<Job> {
    let mut cuts: Vec<u32> = (1..nodes).collect();
    random.shuffle(&mut cuts);
    cuts.truncate(jobs - 1);
    cuts.extend([0, nodes]);
    cuts.sort_unstable();
    cuts.windows(2)
        .map(|ends| Job {
            size: ends[1] - ends[0],
            entry: random.within(ends[0]..=ends[1] - 1),
            exit: random.within(ends[0]..=ends[1] - 1),
            standing: false,
        })
        .collect()
}

/// Pairs of from and to, `count` of them if any is possible: first a path
/// through each job, then any others, all in a random order.
fn ways(jobs: &[Job], count: usize, random: &mut Random) -> Vec<(u32, u32)> {
    let mut ways = Vec::new();
    let mut free = Vec::new();
    let mut start = 0;
    for job in jobs {
        let nodes: Vec<u32> = (start..start + job.size).collect();
        ways.extend(path(job, &nodes, random));
        free.extend(
            nodes
                .iter()
                .filter(|&&node| job.standing || node != job.exit)
                .map(|&node| (node, start, job.size)),
        );
        start += job.size;
    }
    while ways.len() < count && !free.is_empty() {
        let (from, start, size) = random.pick(&free);
        ways.push((from, random.within(start..=start + size - 1)));
    }
    ways.truncate(count);
    random.shuffle(&mut ways);
    ways
}

/// A path from the entry to the exit through some nodes of the job; in a standing job, round to its entry again.
fn path(job: &Job, nodes: &[u32], random: &mut Random) -> Vec<(u32, u32)> {
    if job.entry == job.exit && !job.standing {
        return Vec::new();
    }
    let kept = random.within(0..=4);
    let mut stops: Vec<u32> = nodes
        .iter()
        .copied()
        .filter(|&node| node != job.entry && node != job.exit && random.within(1..=4) <= kept)
        .collect();
    random.shuffle(&mut stops);
    stops.insert(0, job.entry);
    stops.push(job.exit);
    stops.windows(2).map(|ends| (ends[0], ends[1])).collect()
}

/// The next `count` ways, as far as there are some, with their labels.
fn label(
    ways: &mut Vec<(u32, u32)>,
    count: usize,
    label: &mut dyn FnMut(&mut Random) -> u32,
    random: &mut Random,
) -> Vec<Arc> {
    let rest = ways.len().saturating_sub(count);
    let taken = ways.split_off(rest).into_iter();
    taken
        .map(|(from, to)| Arc {
            from,
            to,
            label: label(random),
        })
        .collect()
}

/// From the empty alphabet to all 31 events, few of them most often.
pub fn alphabet(random: &mut Random) -> u32 {
    let every = u32::MAX << 1;
    match random.weighted(&[1, 8, 2, 1]) {
        0 => 0,
        1 => {
            let events = random.within(1..=4);
            (0..events).fold(0, |set, _| set | 1 << random.event_of(every))
        }
        2 => random.bits() as u32 & every,
        _ => every,
    }
}

/// An event of the alphabet, but one in `unwatched` times any or the quiet one.
pub fn any_event(alphabet: u32, unwatched: u32, random: &mut Random) -> u32 {
    if !random.one_in(unwatched) {
        random.event_of(alphabet)
    } else if random.one_in(2) {
        0
    } else {
        random.within(0..=31)
    }
}

#[cfg(test)]
mod tests {
    use super::*;
    use reference::{judge, Answer};

    #[test]
    fn no_refusal_of_the_plan_applies_and_a_good_share_has_standing_jobs() {
        let mut standing = 0;
        for number in 0..1_000 {
            let random = &mut Random::for_plan(7, number);
            let draft = sound(any_scale(random), random);
            let answer = judge(&draft.encode(), &mut [0; 256]);
            assert!(
                matches!(
                    answer,
                    Answer::Refused(16) | Answer::Verified(_) | Answer::Inconclusive(_)
                ),
                "plan {number}: {answer:?}"
            );
            standing += usize::from(draft.jobs.iter().any(|job| job.standing));
        }
        assert!(standing > 250, "{standing}");
    }
}

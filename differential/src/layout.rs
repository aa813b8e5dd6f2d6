//! Where the parts of a packed plan stand, and its fields by their bits.

use crate::draft::{Arc, Draft, Item, Job};

/// A count of the head: its first bit and width, and its range.
pub struct Count {
    at: usize,
    pub width: usize,
    pub least: u32,
    pub most: u32,
}

const fn count(at: usize, width: usize, least: u32, most: u32) -> Count {
    Count {
        at,
        width,
        least,
        most,
    }
}

pub const MOST_NODES: u32 = 256;
pub const MOST_CHANNELS: u32 = 64;
pub const MOST_ITEMS: usize = 64;

pub const JOBS: Count = count(0, 5, 0, 16);
pub const NODES: Count = count(5, 9, 0, MOST_NODES);
pub const CHANNELS: Count = count(39, 7, 0, MOST_CHANNELS);

/// Jobs, nodes, steps, calls, accepts, channels, items, as in the head.
pub const COUNTS: [Count; 7] = [
    JOBS,
    NODES,
    count(14, 9, 0, 256),
    count(23, 8, 0, 128),
    count(31, 8, 0, 128),
    CHANNELS,
    count(47, 7, 1, MOST_ITEMS as u32),
];

const KIND_AT: usize = 46;
const ALPHABET_AT: usize = 54;
const JOBS_AT: usize = 85;

/// The widths of a job's record: size, entry, exit, and one bit for a standing job.
pub const JOB: [usize; 4] = [9, 8, 8, 1];
/// Of a local step: from, to and event.
pub const STEP: [usize; 3] = [8, 8, 5];
/// Of a channel: its event.
pub const CHANNEL: [usize; 1] = [5];
/// Of a call or accept: from, to and channel.
pub const LINK: [usize; 3] = [8, 8, 6];

impl Count {
    pub fn read(&self, plan: &[u8]) -> u32 {
        field(plan, self.at, self.width)
    }

    pub fn write(&self, plan: &mut [u8], value: u32) {
        set_field(plan, self.at, self.width, value);
    }
}

/// The kind that the head names: 0 every, 1 none.
pub fn kind(plan: &[u8]) -> usize {
    field(plan, KIND_AT, 1) as usize
}

/// The alphabet; event e has weight 2^e.
pub fn alphabet(plan: &[u8]) -> u32 {
    field(plan, ALPHABET_AT, 31).reverse_bits()
}

/// A field of the plan; bits past the end count as zeros.
fn field(plan: &[u8], at: usize, width: usize) -> u32 {
    (at..at + width).fold(0, |value, bit| {
        let byte = plan.get(bit / 8).copied().unwrap_or(0);
        value << 1 | u32::from(byte >> (7 - bit % 8) & 1)
    })
}

/// Writes a field; bits past the end are left out.
pub fn set_field(plan: &mut [u8], at: usize, width: usize, value: u32) {
    for place in 0..width {
        let (bit, one) = (at + place, value >> (width - 1 - place) & 1 == 1);
        if let Some(byte) = plan.get_mut(bit / 8) {
            let weight = 0x80 >> (bit % 8);
            *byte = if one { *byte | weight } else { *byte & !weight };
        }
    }
}

/// The bits of one record.
fn bits(widths: &[usize]) -> usize {
    widths.iter().sum()
}

/// The bits of the sections before the pattern, filling bits left out.
pub fn section_bits(draft: &Draft) -> usize {
    let links = draft.calls.len() + draft.accepts.len();
    JOBS_AT
        + bits(&JOB) * draft.jobs.len()
        + bits(&STEP) * draft.steps.len()
        + bits(&CHANNEL) * draft.channels.len()
        + bits(&LINK) * links
}

/// The last bit of the record of the job of this number, which tells whether it stands.
pub fn standing_bit(job: usize) -> usize {
    JOBS_AT + bits(&JOB) * (job + 1) - 1
}

/// The byte at which the pattern starts.
pub fn pattern_start(draft: &Draft) -> usize {
    section_bits(draft).div_ceil(8)
}

/// The bit at which each item starts, and last the one after all items.
pub fn item_bits(draft: &Draft) -> Vec<usize> {
    let mut at = pattern_start(draft) * 8;
    let mut starts = vec![at];
    for item in &draft.items {
        at += if matches!(item, Item::Events(_)) {
            34
        } else {
            3
        };
        starts.push(at);
    }
    starts
}

/// The records of a plan as its head counts them. Bits past the end count as zeros.
pub struct Records {
    pub jobs: Vec<Job>,
    pub steps: Vec<Arc>,
    pub calls: Vec<Arc>,
    pub accepts: Vec<Arc>,
}

impl Records {
    /// All local steps, calls and accepts.
    pub fn arcs(&self) -> impl Iterator<Item = &Arc> {
        let links = self.calls.iter().chain(&self.accepts);
        self.steps.iter().chain(links)
    }
}

pub fn records(plan: &[u8]) -> Records {
    let [jobs, _, steps, calls, accepts, channels, _] = COUNTS.map(|count| count.read(plan));
    let mut at = JOBS_AT;
    let jobs = read_each(plan, &mut at, jobs, JOB).map(|[size, entry, exit, standing]| Job {
        size,
        entry,
        exit,
        standing: standing == 1,
    });
    let jobs = jobs.collect();
    let steps = read_arcs(plan, &mut at, steps, STEP);
    at += bits(&CHANNEL) * channels as usize;
    Records {
        jobs,
        steps,
        calls: read_arcs(plan, &mut at, calls, LINK),
        accepts: read_arcs(plan, &mut at, accepts, LINK),
    }
}

fn read_arcs(plan: &[u8], at: &mut usize, count: u32, widths: [usize; 3]) -> Vec<Arc> {
    let each = read_each(plan, at, count, widths);
    each.map(|[from, to, label]| Arc { from, to, label })
        .collect()
}

/// So many records from this bit on, which is moved behind them.
fn read_each<'a, const FIELDS: usize>(
    plan: &'a [u8],
    at: &'a mut usize,
    count: u32,
    widths: [usize; FIELDS],
) -> impl Iterator<Item = [u32; FIELDS]> + 'a {
    (0..count).map(move |_| {
        widths.map(|width| {
            *at += width;
            field(plan, *at - width, width)
        })
    })
}

#[cfg(test)]
mod tests {
    use super::*;
    use crate::random::Random;
    use crate::sound::{any_scale, sound};

    #[test]
    fn records_are_read_as_they_are_written() {
        for number in 0..500 {
            let random = &mut Random::for_plan(7, number);
            let draft = sound(any_scale(random), random);
            let plan = draft.encode();
            let read = records(&plan);
            assert_eq!(read.jobs, draft.jobs);
            assert_eq!(read.steps, draft.steps);
            assert_eq!(read.calls, draft.calls);
            assert_eq!(read.accepts, draft.accepts);
        }
    }
}

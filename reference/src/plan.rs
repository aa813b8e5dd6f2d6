//! The bit-packed plan and the refusals 1 to 15 and 21.

use crate::bits::BitReader;

/// A pattern has at most so many items.
pub(crate) const MOST_ITEMS: usize = 64;

/// What is asked of the complete runs: that every one or that none has its
/// string in the pattern's language.
#[derive(Clone, Copy, Debug, PartialEq, Eq)]
pub enum Kind {
    Every,
    None,
}

/// An item of the postfix pattern. In a set event e has weight 2^e.
#[derive(Clone, Copy, Debug, PartialEq, Eq)]
pub enum Item {
    Empty,
    Events(u32),
    Sequence,
    Choice,
    Star,
}

/// A job owns the nodes `first` to `first + size - 1`. The exit of a standing
/// job "repeats its entry and ends nothing" (order 5).
#[derive(Clone, Copy, Debug, PartialEq, Eq)]
pub struct Job {
    pub first: usize,
    pub size: usize,
    pub entry: usize,
    pub exit: usize,
    pub standing: bool,
}

impl Job {
    fn holds(&self, node: usize) -> bool {
        node >= self.first && node - self.first < self.size
    }

    /// The node where the job ends, `None` for a standing job (order 5).
    pub(crate) fn end(&self) -> Option<usize> {
        (!self.standing).then_some(self.exit)
    }
}

/// A local step.
#[derive(Clone, Copy, Debug, PartialEq, Eq)]
pub struct Step {
    pub from: usize,
    pub to: usize,
    pub event: u32,
}

/// A call or an accept.
#[derive(Clone, Copy, Debug, PartialEq, Eq)]
pub struct Link {
    pub from: usize,
    pub to: usize,
    pub channel: usize,
}

/// A plan as read. `channels` holds the event of each channel, `pattern` is
/// the byte where the pattern starts.
#[derive(Clone, Debug, PartialEq, Eq)]
pub struct Plan {
    pub nodes: usize,
    pub kind: Kind,
    pub alphabet: u32,
    pub jobs: Vec<Job>,
    pub steps: Vec<Step>,
    pub channels: Vec<u32>,
    pub calls: Vec<Link>,
    pub accepts: Vec<Link>,
    pub items: Vec<Item>,
    pub pattern: usize,
}

/// The head: 54 bits.
struct Head {
    jobs: usize,
    nodes: usize,
    steps: usize,
    calls: usize,
    accepts: usize,
    channels: usize,
    kind: Kind,
    items: usize,
}

impl Plan {
    /// Reads a plan, or gives the number of the first refusal, 1 to 15 or 21,
    /// that applies.
    pub fn read(bytes: &[u8]) -> Result<Plan, u32> {
        // Refusal 1: fewer than 11 bytes, the length of head and alphabet.
        if bytes.len() < 11 {
            return Err(1);
        }
        let mut reader = BitReader::new(bytes);
        let head = Head::read(&mut reader).ok_or(1u32)?;
        // Refusal 2: a count outside its range.
        if !head.in_range() {
            return Err(2);
        }
        // Refusal 3: shorter than the sections before the pattern.
        let mut plan = Plan::read_sections(&mut reader, &head).ok_or(3u32)?;
        // Refusal 4: a filling bit before the pattern is one.
        if !reader.skip_filling() {
            return Err(4);
        }
        plan.pattern = reader.byte();
        plan.check_jobs()?;
        plan.check_steps()?;
        plan.items = read_items(&bytes[plan.pattern..], head.items, plan.alphabet)?;
        Ok(plan)
    }

    /// The job a node belongs to. For a node of no job, the number of jobs.
    pub fn job_of(&self, node: usize) -> usize {
        self.jobs
            .partition_point(|job| node.saturating_sub(job.first) >= job.size)
    }

    /// Alphabet, jobs, local steps, channels, calls and accepts, or `None`
    /// where the plan ends before they do.
    fn read_sections(reader: &mut BitReader, head: &Head) -> Option<Plan> {
        Some(Plan {
            nodes: head.nodes,
            kind: head.kind,
            alphabet: reader.events()?,
            jobs: read_jobs(reader, head.jobs)?,
            steps: read_each(reader, head.steps, read_step)?,
            channels: read_each(reader, head.channels, |reader| reader.take(5))?,
            calls: read_each(reader, head.calls, read_link)?,
            accepts: read_each(reader, head.accepts, read_link)?,
            items: Vec::new(),
            pattern: 0,
        })
    }

    fn check_jobs(&self) -> Result<(), u32> {
        // Refusal 5: a job of size 0, or sizes that do not sum to the nodes. It
        // "answers jobs 0 with nodes or nodes 0 with jobs" (order 4).
        let sum: usize = self.jobs.iter().map(|job| job.size).sum();
        if sum != self.nodes || self.jobs.iter().any(|job| job.size == 0) {
            return Err(5);
        }
        // Refusal 6: an entry or exit that is not a node of its job. It "also
        // answers an exit field that differs" in a standing job (order 5).
        let inside = |job: &Job| job.holds(job.entry) && job.holds(job.exit);
        let differs = |job: &Job| job.standing && job.exit != job.entry;
        if self.jobs.iter().any(|job| !inside(job) || differs(job)) {
            return Err(6);
        }
        // Refusal 21: "when there are jobs and all of them stand, right after
        // 6" (order 5).
        if !self.jobs.is_empty() && self.jobs.iter().all(|job| job.standing) {
            return Err(21);
        }
        Ok(())
    }

    /// Refusals 7 to 9, each over all local steps, calls and accepts.
    fn check_steps(&self) -> Result<(), u32> {
        let job_from = |from| self.jobs.get(self.job_of(from));
        // Refusal 7: the two ends are not nodes of one and the same job. Without
        // jobs no step, call or accept has such ends.
        let in_one_job = |(from, to)| job_from(from).is_some_and(|job| job.holds(to));
        if !self.ends().all(in_one_job) {
            return Err(7);
        }
        // Refusal 8: a step leaves the exit of its job. It "passes standing jobs
        // over" (order 5).
        let leaves_exit = |(from, _)| job_from(from).is_some_and(|job| job.end() == Some(from));
        if self.ends().any(leaves_exit) {
            return Err(8);
        }
        // Refusal 9: a channel not below the number of channels.
        let mut links = self.calls.iter().chain(&self.accepts);
        if links.any(|link| link.channel >= self.channels.len()) {
            return Err(9);
        }
        Ok(())
    }

    /// From-node and to-node of every local step, call and accept.
    fn ends(&self) -> impl Iterator<Item = (usize, usize)> + '_ {
        let steps = self.steps.iter().map(|step| (step.from, step.to));
        let links = self.calls.iter().chain(&self.accepts);
        steps.chain(links.map(|link| (link.from, link.to)))
    }
}

impl Head {
    fn read(reader: &mut BitReader) -> Option<Head> {
        Some(Head {
            jobs: reader.number(5)?,
            nodes: reader.number(9)?,
            steps: reader.number(9)?,
            calls: reader.number(8)?,
            accepts: reader.number(8)?,
            channels: reader.number(7)?,
            kind: match reader.take(1)? {
                0 => Kind::Every,
                _ => Kind::None,
            },
            items: reader.number(7)?,
        })
    }

    /// "Jobs 0 becomes legal, and nodes 0 with it" (order 4).
    fn in_range(&self) -> bool {
        self.jobs <= 16
            && self.nodes <= 256
            && self.steps <= 256
            && self.calls <= 128
            && self.accepts <= 128
            && self.channels <= 64
            && (1..=MOST_ITEMS).contains(&self.items)
    }
}

/// As many entries of one section as the head says.
fn read_each<T>(
    reader: &mut BitReader,
    count: usize,
    read: impl Fn(&mut BitReader) -> Option<T>,
) -> Option<Vec<T>> {
    (0..count).map(|_| read(reader)).collect()
}

/// Nodes are numbered from 0 through the jobs in turn. The last bit of a job's
/// record, "26 bits in all", is 1 for a standing job (order 5).
fn read_jobs(reader: &mut BitReader, count: usize) -> Option<Vec<Job>> {
    let mut jobs = Vec::with_capacity(count);
    let mut first = 0;
    for _ in 0..count {
        let job = Job {
            first,
            size: reader.number(9)?,
            entry: reader.number(8)?,
            exit: reader.number(8)?,
            standing: reader.take(1)? == 1,
        };
        first += job.size;
        jobs.push(job);
    }
    Some(jobs)
}

fn read_step(reader: &mut BitReader) -> Option<Step> {
    Some(Step {
        from: reader.number(8)?,
        to: reader.number(8)?,
        event: reader.take(5)?,
    })
}

fn read_link(reader: &mut BitReader) -> Option<Link> {
    Some(Link {
        from: reader.number(8)?,
        to: reader.number(8)?,
        channel: reader.number(6)?,
    })
}

/// Reads the items from `part`, the plan from its pattern byte on. Refusals
/// 10 to 13 item by item, then 14 and 15.
fn read_items(part: &[u8], count: usize, alphabet: u32) -> Result<Vec<Item>, u32> {
    let mut reader = BitReader::new(part);
    let mut items = Vec::with_capacity(count);
    let mut operands = 0;
    for _ in 0..count {
        let item = read_item(&mut reader, alphabet)?;
        operands = operands_after(item, operands)?;
        items.push(item);
    }
    // Refusal 14: the operands left are not exactly one.
    if operands != 1 {
        return Err(14);
    }
    // Refusal 15: a last filling bit is one, or a byte follows.
    if !reader.skip_filling() || reader.byte() != part.len() {
        return Err(15);
    }
    Ok(items)
}

fn read_item(reader: &mut BitReader, alphabet: u32) -> Result<Item, u32> {
    // Refusal 10: the bytes end inside the item.
    match reader.take(3).ok_or(10u32)? {
        0 => Ok(Item::Empty),
        1 => {
            let events = reader.events().ok_or(10u32)?;
            // Refusal 12: an event outside the alphabet.
            if events & !alphabet != 0 {
                return Err(12);
            }
            Ok(Item::Events(events))
        }
        2 => Ok(Item::Sequence),
        3 => Ok(Item::Choice),
        4 => Ok(Item::Star),
        // Refusal 11: the kind is 5, 6 or 7.
        _ => Err(11),
    }
}

/// The number of operands after an item. Refusal 13 where it finds too few.
fn operands_after(item: Item, operands: usize) -> Result<usize, u32> {
    match item {
        Item::Empty | Item::Events(_) => Ok(operands + 1),
        Item::Sequence | Item::Choice if operands >= 2 => Ok(operands - 1),
        Item::Star if operands >= 1 => Ok(operands),
        _ => Err(13),
    }
}

//! Safe calls of the proved verifier.
//!
//! The proved functions ask nothing of their caller but what Rust's slices already are: valid, and apart where written to.
use std::ops::Range;

/// The values of a verdict.
#[derive(Clone, Copy, Debug, PartialEq, Eq)]
pub struct Counts {
    pub states: u32,
    pub meetings: u32,
    pub ordering: u32,
    pub pairs: u32,
    pub fill: u32,
    /// What the exits of jobs that do not stand have in common, state 0 where there are no jobs; state s has weight 2^s.
    pub final_set: u64,
}

/// The answer to a plan: the number of the first refusal that applies, or a verdict.
#[derive(Clone, Copy, Debug, PartialEq, Eq)]
pub enum Answer {
    Refused(u32),
    Verified(Counts),
    Inconclusive(Counts),
}

/// The places for a verdict as the library writes them: 1 for verified or 0 for inconclusive, then the counts in their order.
pub type Values = [u64; 7];

extern "C" {
    fn traceflow_judge(
        plan: *const u8,
        plan_bytes: usize,
        row: *mut u64,
        row_places: usize,
        counts: *mut Values,
    ) -> u32;
    fn traceflow_judge_text(
        plan: *const u8,
        plan_bytes: usize,
        text: *const u8,
        text_bytes: usize,
        row: *mut u64,
        row_places: usize,
        counts: *mut Values,
    ) -> u32;
    fn traceflow_pattern_part(plan: *const u8, plan_bytes: usize, place: *mut [usize; 2]);
    fn traceflow_tables(
        plan: *const u8,
        plan_bytes: usize,
        counts: *mut [usize; 9],
        size: *mut [u16; 16],
        entry: *mut [u8; 16],
        exit: *mut [u8; 16],
        standing: *mut [u8; 16],
        event: *mut [u8; 64],
        arcs: *mut [u32; 512],
        kinds: *mut [u8; 64],
        sets: *mut [u32; 64],
    ) -> u32;
    fn traceflow_automaton(
        plan: *const u8,
        plan_bytes: usize,
        values: *mut [u64; 2],
        states: *mut [u64; 64],
        moves: *mut [[u8; 32]; 64],
    ) -> u32;
}

/// Judges a plan. On a verdict the first places of the row, one a node, hold the sets, and later places are as they were; on a
/// refusal the whole row is. A row of 256 places is enough for every plan; a plan without jobs needs none.
pub fn judge(plan: &[u8], row: &mut [u64]) -> Answer {
    judge_by(plan, None, row)
}

/// Judges a plan as `judge` does, by a pattern typed as text in place of its own.
pub fn judge_text(plan: &[u8], text: &[u8], row: &mut [u64]) -> Answer {
    judge_by(plan, Some(text), row)
}

/// Judges a plan by a text, or where there is none by its own pattern.
pub fn judge_by(plan: &[u8], text: Option<&[u8]>, row: &mut [u64]) -> Answer {
    let mut values = [0; 7];
    let refused = judge_into(plan, text, row, &mut values);
    Answer::of(refused, &values)
}

/// Calls the library as C does. Gives 0, with the sets in the row and the verdict in `values`; or the number of the first refusal,
/// with both as they were.
pub fn judge_into(plan: &[u8], text: Option<&[u8]>, row: &mut [u64], values: &mut Values) -> u32 {
    let (plan, plan_bytes) = (plan.as_ptr(), plan.len());
    let (row, places) = (row.as_mut_ptr(), row.len());
    // SAFETY: each pointer is that of a live slice or array with the length beside it, and `row` and `values` are borrowed alone.
    match text {
        None => unsafe { traceflow_judge(plan, plan_bytes, row, places, values) },
        Some(text) => unsafe {
            let (text, text_bytes) = (text.as_ptr(), text.len());
            traceflow_judge_text(plan, plan_bytes, text, text_bytes, row, places, values)
        },
    }
}

impl Answer {
    /// The answer that `judge_into` tells.
    pub fn of(refused: u32, values: &Values) -> Answer {
        if refused != 0 {
            return Answer::Refused(refused);
        }
        // The counts are numbers of 32 bits in the proved code.
        let [verified, states, meetings, ordering, pairs, fill, final_set] = *values;
        let counts = Counts {
            states: states as u32,
            meetings: meetings as u32,
            ordering: ordering as u32,
            pairs: pairs as u32,
            fill: fill as u32,
            final_set,
        };
        if verified == 1 {
            Answer::Verified(counts)
        } else {
            Answer::Inconclusive(counts)
        }
    }
}

/// Where the pattern's part of a plan is in it; `0..0` where one of the refusals 1 to 16 or 21 applies to it under its own pattern.
pub fn pattern_part(plan: &[u8]) -> Range<usize> {
    let mut place = [0; 2];
    // SAFETY: as in `judge_into`.
    unsafe { traceflow_pattern_part(plan.as_ptr(), plan.len(), &mut place) };
    let [first, bytes] = place;
    first..first + bytes
}

/// What a plan asks of its complete runs: that every one, or that none, spells a string of the pattern.
#[derive(Clone, Copy, Debug, PartialEq, Eq)]
pub enum Kind {
    Every,
    None,
}

/// A job: its nodes are `first` to `first + size - 1`. The exit of a standing job repeats its entry and ends nothing.
#[derive(Clone, Copy, Debug, PartialEq, Eq)]
pub struct Job {
    pub first: usize,
    pub size: usize,
    pub entry: usize,
    pub exit: usize,
    pub standing: bool,
}

/// A local step, whose label is its event (0 is a quiet step); or a call or an accept, whose label is its channel.
#[derive(Clone, Copy, Debug, PartialEq, Eq)]
pub struct Arc {
    pub from: usize,
    pub to: usize,
    pub label: usize,
}

/// An item of a pattern in postfix form. In a set event e has weight 2^e.
#[derive(Clone, Copy, Debug, PartialEq, Eq)]
pub enum Item {
    Empty,
    Events(u32),
    Sequence,
    Choice,
    Star,
}

/// What the bytes of a plan hold.
#[derive(Clone, Debug, PartialEq, Eq)]
pub struct Plan {
    pub nodes: usize,
    pub kind: Kind,
    /// The watched events; event e has weight 2^e.
    pub alphabet: u32,
    pub jobs: Vec<Job>,
    pub steps: Vec<Arc>,
    /// The event of each channel, 0 where it gives none.
    pub channels: Vec<usize>,
    pub calls: Vec<Arc>,
    pub accepts: Vec<Arc>,
    pub items: Vec<Item>,
}

/// The automaton of a plan's own pattern.
#[derive(Clone, Debug, PartialEq, Eq)]
pub struct Automaton {
    /// Each state as a set of positions: 0 is the beginning, and the sets of events in the pattern count from 1; position p has weight 2^p.
    pub states: Vec<u64>,
    /// For each state the one to which each event moves it; events that are not watched leave it.
    pub moves: Vec<[u8; 32]>,
    /// The states in which a string of the pattern may end; state s has weight 2^s.
    pub accepting: u64,
}

/// The lent arrays for the tables of a plan, as the library writes them; places that the plan does not need hold 0.
#[derive(Clone, Debug, PartialEq, Eq)]
pub struct Tables {
    /// Jobs, nodes, local steps, calls, accepts, channels, kind, items, and the alphabet.
    pub counts: [usize; 9],
    pub size: [u16; 16],
    pub entry: [u8; 16],
    pub exit: [u8; 16],
    pub standing: [u8; 16],
    /// The event of each channel.
    pub event: [u8; 64],
    /// Local steps, calls from 256 on, accepts from 384 on; each is from + 256 × to + 65,536 × label.
    pub arcs: [u32; 512],
    pub kinds: [u8; 64],
    pub sets: [u32; 64],
}

/// The lent arrays for an automaton, as the library writes them; behind the last state `states` holds 0 and each row of `moves` its own number.
#[derive(Clone, Debug, PartialEq, Eq)]
pub struct Property {
    /// How many states there are, and the accepting ones.
    pub values: [u64; 2],
    pub states: [u64; 64],
    pub moves: [[u8; 32]; 64],
}

impl Tables {
    fn jobs(&self, count: usize) -> Vec<Job> {
        let mut first = 0;
        let mut jobs = Vec::new();
        for j in 0..count {
            let size = usize::from(self.size[j]);
            jobs.push(Job {
                first,
                size,
                entry: self.entry[j].into(),
                exit: self.exit[j].into(),
                standing: self.standing[j] == 1,
            });
            first += size;
        }
        jobs
    }

    /// The arcs that stand from a place on.
    fn arcs(&self, place: usize, count: usize) -> Vec<Arc> {
        let words = self.arcs[place..place + count].iter();
        words.map(|&word| Arc::of(word)).collect()
    }

    fn items(&self, count: usize) -> Vec<Item> {
        let items = self.kinds.iter().zip(self.sets).take(count);
        items.map(|(&kind, set)| Item::of(kind, set)).collect()
    }

    fn plan(&self) -> Plan {
        let [jobs, nodes, steps, calls, accepts, channels, kind, items, alphabet] = self.counts;
        Plan {
            nodes,
            kind: if kind == 0 { Kind::Every } else { Kind::None },
            alphabet: alphabet as u32,
            jobs: self.jobs(jobs),
            steps: self.arcs(0, steps),
            channels: self.event[..channels].iter().map(|&e| e.into()).collect(),
            calls: self.arcs(256, calls),
            accepts: self.arcs(384, accepts),
            items: self.items(items),
        }
    }
}

impl Arc {
    /// The arc of a word: from + 256 × to + 65,536 × label.
    fn of(word: u32) -> Arc {
        Arc {
            from: (word % 256) as usize,
            to: (word / 256 % 256) as usize,
            label: (word / 65536) as usize,
        }
    }
}

impl Item {
    fn of(kind: u8, set: u32) -> Item {
        match kind {
            0 => Item::Empty,
            1 => Item::Events(set),
            2 => Item::Sequence,
            3 => Item::Choice,
            _ => Item::Star,
        }
    }
}

/// What the bytes of a plan hold, or the number of the first of the refusals 1 to 15 and 21 that applies.
pub fn tables(plan: &[u8]) -> Result<Plan, u32> {
    let mut t = Tables {
        counts: [0; 9],
        size: [0; 16],
        entry: [0; 16],
        exit: [0; 16],
        standing: [0; 16],
        event: [0; 64],
        arcs: [0; 512],
        kinds: [0; 64],
        sets: [0; 64],
    };
    match tables_into(plan, &mut t) {
        0 => Ok(t.plan()),
        n => Err(n),
    }
}

/// Calls the library as C does. Gives 0, with the tables in the arrays; or the number of the first refusal, with all as they were.
pub fn tables_into(plan: &[u8], t: &mut Tables) -> u32 {
    // SAFETY: as in `judge_into`; the arrays are fields of one value, apart from each other.
    unsafe {
        traceflow_tables(
            plan.as_ptr(),
            plan.len(),
            &mut t.counts,
            &mut t.size,
            &mut t.entry,
            &mut t.exit,
            &mut t.standing,
            &mut t.event,
            &mut t.arcs,
            &mut t.kinds,
            &mut t.sets,
        )
    }
}

/// The automaton of a plan's own pattern, or the number of the first of the refusals 1 to 16 and 21 that applies.
pub fn automaton(plan: &[u8]) -> Result<Automaton, u32> {
    let mut p = Property {
        values: [0; 2],
        states: [0; 64],
        moves: [[0; 32]; 64],
    };
    match automaton_into(plan, &mut p) {
        0 => Ok(p.automaton()),
        n => Err(n),
    }
}

/// Calls the library as C does. Gives 0, with the automaton in the arrays; or the number of the first refusal, with all as they were.
pub fn automaton_into(plan: &[u8], p: &mut Property) -> u32 {
    let (plan, bytes) = (plan.as_ptr(), plan.len());
    // SAFETY: as in `tables_into`.
    unsafe { traceflow_automaton(plan, bytes, &mut p.values, &mut p.states, &mut p.moves) }
}

impl Property {
    fn automaton(&self) -> Automaton {
        let [count, accepting] = self.values;
        let count = count as usize;
        Automaton {
            states: self.states[..count].to_vec(),
            moves: self.moves[..count].to_vec(),
            accepting,
        }
    }
}

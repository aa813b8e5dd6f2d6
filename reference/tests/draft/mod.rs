//! Plans written for the tests.

// No test file uses all of this.
#![allow(dead_code)]

use reference::{judge, judge_text, pattern_part, Answer, Counts, Item};

/// Plan P as printed, its bytes `04 20` made `02 10` (order 5).
pub const P: [u8; 22] = [
    0x08, 0x08, 0x02, 0x00, 0x00, 0x00, 0x06, 0x00, 0x00, 0x00, 0x00, 0x08, 0x00, 0x04, 0x00, 0x02,
    0x10, 0x30, 0x00, 0x00, 0x00, 0x00,
];

pub const EVERY: u64 = 0;
pub const NONE: u64 = 1;

/// What stands in the places of a row before a plan is judged.
pub const UNTOUCHED: u64 = 0xDEAD;

/// Numbers of places of the rows lent.
const ROWS: [usize; 5] = [0, 1, 2, 256, 300];

/// Writes fields, the most significant bit first.
#[derive(Default)]
struct BitWriter {
    bytes: Vec<u8>,
    used: usize,
}

impl BitWriter {
    fn put(&mut self, width: usize, value: u64) {
        for bit in (0..width).rev() {
            if self.used.is_multiple_of(8) {
                self.bytes.push(0);
            }
            if value >> bit & 1 == 1 {
                self.bytes[self.used / 8] |= 0x80 >> (self.used % 8);
            }
            self.used += 1;
        }
    }

    /// 31 bits, the first for event 1 and the last for event 31. Event e has
    /// weight 2^e.
    fn put_events(&mut self, events: u64) {
        for event in 1..=31 {
            self.put(1, events >> event & 1);
        }
    }

    /// The next field starts on a new byte.
    fn fill(&mut self) {
        self.used = 8 * self.bytes.len();
    }
}

/// A set of events or states; member m has weight 2^m.
pub fn set(members: &[u64]) -> u64 {
    members.iter().fold(0, |set, member| set | 1 << member)
}

pub fn events(events: &[u64]) -> Item {
    Item::Events(set(events) as u32)
}

/// A plan to be written. Jobs are size, entry, exit; steps are from, to,
/// event; calls and accepts are from, to, channel. The jobs whose numbers are
/// in `standing`, from 0 on, are standing jobs (order 5).
#[derive(Clone, Debug)]
pub struct Draft {
    pub kind: u64,
    pub alphabet: Vec<u64>,
    pub jobs: Vec<[u64; 3]>,
    pub standing: Vec<usize>,
    pub steps: Vec<[u64; 3]>,
    pub channels: Vec<u64>,
    pub calls: Vec<[u64; 3]>,
    pub accepts: Vec<[u64; 3]>,
    pub items: Vec<Item>,
}

impl Draft {
    /// Unless said, one job of two nodes, entry 0, exit 1, kind every.
    pub fn new(alphabet: &[u64], items: &[Item]) -> Draft {
        Draft {
            kind: EVERY,
            alphabet: alphabet.to_vec(),
            jobs: vec![[2, 0, 1]],
            standing: vec![],
            steps: vec![],
            channels: vec![],
            calls: vec![],
            accepts: vec![],
            items: items.to_vec(),
        }
    }

    /// A plan without jobs (order 4).
    pub fn no_jobs(alphabet: &[u64], items: &[Item]) -> Draft {
        Draft {
            jobs: vec![],
            ..Draft::new(alphabet, items)
        }
    }

    pub fn p() -> Draft {
        Draft {
            steps: vec![[0, 1, 1]],
            ..Draft::new(&[1], &[events(&[1])])
        }
    }

    /// The two jobs from the example of the source document.
    pub fn two_jobs() -> Draft {
        let pattern = [
            events(&[1]),
            events(&[2]),
            Item::Sequence,
            events(&[3]),
            Item::Sequence,
        ];
        Draft {
            jobs: vec![[3, 0, 2], [3, 3, 5]],
            steps: vec![[0, 1, 1], [4, 5, 3]],
            channels: vec![2],
            calls: vec![[1, 2, 0]],
            accepts: vec![[3, 4, 0]],
            ..Draft::new(&[1, 2, 3], &pattern)
        }
    }

    /// Star of {1,2}, then {1}, then {1,2} some times in sequence: 33 states
    /// for four times, 65 for five.
    pub fn many_states(times: usize) -> Draft {
        let both = events(&[1, 2]);
        let mut items = vec![both, Item::Star, events(&[1]), Item::Sequence];
        for _ in 0..times {
            items.extend([both, Item::Sequence]);
        }
        Draft::new(&[1, 2], &items)
    }

    fn nodes(&self) -> u64 {
        self.jobs.iter().map(|job| job[0]).sum()
    }

    pub fn bytes(&self) -> Vec<u8> {
        self.bytes_with_nodes(self.nodes())
    }

    pub fn bytes_with_nodes(&self, nodes: u64) -> Vec<u8> {
        let mut writer = BitWriter::default();
        writer.put(5, self.jobs.len() as u64);
        writer.put(9, nodes);
        writer.put(9, self.steps.len() as u64);
        writer.put(8, self.calls.len() as u64);
        writer.put(8, self.accepts.len() as u64);
        writer.put(7, self.channels.len() as u64);
        writer.put(1, self.kind);
        writer.put(7, self.items.len() as u64);
        writer.put_events(set(&self.alphabet));
        for (number, job) in self.jobs.iter().enumerate() {
            put_each(&mut writer, &[*job], [9, 8, 8]);
            writer.put(1, self.standing.contains(&number).into());
        }
        put_each(&mut writer, &self.steps, [8, 8, 5]);
        for &event in &self.channels {
            writer.put(5, event);
        }
        put_each(&mut writer, &self.calls, [8, 8, 6]);
        put_each(&mut writer, &self.accepts, [8, 8, 6]);
        writer.fill();
        for &item in &self.items {
            match item {
                Item::Empty => writer.put(3, 0),
                Item::Events(events) => {
                    writer.put(3, 1);
                    writer.put_events(events.into());
                }
                Item::Sequence => writer.put(3, 2),
                Item::Choice => writer.put(3, 3),
                Item::Star => writer.put(3, 4),
            }
        }
        writer.bytes
    }

    pub fn judge(&self) -> (Answer, Vec<u64>) {
        self.judge_by(judge)
    }

    /// Judges the plan with a row one place too long, which stays unchanged,
    /// and gives the sets.
    pub fn judge_by(&self, judge: impl Fn(&[u8], &mut [u64]) -> Answer) -> (Answer, Vec<u64>) {
        let nodes = self.nodes() as usize;
        let mut row = vec![UNTOUCHED; nodes + 1];
        let answer = judge(&self.bytes(), &mut row);
        assert_eq!(row.pop(), Some(UNTOUCHED));
        (answer, row)
    }
}

fn put_each(writer: &mut BitWriter, entries: &[[u64; 3]], widths: [usize; 3]) {
    for entry in entries {
        for (&value, width) in entry.iter().zip(widths) {
            writer.put(width, value);
        }
    }
}

pub fn counts(answer: Answer) -> Counts {
    match answer {
        Answer::Verified(counts) | Answer::Inconclusive(counts) => counts,
        Answer::Refused(number) => panic!("refused {number}"),
    }
}

/// The answer with rows of no place and of some. None of their places changes.
fn answer(plan: &[u8], judge: impl Fn(&[u8], &mut [u64]) -> Answer) -> Answer {
    let answers = ROWS.map(|places| {
        let mut row = vec![UNTOUCHED; places];
        let answer = judge(plan, &mut row);
        assert!(row.iter().all(|&place| place == UNTOUCHED));
        answer
    });
    assert_eq!(answers, [answers[0]; ROWS.len()]);
    answers[0]
}

pub fn judged(plan: &[u8]) -> Answer {
    answer(plan, judge)
}

pub fn typed(plan: &[u8], text: &str) -> Answer {
    answer(plan, |plan, row| judge_text(plan, text.as_bytes(), row))
}

/// A refusal of 1 to 15 or 21, under a text too, be it right or wrong.
pub fn assert_refused(plan: &[u8], number: u32) {
    assert_eq!(judged(plan), Answer::Refused(number));
    for text in ["0", "", "z"] {
        assert_eq!(typed(plan, text), Answer::Refused(number), "{text:?}");
    }
    assert_eq!(pattern_part(plan), 0..0);
}

/// A plan with one byte changed in these bits.
pub fn turned(plan: &[u8], byte: usize, bits: u8) -> Vec<u8> {
    let mut turned = plan.to_vec();
    turned[byte] ^= bits;
    turned
}

/// A local step, a call and an accept, each alone. One channel.
pub fn with_an_arc(draft: &Draft, arc: [u64; 3]) -> [Draft; 3] {
    let plain = Draft {
        channels: vec![0],
        ..draft.clone()
    };
    let mut drafts = [plain.clone(), plain.clone(), plain];
    drafts[0].steps = vec![arc];
    drafts[1].calls = vec![arc];
    drafts[2].accepts = vec![arc];
    drafts
}

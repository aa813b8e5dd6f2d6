//! Bytes in words, and the refusals in words.
mod run;

use run::{run, Answer};

/// Bytes of fields, each a value and its width in bits, the most significant bit first; zero bits fill the last byte.
fn bytes(fields: &[(u32, usize)]) -> Vec<u8> {
    let bits = fields
        .iter()
        .flat_map(|&(value, width)| (0..width).rev().map(move |bit| value >> bit & 1));
    let bits: Vec<u32> = bits.collect();
    let byte = |bits: &[u32]| {
        (0..8).fold(0, |byte, bit| {
            byte << 1 | bits.get(bit).copied().unwrap_or(0) as u8
        })
    };
    bits.chunks(8).map(byte).collect()
}

/// A plan in the fields of its sections.
struct Draft {
    /// Jobs, nodes, steps, calls, accepts, channels, kind and items.
    head: [u32; 8],
    /// Event e has weight 2^e.
    alphabet: u32,
    /// Size, entry, exit, standing.
    jobs: Vec<[u32; 4]>,
    /// From, to, event.
    steps: Vec<[u32; 3]>,
    channels: Vec<u32>,
    /// From, to, channel: calls, then accepts.
    links: Vec<[u32; 3]>,
    items: Vec<(u32, usize)>,
}

/// The set of some events as it stands in the bytes: event 1 is the first of 31 bits.
fn set(events: &[u32]) -> u32 {
    events.iter().map(|event| 1 << (31 - event)).sum()
}

const EMPTY: (u32, usize) = (0, 3);
const SEQUENCE: (u32, usize) = (2, 3);
const CHOICE: (u32, usize) = (3, 3);
const STAR: (u32, usize) = (4, 3);
const ONE_OF: (u32, usize) = (1, 3);

/// The items of a set of events.
fn one_of(events: &[u32]) -> [(u32, usize); 2] {
    [ONE_OF, (set(events), 31)]
}

impl Draft {
    /// One job that goes from node 0 to node 1 by event 1, under the pattern of event 1.
    fn smallest() -> Draft {
        Draft {
            head: [1, 2, 1, 0, 0, 0, 0, 1],
            alphabet: set(&[1]),
            jobs: vec![[2, 0, 1, 0]],
            steps: vec![[0, 1, 1]],
            channels: Vec::new(),
            links: Vec::new(),
            items: one_of(&[1]).to_vec(),
        }
    }

    fn bytes(&self) -> Vec<u8> {
        let mut fields: Vec<(u32, usize)> = self
            .head
            .into_iter()
            .zip([5, 9, 9, 8, 8, 7, 1, 7])
            .collect();
        fields.push((self.alphabet, 31));
        fields.extend(
            self.jobs
                .iter()
                .flat_map(|job| job.iter().copied().zip([9, 8, 8, 1])),
        );
        fields.extend(
            self.steps
                .iter()
                .flat_map(|step| step.iter().copied().zip([8, 8, 5])),
        );
        fields.extend(self.channels.iter().map(|&event| (event, 5)));
        fields.extend(
            self.links
                .iter()
                .flat_map(|link| link.iter().copied().zip([8, 8, 6])),
        );
        let mut plan = bytes(&fields);
        plan.extend(bytes(&self.items));
        plan
    }
}

/// The words of bytes, after a look whether they pack to `packed`.
fn unpacked(plan: &[u8], packed: &[u8]) -> String {
    let answer = run(&["unpack", "-"], plan);
    assert_eq!((answer.status, answer.notes.as_str()), (0, ""));
    let words = String::from_utf8(answer.output).expect("text");
    let again = run(&["pack", "-", "-o", "-"], words.as_bytes());
    assert_eq!(
        (again.status, again.output.as_slice()),
        (0, packed),
        "{words}{}",
        again.notes
    );
    words
}

#[test]
fn the_smallest_plan() {
    let plan = Draft::smallest().bytes();
    let readme = b"\x08\x08\x02\0\0\0\x06\0\0\0\0\x08\0\x04\0\x02\x10\x30\0\0\0\0";
    assert_eq!(plan, readme);
    let words = "\
plan unpacked

event e1

job job-0 from n0 to n1
  n0 gives e1 then n1

rule pattern
  every e1
";
    assert_eq!(unpacked(&plan, &plan), words);
}

/// Services, quiet steps, channels without an event, unused channels, nodes that nothing mentions, watched events that the pattern does
/// not name, kind "none".
#[test]
fn a_plan_with_everything() {
    let plan = Draft {
        head: [3, 8, 3, 2, 1, 3, 1, 12],
        alphabet: set(&[1, 2, 5, 7]),
        jobs: vec![[3, 1, 0, 0], [2, 3, 3, 1], [3, 5, 6, 0]],
        steps: vec![[1, 2, 0], [2, 2, 4], [3, 3, 0]],
        channels: vec![0, 2, 0],
        links: vec![[2, 0, 1], [5, 6, 1], [3, 4, 1]],
        items: [
            &one_of(&[1, 2])[..],
            &one_of(&[])[..],
            &[EMPTY, CHOICE, CHOICE, STAR],
            &one_of(&[2])[..],
            &one_of(&[1])[..],
            &one_of(&[2])[..],
            &[SEQUENCE, SEQUENCE, SEQUENCE],
        ]
        .concat(),
    };
    let plan = plan.bytes();
    let words = "\
plan unpacked

event e1 e2 e3 e4 e5 e6 e7
channel c0
channel c1 gives e2
channel c2

job job-0 from n1 to n0
  nodes n0 n1 n2
  n1 then n2 gives e4 then n2 calls c1 then n0

service job-1 from n3
  n3 then n3 accepts c1 then n4

job job-2 from n5 to n6
  nodes n5 n6 n7
  n5 calls c1 then n6

rule pattern
  watch e5 e7
  never ([e1 e2] | []?)* ; (e2 ; (e1 ; e2))
";
    assert_eq!(unpacked(&plan, &plan), words);
}

/// The moves of two jobs in turn: the words say that they stand in another order, and pack to the moves job by job.
#[test]
fn moves_that_are_not_grouped() {
    let mut plan = Draft {
        head: [2, 5, 4, 0, 0, 0, 0, 1],
        jobs: vec![[3, 0, 2, 0], [2, 3, 4, 0]],
        steps: vec![[3, 4, 1], [0, 1, 1], [3, 3, 0], [1, 2, 0]],
        ..Draft::smallest()
    };
    let mixed = plan.bytes();
    plan.steps = vec![[0, 1, 1], [1, 2, 0], [3, 4, 1], [3, 3, 0]];
    let words = "\
# the moves stand in another order here than in the bytes
plan unpacked

event e1

job job-0 from n0 to n2
  n0 gives e1 then n1 then n2

job job-1 from n3 to n4
  n3 gives e1 then n4
  n3 then n3

rule pattern
  every e1
";
    assert_eq!(unpacked(&mixed, &plan.bytes()), words);
}

/// At most four moves stand in a line, and a job without moves has none.
#[test]
fn long_chains() {
    let plan = Draft {
        head: [2, 8, 6, 0, 0, 0, 0, 1],
        jobs: vec![[7, 0, 6, 0], [1, 7, 7, 0]],
        steps: (0..6).map(|node| [node, node + 1, 0]).collect(),
        alphabet: 0,
        items: vec![EMPTY],
        ..Draft::smallest()
    };
    let plan = plan.bytes();
    let words = "\
plan unpacked

job job-0 from n0 to n6
  n0 then n1 then n2 then n3 then n4
  n4 then n5 then n6

job job-1 from n7 to n7

rule pattern
  every 0
";
    assert_eq!(unpacked(&plan, &plan), words);
}

/// A call that leads on from the last step comes before the next step.
#[test]
fn moves_that_lead_on() {
    let plan = Draft {
        head: [1, 4, 2, 1, 0, 1, 0, 1],
        jobs: vec![[4, 0, 3, 0]],
        steps: vec![[0, 2, 0], [1, 3, 1]],
        channels: vec![0],
        links: vec![[2, 1, 0]],
        ..Draft::smallest()
    };
    let plan = plan.bytes();
    let words = "\
plan unpacked

event e1
channel c0

job job-0 from n0 to n3
  nodes n0 n1 n2 n3
  n0 then n2 calls c0 then n1 gives e1 then n3

rule pattern
  every e1
";
    assert_eq!(unpacked(&plan, &plan), words);
}

/// A plan that breaks one rule of the format, for each refusal.
#[test]
fn refusals_in_words() {
    let with = |change: &dyn Fn(&mut Draft)| {
        let mut draft = Draft::smallest();
        change(&mut draft);
        draft.bytes()
    };
    let whole = Draft::smallest().bytes();
    let mut filled = whole.clone();
    filled[16] |= 1;
    let mut late = whole.clone();
    late[21] |= 1;
    let cases = [
        (whole[..10].to_vec(), 1, "the plan has fewer than 11 bytes"),
        (
            with(&|plan| plan.head[0] = 17),
            2,
            "a count of the head is outside its range",
        ),
        (
            whole[..16].to_vec(),
            3,
            "the plan is shorter than its sections before the pattern",
        ),
        (filled, 4, "a filling bit before the pattern is one"),
        (
            with(&|plan| plan.head[1] = 3),
            5,
            "a job has no nodes, or the jobs do not have all nodes together",
        ),
        (
            with(&|plan| plan.jobs[0][1] = 2),
            6,
            "an entry or exit is not a node of its job, or a service's exit is not its entry",
        ),
        (
            with(&|plan| plan.jobs[0] = [2, 0, 0, 1]),
            21,
            "all jobs are services, and no run can be complete",
        ),
        (
            with(&|plan| plan.steps[0][1] = 2),
            7,
            "a step's two ends are not nodes of one and the same job",
        ),
        (
            with(&|plan| plan.steps[0] = [1, 0, 1]),
            8,
            "a step leaves the exit of its job",
        ),
        (
            with(&|plan| {
                plan.head[3] = 1;
                plan.links.push([0, 1, 0]);
            }),
            9,
            "a call or accept names a channel that there is not",
        ),
        (
            whole[..21].to_vec(),
            10,
            "the bytes end inside an item of the pattern",
        ),
        (
            with(&|plan| plan.items = vec![(5, 3)]),
            11,
            "an item of the pattern has a kind that there is not",
        ),
        (
            with(&|plan| plan.alphabet = 0),
            12,
            "a set of the pattern holds an event that is not watched",
        ),
        (
            with(&|plan| plan.items = vec![STAR]),
            13,
            "an operator of the pattern finds too few operands",
        ),
        (
            with(&|plan| {
                plan.head[7] = 2;
                plan.items = vec![EMPTY, EMPTY];
            }),
            14,
            "the pattern's items do not make one pattern",
        ),
        (
            late,
            15,
            "a last filling bit is one, or a byte follows the plan",
        ),
        (
            with(&too_many_states),
            16,
            "the pattern's automaton has more than 64 states",
        ),
    ];
    for (plan, number, words) in cases {
        let expected = Answer {
            status: 2,
            output: Vec::new(),
            notes: format!("<standard input>: refused {number}: {words}\n"),
        };
        assert_eq!(run(&["unpack", "-"], &plan), expected);
    }
}

/// Event 1 as the seventh event from the end: some 2^7 states.
fn too_many_states(plan: &mut Draft) {
    plan.alphabet = set(&[1, 2]);
    let any = one_of(&[1, 2]);
    let mut items = [&any[..], &[STAR], &one_of(&[1])[..], &[SEQUENCE]].concat();
    for _ in 0..6 {
        items.extend(any);
        items.push(SEQUENCE);
    }
    plan.head[7] = 16;
    plan.items = items;
}

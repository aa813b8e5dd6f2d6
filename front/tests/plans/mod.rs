//! Random plans in words, of all sizes up to the limits and with all that the notation has, and what they have to be read as.
#![allow(dead_code)]
use tuft::model::{Channel, Item, Job, Kind, Model, Move, Place, Rule};

/// Random numbers from a seed (splitmix64).
pub struct Random(u64);

impl Random {
    pub fn new(seed: u64) -> Random {
        Random(seed)
    }

    pub fn number(&mut self) -> u64 {
        self.0 = self.0.wrapping_add(0x9e37_79b9_7f4a_7c15);
        let mut n = self.0;
        n = (n ^ n >> 30).wrapping_mul(0xbf58_476d_1ce4_e5b9);
        n = (n ^ n >> 27).wrapping_mul(0x94d0_49bb_1331_11eb);
        n ^ n >> 31
    }

    /// A number from 0 to `most`.
    pub fn upto(&mut self, most: usize) -> usize {
        (self.number() % (most as u64 + 1)) as usize
    }

    /// True in one of so many cases.
    pub fn one_in(&mut self, cases: usize) -> bool {
        self.upto(cases - 1) == 0
    }

    pub fn pick<T: Clone>(&mut self, things: &[T]) -> T {
        things[self.upto(things.len() - 1)].clone()
    }

    pub fn shuffle<T>(&mut self, things: &mut [T]) {
        for i in (1..things.len()).rev() {
            things.swap(i, self.upto(i));
        }
    }
}

/// A file and the plan that it gives. The places of rules are left out: all are line 0, column 0.
pub struct Written {
    pub text: String,
    pub model: Model,
}

/// A random plan that reads without an error.
pub fn plan(random: &mut Random) -> Written {
    let mut writer = Writer::new(random);
    writer.events();
    writer.channels();
    writer.jobs();
    writer.rules();
    let text = writer.text();
    let model = writer.model;
    Written { text, model }
}

/// The model with the places of rules left out.
pub fn without_places(mut model: Model) -> Model {
    for rule in &mut model.rules {
        rule.place = Place::default();
    }
    model
}

/// A word of the text, and whether the line may end before it.
type Word = (String, bool);

struct Writer<'r> {
    random: &'r mut Random,
    /// Whether the plan is to be as large as it can be.
    large: bool,
    model: Model,
    /// Declarations, each with its lines. Only those of one kind stand in order.
    events: Vec<Vec<Vec<Word>>>,
    channels: Vec<Vec<Vec<Word>>>,
    jobs: Vec<Vec<Vec<Word>>>,
    rules: Vec<Vec<Vec<Word>>>,
    names: usize,
}

fn words(text: &str) -> Vec<Word> {
    text.split(' ')
        .map(|word| (word.to_string(), false))
        .collect()
}

fn may_break(word: impl Into<String>) -> Word {
    (word.into(), true)
}

const STEMS: [&str; 14] = [
    "a",
    "B",
    "_",
    "node",
    "hand-over",
    "Größe",
    "имя",
    "名",
    "x1-",
    "then_",
    "end",
    "jobs-",
    "ñ",
    "p-q_r",
];

impl<'r> Writer<'r> {
    fn new(random: &'r mut Random) -> Writer<'r> {
        let large = random.one_in(8);
        let mut writer = Writer {
            random,
            large,
            model: Model {
                name: String::new(),
                events: Vec::new(),
                channels: Vec::new(),
                jobs: Vec::new(),
                steps: Vec::new(),
                calls: Vec::new(),
                accepts: Vec::new(),
                rules: Vec::new(),
            },
            events: Vec::new(),
            channels: Vec::new(),
            jobs: Vec::new(),
            rules: Vec::new(),
            names: 0,
        };
        writer.model.name = writer.name();
        writer
    }

    /// A name that no other thing has, and no copy.
    fn name(&mut self) -> String {
        self.names += 1;
        let mut name = format!("{}{}", self.random.pick(&STEMS), self.names);
        if self.random.one_in(50) {
            let left = 61 - name.chars().count();
            name += &"z".repeat(left);
        }
        name
    }

    /// How many there are of something: few, or in large plans all that are possible.
    fn size(&mut self, most: usize) -> usize {
        let few = most.min(6);
        match self.random.upto(3) {
            0 if !self.large => self.random.upto(most),
            _ if self.large => most - self.random.upto(1).min(most),
            _ => self.random.upto(few),
        }
    }

    fn event(&mut self) -> usize {
        match self.model.events.len() {
            0 => 0,
            events => 1 + self.random.upto(events - 1),
        }
    }

    fn events(&mut self) {
        let most = self.size(31);
        while self.model.events.len() < most {
            let mut line = words("event");
            let left = most - self.model.events.len();
            for _ in 0..=self.random.upto(left - 1) {
                let name = self.name();
                line.push((name.clone(), false));
                self.model.events.push(name);
            }
            self.events.push(vec![line]);
        }
    }

    fn channels(&mut self) {
        let most = self.size(64);
        while self.model.channels.len() < most {
            let mut line = words("channel");
            let event = if self.random.one_in(3) {
                0
            } else {
                self.event()
            };
            let left = most - self.model.channels.len();
            for _ in 0..=self.random.upto(left.min(5) - 1) {
                let name = self.name();
                line.push((name.clone(), false));
                self.model.channels.push(Channel { name, event });
            }
            if event > 0 {
                line.extend(words("gives"));
                line.push((self.model.events[event - 1].clone(), false));
            }
            self.channels.push(vec![line]);
        }
    }

    fn nodes_left(&self) -> usize {
        let nodes: usize = self.model.jobs.iter().map(|job| job.nodes.len()).sum();
        256 - nodes
    }

    fn jobs(&mut self) {
        let most = self.size(16);
        while self.model.jobs.len() < most {
            let left = most - self.model.jobs.len();
            let copies = 1 + self.random.upto(left.min(4) - 1);
            let nodes_left = (self.nodes_left() - (left - copies)) / copies;
            let nodes = match self.large {
                true => (self.nodes_left() / left).clamp(1, nodes_left),
                false => 1 + self.random.upto(nodes_left.min(9) - 1),
            };
            // The last job ends, for one that does has to be there.
            let standing = left > copies && self.random.one_in(3);
            self.job(copies, nodes, standing);
        }
    }

    /// A job of so many copies, with so many nodes at most.
    fn job(&mut self, copies: usize, size: usize, standing: bool) {
        let (mut head, names) = self.job_head(copies, standing);
        let mut pool: Vec<String> = (0..size).map(|i| format!("n{i}")).collect();
        if self.random.one_in(2) {
            pool = (0..size).map(|_| self.name()).collect();
        }
        let (entry, exit) = (self.random.pick(&pool), self.random.pick(&pool));
        head.extend(words("from"));
        head.push((entry.clone(), false));
        if !standing {
            head.extend(words("to"));
            head.push((exit.clone(), false));
        }
        let exit = if standing { entry.clone() } else { exit };
        let mut body = Body {
            listed: self.random.one_in(2),
            nodes: vec![entry.clone()],
            lines: vec![head],
            moves: Vec::new(),
        };
        if body.listed {
            self.random.shuffle(&mut pool);
            body.nodes = pool.clone();
        }
        let leaves: Vec<String> = pool
            .iter()
            .filter(|node| standing || **node != exit)
            .cloned()
            .collect();
        self.chains(&mut body, &pool, &leaves, copies);
        body.mention(&exit);
        self.list_nodes(&mut body);
        self.copies(&body, names, standing, &entry, &exit);
        self.jobs.push(body.lines);
    }

    /// The first words of a job, and the names of its copies.
    fn job_head(&mut self, copies: usize, standing: bool) -> (Vec<Word>, Vec<String>) {
        let word = if standing { "service" } else { "job" };
        if copies > 1 && self.random.one_in(2) || copies == 1 && self.random.one_in(5) {
            let name = self.name();
            let head = words(&format!("{word} {name} times {copies}"));
            return (
                head,
                (1..=copies).map(|copy| format!("{name}-{copy}")).collect(),
            );
        }
        let names: Vec<String> = (0..copies).map(|_| self.name()).collect();
        let plural = if copies > 1 || self.random.one_in(5) {
            "s"
        } else {
            ""
        };
        (words(&format!("{word}{plural} {}", names.join(" "))), names)
    }

    /// Adds moves, in chains.
    fn chains(&mut self, body: &mut Body, pool: &[String], leaves: &[String], copies: usize) {
        if leaves.is_empty() {
            return;
        }
        let chains = match self.large {
            true => 2 * pool.len(),
            false => self.random.upto(pool.len() + 3),
        };
        for _ in 0..chains {
            let mut from = self.random.pick(leaves);
            let mut line: Vec<Word> = vec![(from.clone(), false)];
            for _ in 0..=self.random.upto(2) {
                let to = self.random.pick(pool);
                let Some((sort, label)) = self.label(body, copies) else {
                    break;
                };
                line.extend(self.move_words(sort, label));
                line.push(may_break(to.clone()));
                body.mention(&from);
                body.mention(&to);
                body.moves.push((sort, from, to.clone(), label));
                from = to;
                if !leaves.contains(&from) {
                    break;
                }
            }
            if line.len() > 1 {
                body.lines.push(line);
            }
        }
    }

    /// The sort and label of a move for which there is room: 0 a step, 1 a call, 2 an accept.
    fn label(&mut self, body: &Body, copies: usize) -> Option<(usize, usize)> {
        let sort = self.random.pick(&[0, 0, 1, 2]);
        let (used, most) = match sort {
            0 => (self.model.steps.len(), 256),
            1 => (self.model.calls.len(), 128),
            _ => (self.model.accepts.len(), 128),
        };
        let own = body.moves.iter().filter(|m| m.0 == sort).count();
        if used + (own + 1) * copies > most {
            return None;
        }
        let channels = self.model.channels.len();
        match sort {
            0 if self.random.one_in(3) => Some((0, 0)),
            0 => Some((0, self.event())),
            _ if channels == 0 => None,
            _ => Some((sort, self.random.upto(channels - 1))),
        }
    }

    fn move_words(&self, sort: usize, label: usize) -> Vec<Word> {
        let mut words = Vec::new();
        let (verb, name) = match sort {
            0 if label == 0 => return vec![may_break("then")],
            0 => ("gives", &self.model.events[label - 1]),
            1 => ("calls", &self.model.channels[label].name),
            _ => ("accepts", &self.model.channels[label].name),
        };
        words.push(may_break(verb));
        words.push(may_break(name.clone()));
        words.push(may_break("then"));
        words
    }

    /// Adds the lines that list the nodes, anywhere in the job.
    fn list_nodes(&mut self, body: &mut Body) {
        if !body.listed {
            return;
        }
        let split = self.random.upto(body.nodes.len() - 1);
        let (first, second) = body.nodes.split_at(split);
        let at = 1 + self.random.upto(body.lines.len() - 1);
        body.lines
            .insert(at, words(&format!("nodes {}", second.join(" "))));
        if !first.is_empty() {
            let at = 1 + self.random.upto(at - 1);
            body.lines
                .insert(at, words(&format!("nodes {}", first.join(" "))));
        }
    }

    /// Adds the copies of a job to the model.
    fn copies(&mut self, body: &Body, names: Vec<String>, standing: bool, entry: &str, exit: &str) {
        for name in names {
            let first = 256 - self.nodes_left();
            for (sort, from, to, label) in &body.moves {
                let moves = match sort {
                    0 => &mut self.model.steps,
                    1 => &mut self.model.calls,
                    _ => &mut self.model.accepts,
                };
                moves.push(Move {
                    from: first + body.number(from),
                    to: first + body.number(to),
                    label: *label,
                });
            }
            self.model.jobs.push(Job {
                name,
                standing,
                nodes: body.nodes.clone(),
                entry: body.number(entry),
                exit: body.number(exit),
            });
        }
    }

    fn rules(&mut self) {
        for _ in 0..self.random.upto(3) {
            let rule = self.rule();
            self.model.rules.push(rule);
        }
    }

    /// A rule that watches some of the events, of which its pattern names some.
    fn rule(&mut self) -> Rule {
        let events = self.model.events.len();
        let watched: Vec<usize> = (1..=events).filter(|_| !self.random.one_in(3)).collect();
        let alphabet = watched.iter().fold(0, |set, event| set | 1 << event);
        let budget = if self.large {
            64
        } else {
            1 + self.random.upto(30)
        };
        let mut pattern = self.pattern(budget, &watched, alphabet);
        if self.large {
            pattern = self.filled(pattern, &watched, alphabet);
        }
        let every = self.random.one_in(2);
        pattern.words.insert(
            0,
            (if every { "every" } else { "never" }.to_string(), false),
        );
        let name = self.name();
        let mut lines = vec![pattern.words];
        let mut unnamed: Vec<usize> = watched;
        unnamed.retain(|event| pattern.named >> event & 1 == 0 || self.random.one_in(4));
        while !unnamed.is_empty() {
            let mut line = words("watch");
            for event in unnamed.split_off(self.random.upto(unnamed.len() - 1)) {
                line.push((self.model.events[event - 1].clone(), false));
            }
            lines.insert(self.random.upto(lines.len()), line);
        }
        lines.insert(0, words(&format!("rule {name}")));
        self.rules.push(lines);
        Rule {
            name,
            place: Place::default(),
            kind: if every { Kind::Every } else { Kind::Never },
            alphabet,
            items: pattern.items,
        }
    }

    /// A pattern of at most so many items, and of one at least.
    fn pattern(&mut self, budget: usize, watched: &[usize], alphabet: u32) -> Pattern {
        match self.random.upto(9) {
            0..=3 if budget >= 3 => self.joined(budget, watched, alphabet),
            4 if budget >= 2 => self.repeated(budget - 1, "*", watched, alphabet),
            5 if budget >= 4 => self.repeated(budget / 2 - 1, "+", watched, alphabet),
            6 if budget >= 3 => self.repeated(budget - 2, "?", watched, alphabet),
            7 if budget >= 3 => self.times(budget, watched, alphabet),
            _ if budget >= 20 => self.joined(budget, watched, alphabet),
            _ => self.unit(watched, alphabet),
        }
    }

    /// Two patterns of at most so many items together.
    fn joined(&mut self, budget: usize, watched: &[usize], alphabet: u32) -> Pattern {
        let first = 1 + self.random.upto(budget - 3);
        let one = self.pattern(first, watched, alphabet);
        let other = self.pattern(budget - 1 - first, watched, alphabet);
        self.join(one, other)
    }

    /// Two patterns with `;` or `|` between them.
    fn join(&mut self, one: Pattern, other: Pattern) -> Pattern {
        let (sign, item, level) = match self.random.one_in(2) {
            true => (";", Item::Sequence, 1),
            false => ("|", Item::Choice, 0),
        };
        // Both signs group to the left, so that the right side takes brackets where it is of the same kind.
        let mut one = self.bracketed(one, level);
        let other = self.bracketed(other, level + 1);
        one.words.push(may_break(sign));
        one.words.extend(other.words);
        one.items.extend(other.items);
        one.items.push(item);
        Pattern {
            level,
            named: one.named | other.named,
            ..one
        }
    }

    /// The pattern with more units, up to 64 items.
    fn filled(&mut self, mut pattern: Pattern, watched: &[usize], alphabet: u32) -> Pattern {
        while pattern.items.len() < 63 {
            let unit = self.unit(watched, alphabet);
            pattern = self.join(pattern, unit);
        }
        if pattern.items.len() < 64 {
            pattern = self.repetition(pattern, "*");
        }
        pattern
    }

    fn repeated(&mut self, budget: usize, sign: &str, watched: &[usize], alphabet: u32) -> Pattern {
        let inner = self.pattern(budget, watched, alphabet);
        self.repetition(inner, sign)
    }

    /// The pattern with `*`, `+` or `?` behind it.
    fn repetition(&mut self, inner: Pattern, sign: &str) -> Pattern {
        let mut inner = self.bracketed(inner, 2);
        inner.words.push(may_break(sign));
        let once = inner.items.clone();
        match sign {
            "*" => inner.items.push(Item::Star),
            "+" => {
                inner.items.extend(once);
                inner.items.extend([Item::Star, Item::Sequence]);
            }
            _ => inner.items.extend([Item::Empty, Item::Choice]),
        }
        Pattern { level: 2, ..inner }
    }

    fn times(&mut self, budget: usize, watched: &[usize], alphabet: u32) -> Pattern {
        let times = 1 + self.random.upto((budget + 1) / 2 - 1);
        let inner = self.pattern((budget + 1) / times - 1, watched, alphabet);
        let mut inner = self.bracketed(inner, 2);
        inner.words.push(may_break("times"));
        let zeros = if self.random.one_in(9) { "00" } else { "" };
        inner.words.push(may_break(format!("{zeros}{times}")));
        let once = inner.items.clone();
        for _ in 1..times {
            inner.items.extend(once.clone());
            inner.items.push(Item::Sequence);
        }
        Pattern { level: 2, ..inner }
    }

    /// An event, a set or `0`.
    fn unit(&mut self, watched: &[usize], alphabet: u32) -> Pattern {
        let mut pattern = Pattern {
            words: Vec::new(),
            items: vec![Item::Empty],
            level: 2,
            named: 0,
        };
        let choice = self.random.upto(9);
        if choice == 0 {
            pattern.words.push(may_break("0"));
        } else if choice < 6 && !watched.is_empty() {
            let event = self.random.pick(watched);
            pattern.named = 1 << event;
            pattern
                .words
                .push(may_break(self.model.events[event - 1].clone()));
            pattern.items = vec![Item::Events(pattern.named)];
        } else {
            self.set(&mut pattern, watched, alphabet);
        }
        pattern
    }

    fn set(&mut self, pattern: &mut Pattern, watched: &[usize], alphabet: u32) {
        let except = self.random.one_in(2);
        pattern.words.push(may_break("["));
        if except {
            pattern.words.push(may_break("^"));
        }
        for _ in 0..self.random.upto(watched.len().min(4)) {
            let event = self.random.pick(watched);
            pattern.named |= 1 << event;
            pattern
                .words
                .push(may_break(self.model.events[event - 1].clone()));
        }
        pattern.words.push(may_break("]"));
        let set = if except {
            alphabet & !pattern.named
        } else {
            pattern.named
        };
        pattern.items = vec![Item::Events(set)];
    }

    /// The pattern in brackets where it is of a lower level, and at times where it is not.
    fn bracketed(&mut self, mut pattern: Pattern, level: usize) -> Pattern {
        if pattern.level < level || self.random.one_in(12) {
            pattern.words.insert(0, may_break("("));
            pattern.words.push(may_break(")"));
            pattern.level = 2;
        }
        pattern
    }

    /// The declarations in a random order, each kind in its own, laid out at random.
    fn text(&mut self) -> String {
        let mut text = self.gap();
        let first = words(&format!("plan {}", self.model.name));
        text += &self.line(&first);
        let mut kinds = [
            &mut self.events,
            &mut self.channels,
            &mut self.jobs,
            &mut self.rules,
        ]
        .map(std::mem::take);
        while kinds.iter().any(|kind| !kind.is_empty()) {
            let kind = &mut kinds[self.random.upto(3)];
            if !kind.is_empty() {
                for line in kind.remove(0) {
                    text += &self.gap();
                    text += &self.line(&line);
                }
            }
        }
        text + &self.gap()
    }

    /// Blank lines and comments, or nothing.
    fn gap(&mut self) -> String {
        let mut gap = String::new();
        while self.random.one_in(4) {
            gap += &self.blanks(0);
            if self.random.one_in(2) {
                gap += self.random.pick(&COMMENTS);
            }
            gap.push('\n');
        }
        gap
    }

    fn blanks(&mut self, least: usize) -> String {
        let mut blanks = String::new();
        while blanks.len() < least || self.random.one_in(5) {
            blanks.push(self.random.pick(&[' ', ' ', ' ', '\t']));
        }
        blanks
    }

    fn line(&mut self, words: &[Word]) -> String {
        let mut text = self.blanks(0);
        for (i, (word, breakable)) in words.iter().enumerate() {
            if i > 0 && *breakable && self.random.one_in(12) {
                text += &self.line_end();
                text += &self.gap();
                text += &self.blanks(0);
            } else if i > 0 {
                let sign = |word: &str| word.chars().all(|c| ";|*+?()[]^".contains(c));
                let apart = !sign(word) && !sign(&words[i - 1].0);
                text += &self.blanks(usize::from(apart));
            }
            text += word;
        }
        text + &self.line_end()
    }

    fn line_end(&mut self) -> String {
        let mut end = self.blanks(0);
        if self.random.one_in(10) {
            end += self.random.pick(&COMMENTS);
        }
        end + "\n"
    }
}

const COMMENTS: [&str; 7] = [
    "#",
    "# a comment",
    "#job a from b to c",
    "## x",
    "#\ttab ",
    "# ; | ) \u{feff} $ é",
    "#  two",
];

/// A pattern in words and in items. Its level is 0 for a choice, 1 for a sequence, 2 for what takes no brackets.
struct Pattern {
    words: Vec<Word>,
    items: Vec<Item>,
    level: usize,
    named: u32,
}

/// A job as it is written.
struct Body {
    listed: bool,
    nodes: Vec<String>,
    lines: Vec<Vec<Word>>,
    moves: Vec<(usize, String, String, usize)>,
}

impl Body {
    fn mention(&mut self, node: &str) {
        if !self.nodes.iter().any(|known| known == node) {
            self.nodes.push(node.to_string());
        }
    }

    fn number(&self, node: &str) -> usize {
        self.nodes.iter().position(|known| known == node).unwrap()
    }
}

//! Pictures of random plans, read back: nothing overlaps, and everything is there.
use traceflow::{Arc, Job, Kind, Plan};
use tuft::draw::{dot, svg, Picture};
use tuft::names::Names;

// A strict reader of the XML that is needed here.

struct Element {
    name: String,
    attributes: Vec<(String, String)>,
    words: String,
    inside: Vec<Element>,
}

impl Element {
    fn get(&self, name: &str) -> &str {
        let found = self.attributes.iter().find(|a| a.0 == name);
        found.map_or("", |a| a.1.as_str())
    }

    fn number(&self, name: &str) -> i32 {
        let value = self.get(name);
        value
            .parse()
            .unwrap_or_else(|_| panic!("{}: {name}=\"{value}\" is no whole number", self.name))
    }

    fn all<'a>(&'a self, name: &'a str) -> impl Iterator<Item = &'a Element> {
        self.inside.iter().filter(move |e| e.name == name)
    }

    fn groups<'a>(&'a self, class: &'a str) -> impl Iterator<Item = &'a Element> {
        self.all("g").filter(move |e| e.get("class") == class)
    }

    fn title(&self) -> &str {
        self.all("title").next().map_or("", |t| t.words.as_str())
    }
}

/// The root of a document, or what is wrong with it.
fn document(text: &str) -> Result<Element, String> {
    let rest = text.strip_prefix("<?xml version=\"1.0\" encoding=\"UTF-8\"?>\n");
    let (root, rest) = element(rest.ok_or("no declaration")?)?;
    if rest != "\n" {
        return Err(format!("behind the root: {rest:?}"));
    }
    Ok(root)
}

/// The element with which a text begins, and what is behind it.
fn element(text: &str) -> Result<(Element, &str), String> {
    let (tag, rest) = text
        .strip_prefix('<')
        .and_then(|t| t.split_once('>'))
        .ok_or("no tag")?;
    let (tag, closed) = match tag.strip_suffix('/') {
        Some(tag) => (tag, true),
        None => (tag, false),
    };
    let (name, attributes) = tag.split_once(' ').unwrap_or((tag, ""));
    if name.is_empty() || !name.chars().all(|c| c.is_ascii_alphabetic()) {
        return Err(format!("no tag: <{tag}>"));
    }
    let mut element = Element {
        name: name.to_string(),
        attributes: attributes_of(attributes)?,
        words: String::new(),
        inside: Vec::new(),
    };
    if closed {
        return Ok((element, rest));
    }
    let rest = content(&mut element, rest)?;
    Ok((element, rest))
}

/// Reads what an element has inside, and its end.
fn content<'a>(parent: &mut Element, mut rest: &'a str) -> Result<&'a str, String> {
    let end = format!("</{}>", parent.name);
    loop {
        let (words, _) = rest.split_once('<').ok_or("no end")?;
        parent.words += &plain(words)?;
        rest = &rest[words.len()..];
        if let Some(behind) = rest.strip_prefix(end.as_str()) {
            return Ok(behind);
        }
        let (inner, behind) = element(rest)?;
        parent.inside.push(inner);
        rest = behind;
    }
}

fn attributes_of(mut text: &str) -> Result<Vec<(String, String)>, String> {
    let mut attributes: Vec<(String, String)> = Vec::new();
    while !text.is_empty() {
        let (name, rest) = text.split_once("=\"").ok_or("an attribute without value")?;
        let (value, rest) = rest.split_once('"').ok_or("an open quote")?;
        let known = attributes.iter().any(|a| a.0 == name);
        let letters = name.chars().all(|c| c.is_ascii_alphabetic() || c == '-');
        if known || !letters || name.is_empty() {
            return Err(format!("attribute {name:?}"));
        }
        attributes.push((name.to_string(), plain(value)?));
        text = match rest.strip_prefix(' ') {
            Some(rest) if !rest.is_empty() => rest,
            _ if rest.is_empty() => rest,
            _ => return Err("no space before an attribute".to_string()),
        };
    }
    Ok(attributes)
}

/// Escaped words as they are meant.
fn plain(words: &str) -> Result<String, String> {
    let signs = [
        ("lt;", '<'),
        ("gt;", '>'),
        ("quot;", '"'),
        ("apos;", '\''),
        ("amp;", '&'),
    ];
    let mut parts = words.split('&');
    let mut out = parts.next().unwrap_or("").to_string();
    for part in parts {
        let sign = signs.iter().find(|sign| part.starts_with(sign.0));
        let (sign, letter) = sign.ok_or("a bare ampersand")?;
        out.push(*letter);
        out += &part[sign.len()..];
    }
    if out.chars().any(|c| c.is_control() && c != '\n') || words.contains(['"', '\'']) {
        return Err(format!("{words:?} is not escaped"));
    }
    Ok(out)
}

// What a picture shows.

type Point = (i32, i32);

#[derive(Clone, Copy, Debug)]
struct Area {
    left: i32,
    top: i32,
    right: i32,
    bottom: i32,
}

impl Area {
    fn overlaps(&self, other: &Area) -> bool {
        self.left < other.right
            && other.left < self.right
            && self.top < other.bottom
            && other.top < self.bottom
    }

    fn holds(&self, other: &Area) -> bool {
        self.left <= other.left
            && other.right <= self.right
            && self.top <= other.top
            && other.bottom <= self.bottom
    }

    fn has_on_border(&self, (x, y): Point) -> bool {
        let inside = (self.left..=self.right).contains(&x) && (self.top..=self.bottom).contains(&y);
        inside && (x == self.left || x == self.right || y == self.top || y == self.bottom)
    }

    /// The smallest area with both points.
    fn between(a: Point, b: Point) -> Area {
        Area {
            left: a.0.min(b.0),
            top: a.1.min(b.1),
            right: a.0.max(b.0),
            bottom: a.1.max(b.1),
        }
    }

    fn grown(&self, by: i32) -> Area {
        Area {
            left: self.left - by,
            top: self.top - by,
            right: self.right + by,
            bottom: self.bottom + by,
        }
    }
}

struct Words {
    words: String,
    area: Area,
    /// What it has to be in.
    within: Area,
}

#[derive(Debug, PartialEq, Eq)]
struct NodeSeen {
    title: String,
    name: String,
    exit: bool,
    grey: bool,
}

#[derive(Debug, PartialEq, Eq, PartialOrd, Ord)]
struct MoveSeen {
    title: String,
    labels: Vec<String>,
    from: String,
    to: String,
    grey: bool,
}

struct JobSeen {
    title: String,
    heading: Vec<String>,
    area: Area,
    boxes: Vec<Area>,
    nodes: Vec<NodeSeen>,
    moves: Vec<MoveSeen>,
}

/// A straight piece of a line, and the number of the line.
struct Stroke {
    line: usize,
    area: Area,
}

struct Scene {
    area: Area,
    title: String,
    texts: Vec<Words>,
    strokes: Vec<Stroke>,
    jobs: Vec<JobSeen>,
    lines: usize,
}

fn scene(text: &str) -> Result<Scene, String> {
    let root = document(text)?;
    let area = Area {
        left: 0,
        top: 0,
        right: root.number("width"),
        bottom: root.number("height"),
    };
    let mut scene = Scene {
        area,
        title: root.title().to_string(),
        texts: Vec::new(),
        strokes: Vec::new(),
        jobs: Vec::new(),
        lines: 0,
    };
    scene.texts(&root, (0, 0), area);
    for key in root.groups("key") {
        scene.texts(key, moved(key), area);
        scene.lines(key, moved(key));
    }
    for job in root.groups("job") {
        scene.job(job);
    }
    Ok(scene)
}

impl Scene {
    fn texts(&mut self, group: &Element, at: Point, within: Area) {
        for text in group.all("text") {
            let (x, y) = (at.0 + text.number("x"), at.1 + text.number("y"));
            let size = text.number("font-size");
            self.texts.push(Words {
                words: text.words.clone(),
                area: Area {
                    left: x,
                    top: y - size,
                    right: x + text.number("textLength"),
                    bottom: y + size / 4,
                },
                within,
            });
        }
    }

    /// Adds the lines and heads of a group.
    fn lines(&mut self, group: &Element, at: Point) {
        let paths = group.all("path");
        for part in paths.flat_map(|path| points(path.get("d"), at)) {
            for pair in part.windows(2) {
                self.strokes.push(Stroke {
                    line: self.lines,
                    area: Area::between(pair[0], pair[1]),
                });
            }
        }
        self.lines += 1;
    }

    fn job(&mut self, group: &Element) {
        let at = moved(group);
        let area = rect(group, at);
        self.texts(group, at, area);
        let mut job = JobSeen {
            title: group.title().to_string(),
            heading: group.all("text").map(|t| t.words.clone()).collect(),
            area,
            boxes: Vec::new(),
            nodes: Vec::new(),
            moves: Vec::new(),
        };
        for node in group.groups("node") {
            job.boxes.push(rect(node, at));
            job.nodes.push(node_seen(node));
            self.texts(node, at, rect(node, at));
        }
        for entry in group.groups("entry") {
            self.lines(entry, at);
            let (_, tip) = ends(entry, at);
            assert!(
                job.boxes[0].has_on_border(tip),
                "the entry of {}",
                job.title
            );
        }
        for step in group.groups("move") {
            self.lines(step, at);
            self.texts(step, at, area);
            let seen = move_seen(step, &job, ends(step, at));
            job.moves.push(seen);
        }
        self.jobs.push(job);
    }

    /// What overlaps or leaves its place.
    fn faults(&self) -> Vec<String> {
        let mut faults = Vec::new();
        for (n, text) in self.texts.iter().enumerate() {
            if !text.within.holds(&text.area) || !self.area.holds(&text.area) {
                faults.push(format!("{:?} leaves its frame", text.words));
            }
            if let Some(other) = self.texts[..n].iter().find(|o| o.area.overlaps(&text.area)) {
                faults.push(format!("{:?} is over {:?}", text.words, other.words));
            }
            if self
                .strokes
                .iter()
                .any(|s| s.area.grown(1).overlaps(&text.area))
            {
                faults.push(format!("{:?} is crossed by a line", text.words));
            }
        }
        let frames: Vec<Area> = self.jobs.iter().map(|job| job.area).collect();
        faults.extend(apart(&frames, &self.area));
        for job in &self.jobs {
            faults.extend(apart(&job.boxes, &job.area));
        }
        let boxes = || self.jobs.iter().flat_map(|job| &job.boxes);
        for stroke in &self.strokes {
            if !self.area.holds(&stroke.area) || boxes().any(|b| b.overlaps(&stroke.area)) {
                faults.push(format!("a line at {:?}", stroke.area));
            }
        }
        faults.extend(self.lines_along_lines());
        faults
    }

    /// Lines may cross; none runs along another.
    fn lines_along_lines(&self) -> Vec<String> {
        let mut faults = Vec::new();
        for (n, stroke) in self.strokes.iter().enumerate() {
            let a = &stroke.area;
            for other in self.strokes[..n].iter().filter(|o| o.line != stroke.line) {
                let b = &other.area;
                let same_lane = a.left == a.right && b.left == b.right && a.left == b.left;
                let same_row = a.top == a.bottom && b.top == b.bottom && a.top == b.top;
                if same_lane && a.top <= b.bottom && b.top <= a.bottom
                    || same_row && a.left <= b.right && b.left <= a.right
                {
                    faults.push(format!("lines along each other at {a:?}"));
                }
            }
        }
        faults
    }
}

/// Where a group is moved to.
fn moved(group: &Element) -> Point {
    let place = group.get("transform");
    let place = place
        .strip_prefix("translate(")
        .and_then(|p| p.strip_suffix(')'));
    let (x, y) = place.and_then(|p| p.split_once(',')).expect("a place");
    (x.parse().expect("a number"), y.parse().expect("a number"))
}

/// The first rectangle of a group.
fn rect(group: &Element, at: Point) -> Area {
    let rect = group.all("rect").next().expect("a rectangle");
    let (left, top) = (at.0 + rect.number("x"), at.1 + rect.number("y"));
    Area {
        left,
        top,
        right: left + rect.number("width"),
        bottom: top + rect.number("height"),
    }
}

/// The parts of a path. A bend is taken as its corner.
fn points(path: &str, at: Point) -> Vec<Vec<Point>> {
    let mut parts: Vec<Vec<Point>> = Vec::new();
    let mut words = path.split(' ');
    while let Some(word) = words.next() {
        match word {
            "M" => parts.push(Vec::new()),
            "L" | "Q" => (),
            "Z" => {
                let part = parts.last_mut().expect("a part");
                part.push(part[0]);
            }
            x => {
                let x: i32 = x.parse().expect("a number");
                let y: i32 = words.next().expect("a number").parse().expect("a number");
                let part = parts.last_mut().expect("a part");
                part.push((at.0 + x, at.1 + y));
            }
        }
    }
    parts
}

/// Where the line of an arrow begins, and where the tip of its head is.
fn ends(group: &Element, at: Point) -> (Point, Point) {
    let paths = group.all("path");
    let first: Vec<Point> = paths.map(|path| points(path.get("d"), at)[0][0]).collect();
    (first[0], first[1])
}

fn node_seen(group: &Element) -> NodeSeen {
    let rects: Vec<&Element> = group.all("rect").collect();
    NodeSeen {
        title: group.title().to_string(),
        name: group.all("text").map(|t| t.words.as_str()).collect(),
        exit: rects.len() == 2,
        grey: rects[0].get("stroke-dasharray") == "4 3",
    }
}

fn move_seen(group: &Element, job: &JobSeen, (begin, tip): (Point, Point)) -> MoveSeen {
    let at = |point: Point| {
        let found = job.boxes.iter().position(|b| b.has_on_border(point));
        found.map_or("no box".to_string(), |place| job.nodes[place].name.clone())
    };
    let paths: Vec<&Element> = group.all("path").collect();
    MoveSeen {
        title: group.title().to_string(),
        labels: group.all("text").map(|t| t.words.clone()).collect(),
        from: at(begin),
        to: at(tip),
        grey: paths[0].get("stroke") == "#6b6b6b" && paths[1].get("fill") == "#6b6b6b",
    }
}

/// Those that overlap, or are not within an area.
fn apart(areas: &[Area], within: &Area) -> Vec<String> {
    let mut faults = Vec::new();
    for (n, area) in areas.iter().enumerate() {
        if !within.holds(area) || areas[..n].iter().any(|other| other.overlaps(area)) {
            faults.push(format!("a rectangle at {area:?}"));
        }
    }
    faults
}

// What a picture has to show.

/// The nodes of a job, by their titles.
fn nodes_due(picture: &Picture, number: usize, job: &Job) -> Vec<NodeSeen> {
    let names = picture.names;
    let nodes = job.first..job.first + job.size;
    let due = nodes.map(|node| NodeSeen {
        title: format!("{} at {}", names.jobs[number], names.nodes[node]),
        name: names.nodes[node].clone(),
        exit: node == job.exit && !job.standing,
        grey: picture.unreached[node],
    });
    sorted(due.collect(), |node| node.title.clone())
}

/// The moves of a job, those between the same two nodes as one.
fn moves_due(picture: &Picture, job: &Job) -> Vec<MoveSeen> {
    let names = picture.names;
    let plan = picture.plan;
    let mut due: Vec<MoveSeen> = Vec::new();
    let mut add = |arc: &Arc, words: String, label: String| {
        if arc.from < job.first || arc.from >= job.first + job.size {
            return;
        }
        let (from, to) = (&names.nodes[arc.from], &names.nodes[arc.to]);
        let title = format!("{from}{words} then {to}");
        match due.iter_mut().find(|d| d.from == *from && d.to == *to) {
            Some(one) => {
                one.title += &format!("\n{title}");
                one.labels.push(label);
            }
            None => due.push(MoveSeen {
                title,
                labels: vec![label],
                from: from.clone(),
                to: to.clone(),
                grey: picture.unreached[arc.from],
            }),
        }
    };
    for step in &plan.steps {
        match step.label {
            0 => add(step, String::new(), "quiet step".to_string()),
            event => {
                let words = format!("gives {}", names.events[event - 1]);
                add(step, format!(" {words}"), words);
            }
        }
    }
    for (word, arcs) in [("calls", &plan.calls), ("accepts", &plan.accepts)] {
        for arc in arcs {
            let words = format!("{word} {}", names.channels[arc.label]);
            let label = match plan.channels[arc.label] {
                0 => words.clone(),
                event => format!("{words} → {}", names.events[event - 1]),
            };
            add(arc, format!(" {words}"), label);
        }
    }
    for one in due.iter_mut().filter(|d| d.labels == ["quiet step"]) {
        one.labels.clear();
    }
    sorted(due, |one| one.title.clone())
}

fn sorted<T>(mut list: Vec<T>, key: fn(&T) -> String) -> Vec<T> {
    list.sort_by_key(key);
    list
}

/// Compares what a picture shows with what it has to show.
fn check(picture: &Picture) {
    let text = svg(picture);
    let scene = scene(&text).unwrap_or_else(|fault| panic!("{fault}\n{text}"));
    let faults = scene.faults();
    assert!(faults.is_empty(), "{}\n{text}", faults.join("\n"));
    assert_eq!(scene.title, picture.caption);
    assert_eq!(scene.texts[0].words, picture.caption);
    assert_eq!(scene.jobs.len(), picture.plan.jobs.len());
    let jobs = picture.plan.jobs.iter().enumerate();
    for ((number, job), seen) in jobs.zip(scene.jobs) {
        let name = &picture.names.jobs[number];
        let kind = if job.standing { "service" } else { "job" };
        assert_eq!(seen.title, format!("{kind} {name}"));
        assert_eq!(seen.heading[0], *name);
        assert_eq!(seen.heading[1..], ["service"][..usize::from(job.standing)]);
        assert_eq!(seen.nodes[0].name, picture.names.nodes[job.entry]);
        let nodes = sorted(seen.nodes, |node| node.title.clone());
        assert_eq!(nodes, nodes_due(picture, number, job));
        let moves = sorted(seen.moves, |one| one.title.clone());
        assert_eq!(moves, moves_due(picture, job));
    }
}

// Random plans.

struct Random(u64);

impl Random {
    fn below(&mut self, bound: usize) -> usize {
        self.0 ^= self.0 << 13;
        self.0 ^= self.0 >> 7;
        self.0 ^= self.0 << 17;
        (self.0 >> 16) as usize % bound.max(1)
    }

    /// A name that no other number has.
    fn name(&mut self, number: usize) -> String {
        let scripts = [
            "abcdefgh-_",
            "<>&\"'</text>&amp;",
            "дежз",
            "翻訳者開始",
            "e\u{301}ñü",
            "ابجد",
        ];
        let script: Vec<char> = match self.below(3) {
            0 => scripts[self.below(scripts.len())].chars().collect(),
            _ => scripts[0].chars().collect(),
        };
        let length = match self.below(12) {
            0 => self.below(60),
            _ => self.below(12),
        };
        let letters: String = (0..length)
            .map(|_| script[self.below(script.len())])
            .collect();
        format!("{letters}{number}")
    }

    fn names(&mut self, count: usize) -> Vec<String> {
        (0..count).map(|number| self.name(number)).collect()
    }

    /// Jobs that have so many nodes together, at least one each.
    fn jobs(&mut self, jobs: usize, nodes: usize) -> Vec<Job> {
        let mut sizes = vec![1; jobs];
        for _ in jobs..nodes {
            sizes[self.below(jobs)] += 1;
        }
        let mut first = 0;
        let mut list = Vec::new();
        for size in sizes {
            let standing = self.below(4) == 0;
            let entry = first + self.below(size);
            let exit = if standing {
                entry
            } else {
                first + self.below(size)
            };
            list.push(Job {
                first,
                size,
                entry,
                exit,
                standing,
            });
            first += size;
        }
        list
    }

    /// At most so many moves, none from an exit. Half of them lead not far, or to where they come from.
    fn arcs(&mut self, jobs: &[Job], count: usize, labels: usize) -> Vec<Arc> {
        let mut arcs = Vec::new();
        for _ in 0..count {
            let Some(job) = jobs.get(self.below(jobs.len())) else {
                continue;
            };
            let from = self.below(job.size);
            let to = match self.below(2) {
                0 => self.below(job.size),
                _ => (from + self.below(3)).min(job.size - 1),
            };
            if labels > 0 && (job.standing || job.first + from != job.exit) {
                arcs.push(Arc {
                    from: job.first + from,
                    to: job.first + to,
                    label: self.below(labels),
                });
            }
        }
        arcs
    }

    /// A plan with at most so many jobs, nodes and moves.
    fn plan(&mut self, jobs: usize, nodes: usize, moves: usize) -> Plan {
        let jobs = self.jobs(jobs, nodes);
        let channels: Vec<usize> = (0..self.below(65)).map(|_| self.below(32)).collect();
        Plan {
            nodes: jobs.iter().map(|job| job.size).sum(),
            kind: Kind::Every,
            alphabet: 0,
            steps: self.arcs(&jobs, moves, 32),
            calls: self.arcs(&jobs, moves / 2, channels.len()),
            accepts: self.arcs(&jobs, moves / 2, channels.len()),
            jobs,
            channels,
            items: Vec::new(),
        }
    }

    fn check(&mut self, jobs: usize, nodes: usize, moves: usize) {
        let plan = self.plan(jobs, nodes, moves);
        let names = Names {
            plan: self.name(0),
            jobs: self.names(plan.jobs.len()),
            nodes: self.names(plan.nodes),
            events: self.names(31),
            channels: self.names(plan.channels.len()),
        };
        let unreached: Vec<bool> = (0..plan.nodes).map(|_| self.below(5) == 0).collect();
        check(&Picture {
            names: &names,
            plan: &plan,
            unreached: &unreached,
            caption: format!("{}, rule {}", names.plan, self.name(1)),
        });
    }
}

#[test]
fn small_plans() {
    let mut random = Random(0x5eed_0001);
    for _ in 0..400 {
        let jobs = random.below(4);
        let nodes = jobs * (1 + random.below(6));
        let moves = random.below(2 * nodes + 1);
        random.check(jobs, nodes, moves);
    }
}

#[test]
fn plans_of_all_sizes() {
    let mut random = Random(0x5eed_0002);
    for _ in 0..60 {
        let jobs = 1 + random.below(16);
        let nodes = jobs + random.below(257 - jobs);
        let moves = random.below(257);
        random.check(jobs, nodes, moves);
    }
}

#[test]
fn largest_plans() {
    let mut random = Random(0x5eed_0003);
    for jobs in [1, 2, 8, 16] {
        random.check(jobs, 256, 256);
    }
}

// One tiny plan.

fn listed(names: &[&str]) -> Vec<String> {
    names.iter().map(|name| name.to_string()).collect()
}

fn arc(from: usize, to: usize, label: usize) -> Arc {
    Arc { from, to, label }
}

/// A job that asks a service, and has a node to which no run comes.
fn tiny() -> (Names, Plan) {
    let names = Names {
        plan: "tiny".to_string(),
        jobs: listed(&["worker", "memory"]),
        nodes: listed(&["start", "a<b", "lost", "end", "idle", "say \"&\\\""]),
        events: listed(&["asked", "done"]),
        channels: listed(&["ask", "tell"]),
    };
    let job = |first, size, entry, exit, standing| Job {
        first,
        size,
        entry,
        exit,
        standing,
    };
    let plan = Plan {
        nodes: 6,
        kind: Kind::Every,
        alphabet: 0,
        jobs: vec![job(0, 4, 0, 3, false), job(4, 2, 4, 4, true)],
        steps: vec![arc(0, 0, 0), arc(1, 3, 2), arc(2, 3, 2), arc(2, 3, 0)],
        channels: vec![1, 0],
        calls: vec![arc(0, 1, 0), arc(5, 4, 1)],
        accepts: vec![arc(4, 5, 0)],
        items: Vec::new(),
    };
    (names, plan)
}

fn tiny_picture<'a>(names: &'a Names, plan: &'a Plan) -> Picture<'a> {
    Picture {
        names,
        plan,
        unreached: &[false, false, true, false, false, false],
        caption: "tiny, rule \"one\"".to_string(),
    }
}

#[test]
fn the_tiny_plan_in_svg() {
    let (names, plan) = tiny();
    check(&tiny_picture(&names, &plan));
}

#[test]
fn the_tiny_plan_in_dot() {
    let (names, plan) = tiny();
    let expected = r##"digraph "tiny" {
  label="tiny, rule \"one\"";
  labelloc=t;
  node [shape=box, style=rounded];
  subgraph cluster_0 {
    label="worker";
    n0 [label="start"];
    n1 [label="a<b"];
    n2 [label="lost", style="rounded,dashed,filled", fillcolor=gray90, color=gray40, fontcolor=gray40];
    n3 [label="end", peripheries=2];
    entry0 [shape=point];
    entry0 -> n0;
    n0 -> n0;
    n1 -> n3 [label="gives done"];
    n2 -> n3 [label="gives done", color=gray40, fontcolor=gray40];
    n2 -> n3 [color=gray40, fontcolor=gray40];
    n0 -> n1 [label="calls ask → asked", color="#1469d7", fontcolor="#1469d7"];
  }
  subgraph cluster_1 {
    label="memory (service)";
    n4 [label="idle"];
    n5 [label="say \"&amp;\\\""];
    entry1 [shape=point];
    entry1 -> n4;
    n5 -> n4 [label="calls tell", color="#d72114", fontcolor="#d72114"];
    n4 -> n5 [label="accepts ask → asked", color="#1469d7", fontcolor="#1469d7"];
  }
}
"##;
    assert_eq!(dot(&tiny_picture(&names, &plan)), expected);
}

/// Each channel of the tiny plan stands in the legend, in the colour of its moves.
#[test]
fn the_legend() {
    let (names, plan) = tiny();
    let root = document(&svg(&tiny_picture(&names, &plan))).expect("a document");
    let texts = root.groups("key").flat_map(|key| key.all("text"));
    let legend: Vec<(&str, &str)> = texts.map(|t| (t.words.as_str(), t.get("fill"))).collect();
    let expected = [
        ("begins here", "#222222"),
        ("ends here", "#222222"),
        ("no run comes here", "#6b6b6b"),
        ("channels:", "#222222"),
        ("ask → asked", "#1469d7"),
        ("tell", "#d72114"),
    ];
    assert_eq!(legend, expected);
    let moves = root.groups("job").flat_map(|job| job.groups("move"));
    let texts = moves.flat_map(|one| one.all("text"));
    let labels: Vec<(&str, &str)> = texts.map(|t| (t.words.as_str(), t.get("fill"))).collect();
    assert!(labels.contains(&("calls ask → asked", "#1469d7")));
    assert!(labels.contains(&("accepts ask → asked", "#1469d7")));
    assert!(labels.contains(&("calls tell", "#d72114")));
}

#[test]
fn all_channels_have_colours_of_their_own() {
    let (names, mut plan) = tiny();
    plan.channels = vec![0; 64];
    let root = document(&svg(&tiny_picture(&names, &plan))).expect("a document");
    let paths = root
        .groups("key")
        .filter(|k| k.all("circle").next().is_none());
    let paths = paths.flat_map(|key| key.all("path"));
    let mut colours: Vec<&str> = paths.map(|p| p.get("stroke")).collect();
    colours.sort();
    colours.dedup();
    assert_eq!(colours.len(), 64);
}

#[test]
fn a_plan_without_jobs() {
    Random(0x5eed_0004).check(0, 0, 0);
}

/// The picture has nothing in it that is fetched or run.
#[test]
fn only_plain_elements() {
    fn names<'a>(element: &'a Element, all: &mut Vec<&'a str>) {
        all.push(&element.name);
        for inner in &element.inside {
            names(inner, all);
        }
    }
    let (tiny_names, plan) = tiny();
    let text = svg(&tiny_picture(&tiny_names, &plan));
    let root = document(&text).expect("a document");
    let mut all = Vec::new();
    names(&root, &mut all);
    all.sort();
    all.dedup();
    assert_eq!(all, ["circle", "g", "path", "rect", "svg", "text", "title"]);
    assert_eq!(text.matches("http").count(), 1);
    assert!(!text.contains("href") && !text.contains("url("));
}

// What the tests above would say of a picture that is wrong.

/// The faults of the tiny plan's picture with something in it changed, once.
fn faults_with(old: &str, new: &str) -> Vec<String> {
    let (names, plan) = tiny();
    let text = svg(&tiny_picture(&names, &plan));
    assert!(text.contains(old), "{old} is not in the picture");
    match scene(&text.replacen(old, new, 1)) {
        Ok(scene) => scene.faults(),
        Err(fault) => vec![fault],
    }
}

#[test]
fn wrong_pictures_are_found() {
    let label = "x=\"56\" y=\"228\"";
    let lane = "Q 188 146 188 151 L 188 269 Q 188 274 183 274";
    let changes = [
        ("</g>", "", "no tag: </svg>"),
        (
            "fill=\"none\"",
            "fill=none",
            "attribute \"fill=none stroke\"",
        ),
        ("a&lt;b", "a<b", "no tag: <b</title>"),
        ("&amp;", "&", "a bare ampersand"),
        (
            "&quot;",
            "\"",
            "\"tiny, rule \\\"one&quot;\" is not escaped",
        ),
        (
            label,
            "x=\"56\" y=\"232\"",
            "\"quiet step\" is over \"gives done\"",
        ),
        (
            label,
            "x=\"150\" y=\"228\"",
            "\"gives done\" leaves its frame",
        ),
        (
            label,
            "x=\"46\" y=\"228\"",
            "\"gives done\" is crossed by a line",
        ),
        (
            lane,
            "L 100 146 L 100 274",
            "\"gives done\" is crossed by a line",
        ),
        (
            "translate(244,106)",
            "translate(200,106)",
            "a rectangle at Area",
        ),
        (
            "y=\"130\" width=\"64\"",
            "y=\"150\" width=\"64\"",
            "a rectangle at Area",
        ),
        ("L 98 84 Q", "L 98 84 Q 70 84", "a line at Area"),
        ("M 48 100", "M 48 50", "lines along each other"),
    ];
    for (old, new, fault) in changes {
        let faults = faults_with(old, new);
        let found = faults.iter().any(|f| f.starts_with(fault));
        assert!(found, "{old} as {new}: {faults:?}");
    }
}

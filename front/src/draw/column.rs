//! A job as a column of boxes.
//!
//! A move to the very next box is an arrow down, with its labels at its right. Every other move leaves its box at the right side, in a row
//! of its own; its label breaks that row beside the box; it goes on to a lane at the right of all labels that it passes, along the lane,
//! and back to the right side of its target, in a row of its own. Rows of a box do not overlap, boxes do not, and a lane is shared only by
//! moves that do not meet there: so no label meets another, or a line.
use super::shapes::{width, Arrow, Ink, Point, Rect, Text};
use super::{holds, Act, Picture};
use traceflow::Job;

/// The space between a frame and what is in it.
const PAD: i32 = 16;
/// Where the first box begins, below the job's name and the arrow into the entry.
const TOP: i32 = 66;
const BOX_WIDTH: i32 = 64;
const BOX_HEIGHT: i32 = 32;
/// The space above and below the rows of a box.
const ROWS_PAD: i32 = 5;
/// A row without a label.
const ROW: i32 = 12;
const LINE: i32 = 16;
/// The space below a box without an arrow to the next one, and the least with one.
const GAP: i32 = 18;
const ARROW_GAP: i32 = 30;
/// From a box to a label.
const STUB: i32 = 12;
/// From a line to a label and from a label to a line.
const BESIDE: i32 = 8;
/// From one lane to the next, and from a box or a label to the first.
const LANE: i32 = 10;
const LANE_BESIDE: i32 = 18;
const JOB_SIZE: i32 = 14;
const NODE_SIZE: i32 = 13;
pub const LABEL_SIZE: i32 = 12;

/// A job, with its upper left corner at 0, 0.
pub struct Frame {
    pub title: String,
    pub width: i32,
    pub height: i32,
    pub texts: Vec<Text>,
    /// The arrow into the entry.
    pub entry: Option<Arrow>,
    pub boxes: Vec<NodeBox>,
    pub arrows: Vec<Arrow>,
}

pub struct NodeBox {
    pub title: String,
    pub rect: Rect,
    pub text: Text,
    pub exit: bool,
    pub unreached: bool,
}

/// All moves from one place of the column to another: they share an arrow.
struct Link {
    from: usize,
    to: usize,
    acts: Vec<Act>,
}

impl Link {
    fn is_straight(&self) -> bool {
        self.to == self.from + 1
    }
}

/// One line of a link's label.
struct Label {
    words: String,
    ink: Ink,
}

/// The end of a link at the right side of a box.
struct Port {
    link: usize,
    /// Whether the link comes in here.
    into: bool,
    /// Where the port stands among those of its box.
    rank: (u8, isize, isize, bool),
    height: i32,
}

/// Where a link leaves its box and where it comes in, from above; and its lane, from the left.
#[derive(Clone, Copy, Default)]
struct Route {
    leaves: i32,
    enters: i32,
    lane: i32,
}

impl Route {
    fn top(&self) -> i32 {
        self.leaves.min(self.enters)
    }

    fn bottom(&self) -> i32 {
        self.leaves.max(self.enters)
    }

    /// Whether the lane of the route has this text beside it.
    fn passes(&self, text: &Text) -> bool {
        self.top() <= text.y + 6 && text.y - 15 <= self.bottom()
    }

    /// Whether the route meets another, if both have the same lane.
    fn meets(&self, other: &Route) -> bool {
        self.top() <= other.bottom() && other.top() <= self.bottom()
    }
}

struct Column<'a> {
    picture: &'a Picture<'a>,
    job: &'a Job,
    name: String,
    /// The nodes from top to bottom.
    nodes: Vec<usize>,
    links: Vec<Link>,
    /// The lines of each link's label.
    labels: Vec<Vec<Label>>,
}

/// A job of the plan, laid out.
pub fn frame(picture: &Picture, number: usize, job: &Job) -> Frame {
    let column = Column::of(picture, number, job);
    let ports: Vec<Vec<Port>> = (0..column.nodes.len()).map(|p| column.ports(p)).collect();
    let boxes = column.boxes(&ports);
    let mut routes = column.routes(&ports, &boxes);
    let texts = column.texts(&boxes, &routes);
    let first_lane = boxes.first().map_or(0, Rect::right) + LANE_BESIDE;
    column.set_lanes(&mut routes, &texts, first_lane);
    column.drawn(&boxes, &routes, texts)
}

impl<'a> Column<'a> {
    fn of(picture: &'a Picture, number: usize, job: &'a Job) -> Column<'a> {
        let nodes = order(picture, job);
        let links = links(picture, job, &nodes);
        let mut column = Column {
            picture,
            job,
            name: picture.names.job(number).to_string(),
            nodes,
            links,
            labels: Vec::new(),
        };
        column.labels = column.links.iter().map(|l| column.label(l)).collect();
        column
    }

    fn node_name(&self, place: usize) -> String {
        self.picture.names.node(self.nodes[place]).to_string()
    }

    fn is_unreached(&self, place: usize) -> bool {
        self.picture.is_unreached(self.nodes[place])
    }

    /// The lines of a link's label. A quiet step has one only where it shares its arrow.
    fn label(&self, link: &Link) -> Vec<Label> {
        let alone = link.acts.len() == 1;
        let lines = link.acts.iter().filter_map(|&act| {
            let words = match self.picture.label(act) {
                None if alone => return None,
                None => "quiet step".to_string(),
                Some(words) => words,
            };
            let ink = self.ink(link, act);
            Some(Label { words, ink })
        });
        lines.collect()
    }

    fn ink(&self, link: &Link, act: Act) -> Ink {
        if self.is_unreached(link.from) {
            return Ink::Grey;
        }
        act.channel().map_or(Ink::Dark, Ink::Channel)
    }

    /// The ink of a link's line: that of its moves, if they all have the same.
    fn line_ink(&self, link: &Link) -> Ink {
        let mut inks = link.acts.iter().map(|&act| self.ink(link, act));
        let first = inks.next().unwrap_or(Ink::Dark);
        if inks.all(|ink| ink == first) {
            first
        } else {
            Ink::Dark
        }
    }

    /// The moves of a link in the plan's words, a line for each.
    fn title(&self, link: &Link) -> String {
        let (from, to) = (self.node_name(link.from), self.node_name(link.to));
        let lines = link.acts.iter().map(|&act| match self.picture.words(act) {
            None => format!("{from} then {to}"),
            Some(words) => format!("{from} {words} then {to}"),
        });
        lines.collect::<Vec<_>>().join("\n")
    }

    /// The ports of a box from top to bottom: those of links to boxes above, the nearest first, then those of a link to the box itself,
    /// then those of links to boxes below, the farthest first. In this order links of one box do not cross each other.
    fn ports(&self, place: usize) -> Vec<Port> {
        let mut ports = Vec::new();
        for (number, link) in self.links.iter().enumerate().filter(|l| !l.1.is_straight()) {
            if link.from == place {
                let height = self.labels[number].len() as i32 * LINE + 2;
                ports.push(port(number, false, place, link.to, height.max(ROW)));
            }
            if link.to == place {
                ports.push(port(number, true, place, link.from, ROW));
            }
        }
        ports.sort_by_key(|port| port.rank);
        ports
    }

    fn boxes(&self, ports: &[Vec<Port>]) -> Vec<Rect> {
        let names = (0..self.nodes.len()).map(|p| width(&self.node_name(p), NODE_SIZE) + 2 * 12);
        let width = names.max().unwrap_or(0).max(BOX_WIDTH);
        let mut y = TOP;
        let mut boxes = Vec::new();
        for (place, ports) in ports.iter().enumerate() {
            let height = (rows(ports) + 2 * ROWS_PAD).max(BOX_HEIGHT);
            boxes.push(Rect {
                x: PAD,
                y,
                width,
                height,
            });
            y += height + self.gap(place);
        }
        boxes
    }

    /// The space between a box and the next one.
    fn gap(&self, place: usize) -> i32 {
        let below = |link: &Link| link.is_straight() && link.from == place;
        match self.links.iter().position(below) {
            None => GAP,
            Some(link) => (self.labels[link].len() as i32 * LINE + 14).max(ARROW_GAP),
        }
    }

    /// The routes of all links, without their lanes; those of straight links are of no use.
    fn routes(&self, ports: &[Vec<Port>], boxes: &[Rect]) -> Vec<Route> {
        let mut routes = vec![Route::default(); self.links.len()];
        for (ports, rect) in ports.iter().zip(boxes) {
            set_rows(&mut routes, ports, rect);
        }
        routes
    }

    /// Gives each link the innermost lane that passes no text and meets no other link, the shortest link first.
    fn set_lanes(&self, routes: &mut [Route], texts: &[Vec<Text>], first: i32) {
        let mut numbers: Vec<usize> = (0..self.links.len()).collect();
        numbers.retain(|&n| !self.links[n].is_straight());
        numbers.sort_by_key(|&n| (routes[n].bottom() - routes[n].top(), n));
        let mut taken: Vec<Route> = Vec::new();
        for number in numbers {
            let route = &mut routes[number];
            let passed = texts.iter().flatten().filter(|text| route.passes(text));
            let right = passed.map(Text::right).max().unwrap_or(0);
            let beside = |lane: &i32| *lane >= right + LANE_BESIDE;
            let free = |lane: &i32| !taken.iter().any(|t| t.lane == *lane && t.meets(route));
            let lanes = (0..).map(|lane| first + lane * LANE);
            route.lane = lanes.filter(beside).find(free).unwrap_or(first);
            taken.push(*route);
        }
    }

    fn drawn(&self, boxes: &[Rect], routes: &[Route], texts: Vec<Vec<Text>>) -> Frame {
        let labels = texts.iter().flatten().map(Text::right).max().unwrap_or(0);
        let lanes = routes.iter().map(|route| route.lane).max().unwrap_or(0);
        let side = boxes.first().map_or(0, Rect::right);
        let heading = self.heading();
        let name = heading.iter().map(Text::right).max().unwrap_or(0);
        let arrows = texts.into_iter().enumerate();
        Frame {
            title: self.frame_title(),
            width: labels.max(lanes).max(side).max(name) + PAD,
            height: boxes.last().map_or(TOP, Rect::bottom) + PAD,
            texts: heading,
            entry: boxes.first().map(entry_arrow),
            boxes: (0..boxes.len())
                .map(|p| self.node_box(p, boxes[p]))
                .collect(),
            arrows: arrows
                .map(|(n, texts)| self.arrow(n, texts, boxes, &routes[n]))
                .collect(),
        }
    }

    fn frame_title(&self) -> String {
        let kind = if self.job.standing { "service" } else { "job" };
        format!("{kind} {}", self.name)
    }

    /// The name of the job, and `service` beside it.
    fn heading(&self) -> Vec<Text> {
        let name = Text::new(PAD, 24, JOB_SIZE, Ink::Dark, &self.name);
        let mark = Text::new(name.right() + 10, 24, LABEL_SIZE, Ink::Dark, "service");
        let mut texts = vec![Text { bold: true, ..name }];
        if self.job.standing {
            texts.push(mark);
        }
        texts
    }

    fn node_box(&self, place: usize, rect: Rect) -> NodeBox {
        let name = self.node_name(place);
        let unreached = self.is_unreached(place);
        let ink = if unreached { Ink::Grey } else { Ink::Dark };
        let x = rect.x + (rect.width - width(&name, NODE_SIZE)) / 2;
        NodeBox {
            title: format!("{} at {name}", self.name),
            rect,
            text: Text::new(x, rect.y + rect.height / 2 + 4, NODE_SIZE, ink, &name),
            exit: !self.job.standing && self.nodes[place] == self.job.exit,
            unreached,
        }
    }

    /// The labels of all links, in their places.
    fn texts(&self, boxes: &[Rect], routes: &[Route]) -> Vec<Vec<Text>> {
        let numbers = 0..self.links.len();
        numbers
            .map(|n| self.label_texts(n, boxes, &routes[n]))
            .collect()
    }

    /// The label of a link: at the right of a straight arrow, or in the row in which the link leaves its box.
    fn label_texts(&self, number: usize, boxes: &[Rect], route: &Route) -> Vec<Text> {
        let link = &self.links[number];
        let from = &boxes[link.from];
        let (x, middle) = if link.is_straight() {
            let middle = (from.bottom() + boxes[link.to].y) / 2;
            (from.middle() + BESIDE, middle - 3)
        } else {
            (from.right() + STUB, route.leaves)
        };
        let labels = &self.labels[number];
        let top = middle - labels.len() as i32 * LINE / 2;
        let lines = labels.iter().zip(0..);
        lines
            .map(|(l, n)| Text::new(x, top + n * LINE + 12, LABEL_SIZE, l.ink, &l.words))
            .collect()
    }

    fn arrow(&self, number: usize, texts: Vec<Text>, boxes: &[Rect], route: &Route) -> Arrow {
        let link = &self.links[number];
        let (from, to) = (&boxes[link.from], &boxes[link.to]);
        let pieces = if link.is_straight() {
            vec![vec![(from.middle(), from.bottom()), (to.middle(), to.y)]]
        } else {
            sideways(from.right(), &texts, route)
        };
        Arrow {
            title: self.title(link),
            ink: self.line_ink(link),
            pieces,
            texts,
        }
    }
}

/// The line of a link that goes along a lane, broken by its label. A bar holds the lines of the label together.
fn sideways(side: i32, texts: &[Text], route: &Route) -> Vec<Vec<Point>> {
    let label = texts.iter().map(Text::right).max();
    let y = route.leaves;
    let way = vec![
        (label.map_or(side, |right| right + BESIDE / 2), y),
        (route.lane, y),
        (route.lane, route.enters),
        (side, route.enters),
    ];
    if label.is_none() {
        return vec![way];
    }
    let bar = side + STUB - BESIDE / 2;
    let half = (texts.len() as i32 * LINE) / 2 - 3;
    let mut pieces = vec![vec![(side, y), (bar, y)]];
    if texts.len() > 1 {
        pieces.push(vec![(bar, y - half), (bar, y + half)]);
    }
    pieces.push(way);
    pieces
}

/// The arrow into the entry, from above.
fn entry_arrow(entry: &Rect) -> Arrow {
    Arrow {
        title: String::new(),
        ink: Ink::Dark,
        pieces: vec![vec![
            (entry.middle(), entry.y - 24),
            (entry.middle(), entry.y),
        ]],
        texts: Vec::new(),
    }
}

fn port(link: usize, into: bool, place: usize, other: usize, height: i32) -> Port {
    let away = place as isize - other as isize;
    let number = link as isize;
    let rank = match away {
        1.. => (0, away, number, into),
        0 => (1, 0, number, into),
        _ => (2, away, -number, into),
    };
    Port {
        link,
        into,
        rank,
        height,
    }
}

/// How high the rows of a box are together.
fn rows(ports: &[Port]) -> i32 {
    ports.iter().map(|port| port.height).sum()
}

/// Writes where the links of a box leave it and come in.
fn set_rows(routes: &mut [Route], ports: &[Port], rect: &Rect) {
    let mut y = rect.y + (rect.height - rows(ports)) / 2;
    for port in ports {
        let route = &mut routes[port.link];
        let end = if port.into {
            &mut route.enters
        } else {
            &mut route.leaves
        };
        *end = y + port.height / 2;
        y += port.height;
    }
}

/// The moves of a job as links, in the order in which they are first met.
fn links(picture: &Picture, job: &Job, nodes: &[usize]) -> Vec<Link> {
    let mut places = vec![0; job.size];
    for (place, node) in nodes.iter().enumerate() {
        places[node - job.first] = place;
    }
    let mut links: Vec<Link> = Vec::new();
    for step in picture.moves(job) {
        let (from, to) = (places[step.from - job.first], places[step.to - job.first]);
        match links.iter_mut().find(|l| l.from == from && l.to == to) {
            Some(link) => link.acts.push(step.act),
            None => links.push(Link {
                from,
                to,
                acts: vec![step.act],
            }),
        }
    }
    links
}

/// The nodes of a job from top to bottom: the entry, then the others along the moves, then those to which no moves lead; the exit is last.
fn order(picture: &Picture, job: &Job) -> Vec<usize> {
    let mut next = vec![Vec::new(); job.size];
    for step in picture.moves(job) {
        next[step.from - job.first].push(step.to - job.first);
    }
    // Nodes have their numbers as the plan's words mention them: the way that was written first goes on below.
    next.iter_mut().for_each(|nodes| nodes.sort());
    let mut seen = vec![false; job.size];
    let ends = holds(job, job.exit) && job.exit != job.entry;
    if ends {
        seen[job.exit - job.first] = true;
    }
    let mut nodes = Vec::new();
    let entry = holds(job, job.entry).then(|| job.entry - job.first);
    for root in entry.into_iter().chain(0..job.size) {
        nodes.extend(onward(root, &next, &mut seen));
    }
    if ends {
        nodes.push(job.exit - job.first);
    }
    nodes.iter().map(|node| job.first + node).collect()
}

/// A node and those to which moves lead from it that were not seen before; each stands before those that it leads to, but for moves back.
fn onward(root: usize, next: &[Vec<usize>], seen: &mut [bool]) -> Vec<usize> {
    let mut finished = Vec::new();
    let mut way = if seen[root] { Vec::new() } else { vec![root] };
    seen[root] = true;
    while let Some(&node) = way.last() {
        match next[node].iter().rev().find(|&&node| !seen[node]) {
            Some(&unseen) => {
                seen[unseen] = true;
                way.push(unseen);
            }
            None => finished.extend(way.pop()),
        }
    }
    finished.reverse();
    finished
}

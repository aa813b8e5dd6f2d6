//! A page written as SVG.
use super::colour;
use super::column::{Frame, NodeBox};
use super::layout::{Key, Page, Placed, Sign};
use super::shapes::{Arrow, Ink, Point, Rect, Text};
use std::fmt::Display;

const FONTS: &str = "DejaVu Sans Mono, Liberation Mono, Menlo, Consolas, monospace";
const DARK: &str = "#222222";
const GREY: &str = "#6b6b6b";
const PALE: &str = "#e8e8e8";
const WHITE: &str = "#ffffff";
/// How long the head of an arrow is, and how far it reaches to each side.
const HEAD: i32 = 8;
const HEAD_SIDE: i32 = 4;
/// How far before a corner a line begins to bend.
const BEND: i32 = 5;

/// The page as a document.
pub fn write(page: &Page) -> String {
    let mut svg = Svg::new();
    let (width, height) = (page.width, page.height);
    svg.open(
        "svg",
        &[
            ("xmlns", &"http://www.w3.org/2000/svg"),
            ("width", &width),
            ("height", &height),
            ("viewBox", &format!("0 0 {width} {height}")),
            ("font-family", &FONTS),
        ],
    );
    svg.title(&page.title);
    svg.shape(
        "rect",
        &[("width", &width), ("height", &height), ("fill", &WHITE)],
    );
    svg.text(&page.caption);
    for key in &page.legend {
        svg.group("key", Some((key.x, key.y)), "", |svg| svg.key(&key.what));
    }
    for frame in &page.frames {
        svg.frame(frame);
    }
    svg.close("svg");
    svg.out
}

/// The document as far as it is written.
struct Svg {
    out: String,
    depth: usize,
}

type Attributes<'a> = [(&'a str, &'a dyn Display)];

impl Svg {
    fn new() -> Svg {
        Svg {
            out: "<?xml version=\"1.0\" encoding=\"UTF-8\"?>\n".to_string(),
            depth: 0,
        }
    }

    fn line(&mut self, line: &str) {
        self.out.push_str(&"  ".repeat(self.depth));
        self.out.push_str(line);
        self.out.push('\n');
    }

    fn open(&mut self, tag: &str, attributes: &Attributes) {
        self.line(&format!("<{}>", element(tag, attributes)));
        self.depth += 1;
    }

    fn close(&mut self, tag: &str) {
        self.depth -= 1;
        self.line(&format!("</{tag}>"));
    }

    fn shape(&mut self, tag: &str, attributes: &Attributes) {
        self.line(&format!("<{}/>", element(tag, attributes)));
    }

    fn words(&mut self, tag: &str, attributes: &Attributes, words: &str) {
        let element = element(tag, attributes);
        self.line(&format!("<{element}>{}</{tag}>", escaped(words)));
    }

    fn title(&mut self, words: &str) {
        if !words.is_empty() {
            self.words("title", &[], words);
        }
    }

    fn text(&mut self, text: &Text) {
        let (fill, length) = (paint(text.ink), text.width());
        let mut attributes: Vec<(&str, &dyn Display)> = vec![
            ("x", &text.x),
            ("y", &text.y),
            ("font-size", &text.size),
            ("fill", &fill),
            ("textLength", &length),
            ("lengthAdjust", &"spacingAndGlyphs"),
        ];
        if text.bold {
            attributes.push(("font-weight", &"bold"));
        }
        if !text.words.is_empty() {
            self.words("text", &attributes, &text.words);
        }
    }

    /// A group with a title, and with what is written into it.
    fn group(
        &mut self,
        class: &str,
        at: Option<Point>,
        title: &str,
        inside: impl FnOnce(&mut Svg),
    ) {
        match at {
            None => self.open("g", &[("class", &class)]),
            Some((x, y)) => {
                let place = format!("translate({x},{y})");
                self.open("g", &[("class", &class), ("transform", &place)]);
            }
        }
        self.title(title);
        inside(self);
        self.close("g");
    }

    fn frame(&mut self, frame: &Placed<Frame>) {
        let at = Some((frame.x, frame.y));
        self.group("job", at, &frame.what.title, |svg| svg.job(&frame.what));
    }

    fn job(&mut self, frame: &Frame) {
        let outline = Rect {
            x: 0,
            y: 0,
            width: frame.width,
            height: frame.height,
        };
        self.rect(&outline, 10, "#fafafa", "#777777", false);
        for text in &frame.texts {
            self.text(text);
        }
        for node in &frame.boxes {
            self.group("node", None, &node.title, |svg| svg.node(node));
        }
        if let Some(entry) = &frame.entry {
            self.group("entry", None, "", |svg| svg.entry(entry));
        }
        for arrow in &frame.arrows {
            self.group("move", None, &arrow.title, |svg| svg.arrow(arrow));
        }
    }

    fn node(&mut self, node: &NodeBox) {
        self.node_rect(&node.rect, node.exit, node.unreached);
        self.text(&node.text);
    }

    /// The box of a node: double for an exit, grey and dashed where no run comes.
    fn node_rect(&mut self, rect: &Rect, exit: bool, unreached: bool) {
        let (fill, stroke, dashed) = if unreached {
            (PALE, GREY, true)
        } else {
            (WHITE, DARK, false)
        };
        self.rect(rect, 4, fill, stroke, dashed);
        if exit {
            let inner = Rect {
                x: rect.x + 3,
                y: rect.y + 3,
                width: rect.width - 6,
                height: rect.height - 6,
            };
            self.rect(&inner, 2, "none", stroke, dashed);
        }
    }

    fn rect(&mut self, rect: &Rect, round: i32, fill: &str, stroke: &str, dashed: bool) {
        let mut attributes: Vec<(&str, &dyn Display)> = vec![
            ("x", &rect.x),
            ("y", &rect.y),
            ("width", &rect.width),
            ("height", &rect.height),
            ("rx", &round),
            ("fill", &fill),
            ("stroke", &stroke),
        ];
        if dashed {
            attributes.push(("stroke-dasharray", &"4 3"));
        }
        self.shape("rect", &attributes);
    }

    /// The arrow into an entry begins with a dot.
    fn entry(&mut self, arrow: &Arrow) {
        if let Some(&(x, y)) = arrow.pieces.first().and_then(|piece| piece.first()) {
            self.shape(
                "circle",
                &[("cx", &x), ("cy", &y), ("r", &4), ("fill", &DARK)],
            );
        }
        self.arrow(arrow);
    }

    fn arrow(&mut self, arrow: &Arrow) {
        let stroke = paint(arrow.ink);
        let (line, head) = path(&arrow.pieces);
        self.shape(
            "path",
            &[
                ("d", &line),
                ("fill", &"none"),
                ("stroke", &stroke),
                ("stroke-width", &"1.4"),
            ],
        );
        self.shape("path", &[("d", &head), ("fill", &stroke)]);
        for text in &arrow.texts {
            self.text(text);
        }
    }

    fn key(&mut self, key: &Key) {
        let small = Rect {
            x: 0,
            y: 3,
            width: 26,
            height: 16,
        };
        match key.sign {
            Sign::None => (),
            Sign::Exit => self.node_rect(&small, true, false),
            Sign::Unreached => self.node_rect(&small, false, true),
            Sign::Entry => self.entry(&bare_arrow(vec![(4, 11), (26, 11)])),
            Sign::Channel(channel) => self.shape(
                "path",
                &[
                    ("d", &"M 0 11 L 26 11"),
                    ("fill", &"none"),
                    ("stroke", &colour(channel)),
                    ("stroke-width", &"4"),
                ],
            ),
        }
        self.text(&key.text);
    }
}

fn bare_arrow(piece: Vec<Point>) -> Arrow {
    Arrow {
        title: String::new(),
        ink: Ink::Dark,
        pieces: vec![piece],
        texts: Vec::new(),
    }
}

fn paint(ink: Ink) -> String {
    match ink {
        Ink::Dark => DARK.to_string(),
        Ink::Grey => GREY.to_string(),
        Ink::Channel(channel) => colour(channel),
    }
}

/// The line of an arrow, which ends inside the head, and the head.
fn path(pieces: &[Vec<Point>]) -> (String, String) {
    let mut pieces = pieces.to_vec();
    let mut head = String::new();
    if let Some([.., before, tip]) = pieces.last_mut().map(Vec::as_mut_slice) {
        let base = toward(*tip, *before, HEAD);
        let (x, y) = (base.0 - tip.0, base.1 - tip.1);
        let (side_x, side_y) = (y.signum() * HEAD_SIDE, x.signum() * HEAD_SIDE);
        head = format!(
            "M {} {} L {} {} L {} {} Z",
            tip.0,
            tip.1,
            base.0 + side_x,
            base.1 + side_y,
            base.0 - side_x,
            base.1 - side_y
        );
        *tip = toward(*tip, *before, HEAD - 1);
    }
    let lines: Vec<String> = pieces.iter().map(|piece| bent(piece)).collect();
    (lines.join(" "), head)
}

/// A line through points, with its corners rounded.
fn bent(points: &[Point]) -> String {
    let Some(((x, y), rest)) = points.split_first() else {
        return String::new();
    };
    let mut line = format!("M {x} {y}");
    for (at, &corner) in rest.iter().enumerate() {
        let before = points[at];
        match rest.get(at + 1) {
            None => line += &format!(" L {} {}", corner.0, corner.1),
            Some(&after) => line += &bend(before, corner, after),
        }
    }
    line
}

/// A line up to a corner and around it.
fn bend(before: Point, corner: Point, after: Point) -> String {
    let round = BEND
        .min(distance(before, corner) / 2)
        .min(distance(corner, after) / 2);
    let (begin, end) = (toward(corner, before, round), toward(corner, after, round));
    format!(
        " L {} {} Q {} {} {} {}",
        begin.0, begin.1, corner.0, corner.1, end.0, end.1
    )
}

/// The point that is so far from one toward another; the two are on one level, or one above the other.
fn toward(from: Point, to: Point, far: i32) -> Point {
    let (x, y) = (to.0 - from.0, to.1 - from.1);
    (from.0 + x.signum() * far, from.1 + y.signum() * far)
}

fn distance(from: Point, to: Point) -> i32 {
    (to.0 - from.0).abs() + (to.1 - from.1).abs()
}

/// A tag with its attributes.
fn element(tag: &str, attributes: &Attributes) -> String {
    let mut element = tag.to_string();
    for (name, value) in attributes {
        element += &format!(" {name}=\"{}\"", escaped(&value.to_string()));
    }
    element
}

/// Words as XML has them. What XML cannot hold is shown as U+FFFD.
fn escaped(words: &str) -> String {
    let mut out = String::new();
    for letter in words.chars() {
        match letter {
            '&' => out += "&amp;",
            '<' => out += "&lt;",
            '>' => out += "&gt;",
            '"' => out += "&quot;",
            '\'' => out += "&apos;",
            '\n' => out.push(letter),
            '\0'..='\x1f' | '\x7f' | '\u{fffe}' | '\u{ffff}' => out.push('\u{fffd}'),
            _ => out.push(letter),
        }
    }
    out
}

//! What a page is made of: rectangles, texts and lines at whole numbers of pixels.

/// A place on the page, from left and from above.
pub type Point = (i32, i32);

#[derive(Clone, Copy)]
pub struct Rect {
    pub x: i32,
    pub y: i32,
    pub width: i32,
    pub height: i32,
}

impl Rect {
    pub fn right(&self) -> i32 {
        self.x + self.width
    }

    pub fn bottom(&self) -> i32 {
        self.y + self.height
    }

    pub fn middle(&self) -> i32 {
        self.x + self.width / 2
    }
}

/// What a text or a line is drawn with.
#[derive(Clone, Copy, PartialEq, Eq)]
pub enum Ink {
    Dark,
    Grey,
    Channel(usize),
}

/// One line of text. It begins at `x` and stands on `y`.
#[derive(Clone)]
pub struct Text {
    pub x: i32,
    pub y: i32,
    pub size: i32,
    pub bold: bool,
    pub ink: Ink,
    pub words: String,
}

impl Text {
    pub fn new(x: i32, y: i32, size: i32, ink: Ink, words: &str) -> Text {
        Text {
            x,
            y,
            size,
            bold: false,
            ink,
            words: words.to_string(),
        }
    }

    pub fn width(&self) -> i32 {
        width(&self.words, self.size)
    }

    pub fn right(&self) -> i32 {
        self.x + self.width()
    }
}

/// A line with a head at its end, and what is written beside it.
pub struct Arrow {
    pub title: String,
    pub ink: Ink,
    /// The line's pieces; a label may stand between two. The last one ends at the tip of the head.
    pub pieces: Vec<Vec<Point>>,
    pub texts: Vec<Text>,
}

/// How wide words are in a font whose letters are all six tenths of its size wide, rounded up.
pub fn width(words: &str, size: i32) -> i32 {
    let cells: i32 = words.chars().map(cells).sum();
    (cells.max(1) * size * 6 + 9) / 10
}

/// The width of a letter: none for a mark that stands on the letter before it, two for a letter of a wide script, else one.
fn cells(letter: char) -> i32 {
    match u32::from(letter) {
        0x0300..=0x036f | 0x200b..=0x200f | 0xfe00..=0xfe0f => 0,
        0x1100..=0x115f
        | 0x2e80..=0xa4cf
        | 0xa960..=0xa97f
        | 0xac00..=0xd7a3
        | 0xf900..=0xfaff
        | 0xfe30..=0xfe6f
        | 0xff00..=0xff60
        | 0xffe0..=0xffe6
        | 0x1b000..=0x1b2ff
        | 0x1f300..=0x1faff
        | 0x20000..=0x3fffd => 2,
        _ => 1,
    }
}

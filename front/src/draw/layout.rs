//! A page: the caption, the legend below it, and the jobs in rows.
use super::column::{frame, Frame, LABEL_SIZE};
use super::shapes::{Ink, Text};
use super::Picture;

/// The space around everything, and between frames.
const MARGIN: i32 = 20;
/// How wide a row of frames may be, if it has more than one.
const ROW_WIDTH: i32 = 1460;
/// How wide a row of the legend may be, if the frames are not wider.
const LEGEND_WIDTH: i32 = 480;
const LEGEND_HEIGHT: i32 = 22;
const CAPTION_SIZE: i32 = 16;
/// A sign of the legend, with the space behind it.
const SIGN_WIDTH: i32 = 34;

pub struct Page {
    pub title: String,
    pub width: i32,
    pub height: i32,
    pub caption: Text,
    pub legend: Vec<Placed<Key>>,
    pub frames: Vec<Placed<Frame>>,
}

/// Something whose upper left corner stands at a place of the page.
pub struct Placed<T> {
    pub x: i32,
    pub y: i32,
    pub what: T,
}

/// A sign and what it says.
pub struct Key {
    pub sign: Sign,
    pub text: Text,
}

#[derive(Clone, Copy)]
pub enum Sign {
    Entry,
    Exit,
    Unreached,
    Channel(usize),
    /// Words alone.
    None,
}

/// The picture laid out.
pub fn page(picture: &Picture) -> Page {
    let y = MARGIN + CAPTION_SIZE;
    let caption = Text::new(MARGIN, y, CAPTION_SIZE, Ink::Dark, &picture.caption);
    let jobs = picture.plan.jobs.iter().enumerate();
    let frames: Vec<Frame> = jobs.map(|(n, job)| frame(picture, n, job)).collect();
    let frame_sizes = frames.iter().map(|f| (f.width, f.height)).collect();
    let (frame_places, frames_width, frames_height) = rows(frame_sizes, ROW_WIDTH, MARGIN);
    let row_width = frames_width.max(LEGEND_WIDTH);
    let signs_y = caption.y + 14;
    let (signs, signs_width, channels_y) = legend(signs(picture), row_width, signs_y);
    let channels = channels(picture);
    let (channels, channels_width, legend_bottom) = legend(channels, row_width, channels_y);
    let frames_y = legend_bottom + 12;
    let inside = [frames_width, signs_width, channels_width, caption.width()];
    Page {
        title: picture.caption.clone(),
        width: inside.into_iter().max().unwrap_or(0) + 2 * MARGIN,
        height: frames_y + frames_height + MARGIN,
        caption: Text {
            bold: true,
            ..caption
        },
        legend: signs.into_iter().chain(channels).collect(),
        frames: placed(frames, frame_places, frames_y),
    }
}

/// A part of the legend in its place. Gives also how wide it is, and where it ends.
fn legend(keys: Vec<Key>, row_width: i32, top: i32) -> (Vec<Placed<Key>>, i32, i32) {
    let sizes = keys.iter().map(|key| (key.text.right(), LEGEND_HEIGHT));
    let (places, width, height) = rows(sizes.collect(), row_width, 0);
    (placed(keys, places, top), width, top + height)
}

/// Puts things of these sizes side by side, in as many rows as it takes. Gives their places, and how wide and how high all is.
fn rows(sizes: Vec<(i32, i32)>, row_width: i32, space: i32) -> (Vec<(i32, i32)>, i32, i32) {
    let (mut x, mut y) = (0, 0);
    let (mut width, mut bottom) = (0, 0);
    let mut places = Vec::new();
    for (wide, high) in sizes {
        if x > 0 && x + wide > row_width {
            (x, y) = (0, bottom + space);
        }
        places.push((x, y));
        width = width.max(x + wide);
        bottom = bottom.max(y + high);
        x += wide + MARGIN;
    }
    (places, width, bottom)
}

fn placed<T>(things: Vec<T>, places: Vec<(i32, i32)>, top: i32) -> Vec<Placed<T>> {
    let both = things.into_iter().zip(places);
    let put = both.map(|(what, (x, y))| Placed {
        x: MARGIN + x,
        y: top + y,
        what,
    });
    put.collect()
}

/// The signs that the picture has.
fn signs(picture: &Picture) -> Vec<Key> {
    let jobs = &picture.plan.jobs;
    let unreached = (0..picture.plan.nodes).any(|node| picture.is_unreached(node));
    let signs = [
        (!jobs.is_empty(), Sign::Entry, "begins here"),
        (
            jobs.iter().any(|job| !job.standing),
            Sign::Exit,
            "ends here",
        ),
        (unreached, Sign::Unreached, "no run comes here"),
    ];
    let shown = signs.into_iter().filter(|sign| sign.0);
    shown.map(|(_, sign, words)| key(sign, words)).collect()
}

/// Each channel with its event, behind a word that says what they are.
fn channels(picture: &Picture) -> Vec<Key> {
    let numbers = 0..picture.plan.channels.len();
    let mut keys: Vec<Key> = numbers.map(|n| channel(picture, n)).collect();
    if !keys.is_empty() {
        keys.insert(0, key(Sign::None, "channels:"));
    }
    keys
}

fn channel(picture: &Picture, number: usize) -> Key {
    let name = picture.names.channel(number).to_string();
    key(Sign::Channel(number), &picture.with_event(name, number))
}

fn key(sign: Sign, words: &str) -> Key {
    let ink = match sign {
        Sign::Channel(channel) => Ink::Channel(channel),
        Sign::Unreached => Ink::Grey,
        Sign::Entry | Sign::Exit | Sign::None => Ink::Dark,
    };
    let x = match sign {
        Sign::None => 0,
        _ => SIGN_WIDTH,
    };
    let text = Text::new(x, 15, LABEL_SIZE, ink, words);
    Key { sign, text }
}

//! What the signs of a picture mean.

use super::svg::{Point, Rect, Svg};
use std::collections::BTreeSet;
use std::format;
use std::vec::Vec;

/// How the legend shows a class.
#[derive(Clone, Copy)]
enum Sample {
    Bar,
    Line,
    Cross,
}

/// A class of `style.css`, and what it means.
#[derive(Clone, Copy)]
struct Entry {
    class: &'static str,
    sample: Sample,
    meaning: &'static str,
}

/// All entries, in the order in which they are shown.
const ENTRIES: [Entry; 9] = [
    entry(Sample::Bar, "alive", "alive"),
    entry(Sample::Bar, "reserved", "reserved for a caller"),
    entry(Sample::Bar, "waiting", "waits for its next occupant"),
    entry(Sample::Bar, "retired", "retired"),
    entry(Sample::Bar, "open", "a caller requests so many"),
    entry(
        Sample::Bar,
        "stepped",
        "the cursor before and after the caller's step",
    ),
    entry(Sample::Line, "flush", "flush"),
    entry(Sample::Line, "differs", "the line that differs"),
    entry(Sample::Cross, "refused", "did nothing, or got nothing"),
];

/// How wide a sample is, and how high.
const WIDTH: usize = 26;
const HEIGHT: usize = 14;

/// How far a text is from its sample, and its baseline from the top of that.
const SPACE: usize = 6;
const BASE: usize = 11;

/// How high a line of the legend is, and how far its entries are apart at least.
const LINE: usize = 20;
const GAP: usize = 18;

/// A letter of a text is at most so wide on average.
const LETTER: usize = 6;

/// The entries of a picture, with the place of each.
pub(super) struct Legend {
    entries: Vec<(Point, Entry)>,
    /// How high it is.
    pub(super) height: usize,
}

impl Legend {
    /// The legend of these classes, line by line between two places.
    pub(super) fn new(classes: &BTreeSet<&str>, left: usize, right: usize) -> Self {
        let (mut x, mut y) = (left, 0);
        let mut entries = Vec::new();
        for entry in ENTRIES {
            if !classes.contains(entry.class) {
                continue;
            }
            let width = WIDTH + SPACE + LETTER * entry.meaning.len();
            if x > left && x + width > right {
                (x, y) = (left, y + LINE);
            }
            entries.push((Point(x, y), entry));
            x += width + GAP;
        }
        let height = y + LINE;
        Legend { entries, height }
    }

    /// Draws it so far from the top.
    pub(super) fn draw(&self, svg: &mut Svg, top: usize) {
        for (Point(x, y), entry) in &self.entries {
            let y = y + top;
            entry.draw_sample(svg, Point(*x, y));
            let meaning = Point(x + WIDTH + SPACE, y + BASE);
            svg.text("prose", meaning, entry.meaning);
        }
    }
}

impl Entry {
    fn draw_sample(self, svg: &mut Svg, at: Point) {
        let Point(x, y) = at;
        let (width, height, middle) = (WIDTH, HEIGHT, x + WIDTH / 2);
        match self.sample {
            Sample::Bar => svg.rect(self.class, Rect { at, width, height }),
            Sample::Line => svg.line(self.class, Point(middle, y), Point(middle, y + height)),
            Sample::Cross => {
                let class = format!("{} middle", self.class);
                svg.text(&class, Point(middle, y + BASE), "\u{d7}");
            }
        }
    }
}

const fn entry(sample: Sample, class: &'static str, meaning: &'static str) -> Entry {
    Entry {
        class,
        sample,
        meaning,
    }
}

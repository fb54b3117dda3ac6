//! A timeline as an SVG.

use super::band::{Band, Bar, Row};
use super::label::{width_of, Label};
use super::layout::{rising_text, Layout, LEVEL_LINE, MARGIN, NAME_PADDING, PADDING, ROW};
use super::legend::Legend;
use super::svg::{Point, Rect, Svg};
use super::timeline::{Mark, Moment, Timeline};
use std::collections::BTreeSet;
use std::format;
use std::string::{String, ToString};

/// How high a bar is, and how far it is from the top of its row.
const BAR: usize = 14;
const BAR_TOP: usize = 2;

/// How far the baseline of a row's text is from its top.
const BASE: usize = 13;

/// The narrowest picture: its legend has to have room.
const LEAST_WIDTH: usize = 560;

/// What is left free between two bands.
const GAP: usize = 22;

/// What a picture says of itself.
pub(super) struct Caption<'a> {
    pub(super) title: &'a str,
    /// How it is read, for those who can't see it.
    pub(super) about: &'a str,
    /// What is below the title.
    pub(super) lines: &'a [String],
}

/// A picture of a timeline: its caption, and the bands below each other.
pub(super) struct Picture<'a> {
    caption: Caption<'a>,
    layout: Layout<'a>,
    legend: Legend,
    width: usize,
}

impl<'a> Picture<'a> {
    pub(super) fn new(caption: Caption<'a>, timeline: &'a Timeline) -> Self {
        let layout = Layout::new(timeline);
        let lines = caption.lines.iter();
        let lines = lines.map(|line| width_of(line) + 2 * MARGIN).max();
        let width = layout.width().max(lines.unwrap_or(0)).max(LEAST_WIDTH);
        let legend = Legend::new(&classes_of(&layout), MARGIN, width - MARGIN);
        Picture {
            caption,
            layout,
            legend,
            width,
        }
    }

    /// The text of the picture.
    pub(super) fn svg(&self) -> String {
        let Caption {
            title,
            about,
            lines,
        } = self.caption;
        let top = MARGIN + ROW + lines.len() * ROW;
        let bands = self.layout.bands.iter();
        let bands: usize = bands.map(|band| self.height_of(*band)).sum();
        let height = top + bands + self.legend.height + MARGIN;
        let about = [&[about.to_string()], lines].concat().join(" ");
        let mut svg = Svg::new(self.width, height, title, &about);
        self.draw_caption(&mut svg);
        let mut y = top;
        for band in &self.layout.bands {
            self.draw_band(&mut svg, *band, y);
            y += self.height_of(*band);
        }
        self.legend.draw(&mut svg, y);
        svg.finish()
    }

    fn draw_caption(&self, svg: &mut Svg) {
        let (x, mut y) = (MARGIN, MARGIN + 10);
        svg.text("title", Point(x, y), self.caption.title);
        for line in self.caption.lines {
            y += ROW;
            svg.text("", Point(x, y), line);
        }
    }

    fn height_of(&self, band: Band<'_>) -> usize {
        self.layout.head(band) + rows_of(band) * ROW + GAP
    }

    fn draw_band(&self, svg: &mut Svg, band: Band<'_>, top: usize) {
        let rows = top + self.layout.head(band);
        let bottom = rows + rows_of(band) * ROW;
        self.draw_events(svg, band, rows, bottom);
        let mut y = self.draw_rows(svg, band, &band.slots(), rows);
        if band.has_cursor() {
            self.draw_cursor(svg, band, y);
            y += ROW;
        }
        self.draw_rows(svg, band, &band.callers(), y);
        self.draw_thick_lines(svg, band, rows, bottom);
    }

    /// The texts of all events, and the lines of those that are thin.
    fn draw_events(&self, svg: &mut Svg, band: Band<'_>, top: usize, bottom: usize) {
        for (at, moment) in band.moments.iter().enumerate() {
            let x = self.layout.left_of(at + 1);
            if moment.mark == Mark::Plain {
                let from = Point(x, top - 3);
                svg.line("event", from, Point(x, bottom));
            }
            if self.layout.is_level {
                draw_level(svg, moment, Point(x, top - 7));
            } else {
                let at = Point(x + 3, top - 7);
                svg.rising_text(class_of(moment), at, &rising_text(moment));
            }
        }
    }

    fn draw_thick_lines(&self, svg: &mut Svg, band: Band<'_>, top: usize, bottom: usize) {
        for (at, moment) in band.moments.iter().enumerate() {
            let x = self.layout.left_of(at + 1);
            if let Some(class) = thick(moment.mark) {
                let from = Point(x, top - 3);
                svg.line(class, from, Point(x, bottom));
            }
        }
    }

    /// Draws rows one below the other, and returns where the last one ends.
    fn draw_rows(&self, svg: &mut Svg, band: Band<'_>, rows: &[Row], top: usize) -> usize {
        let mut y = top;
        for row in rows {
            self.draw_name(svg, &row.name, y);
            self.draw_ground(svg, band, y);
            for bar in &row.bars {
                self.draw_bar(svg, band, bar, y);
            }
            y += ROW;
        }
        y
    }

    /// The name of a row.
    fn draw_name(&self, svg: &mut Svg, name: &str, top: usize) {
        let x = self.layout.left - NAME_PADDING;
        let y = top + BASE;
        svg.text("end", Point(x, y), name);
    }

    /// The line on which bars lie.
    fn draw_ground(&self, svg: &mut Svg, band: Band<'_>, top: usize) {
        let y = top + BAR_TOP + BAR / 2;
        let from = Point(self.layout.left_of(0), y);
        let x = self.layout.left_of(band.moments.len() + 1);
        svg.line("row", from, Point(x, y));
    }

    fn draw_bar(&self, svg: &mut Svg, band: Band<'_>, bar: &Bar<Label>, top: usize) {
        let (label, column) = (&bar.what, self.layout.column);
        let left = self.layout.left_of(bar.begin);
        let at = Point(left + 2, top + BAR_TOP);
        let (width, height) = ((bar.end - bar.begin) * column - 4, BAR);
        svg.rect(label.class, Rect { at, width, height });
        let text = label.fitting(band.room(bar) * column - 2 * PADDING);
        let at = Point(left + PADDING, top + BASE);
        if label.has_pattern() && !text.is_empty() {
            draw_plate(svg, at, text);
        }
        svg.text(label.class_of_text(), at, text);
    }

    /// The cursor in each interval. It stands out where it isn't the one before.
    fn draw_cursor(&self, svg: &mut Svg, band: Band<'_>, top: usize) {
        self.draw_name(svg, "cursor", top);
        let mut before = None;
        for (at, state) in band.states().enumerate() {
            let is_new = state.cursor != before;
            let class = if is_new {
                "strong middle"
            } else {
                "quiet middle"
            };
            let x = self.layout.left_of(at) + self.layout.column / 2;
            let y = top + BASE;
            let text = state.cursor.map(|cursor| cursor.to_string());
            svg.text(class, Point(x, y), &text.unwrap_or_default());
            before = state.cursor;
        }
    }
}

/// A plain ground for a text that begins there.
fn draw_plate(svg: &mut Svg, begin: Point, text: &str) {
    let Point(x, y) = begin;
    let at = Point(x - 1, y + BAR_TOP + 2 - BASE);
    let (width, height) = (width_of(text) + 1, BAR - 4);
    svg.rect("plate", Rect { at, width, height });
}

/// The two lines of an event that are level: its text, and why it did nothing.
fn draw_level(svg: &mut Svg, moment: &Moment, at: Point) {
    let class = format!("{} middle", class_of(moment));
    let Some(note) = &moment.note else {
        return svg.text(&class, at, &moment.event);
    };
    let Point(x, y) = at;
    svg.text(&class, Point(x, y - LEVEL_LINE), &moment.event);
    svg.text("refused middle", at, &format!("\u{d7} {note}"));
}

/// The class of an event's text.
fn class_of(moment: &Moment) -> &'static str {
    match (moment.mark, &moment.note) {
        (Mark::Differs, _) => "differs",
        (Mark::Flush, _) => "strong",
        (Mark::Plain, Some(_)) => "refused",
        (Mark::Plain, None) => "",
    }
}

/// The class of a line that is thick.
fn thick(mark: Mark) -> Option<&'static str> {
    match mark {
        Mark::Plain => None,
        Mark::Flush => Some("flush"),
        Mark::Differs => Some("differs"),
    }
}

fn rows_of(band: Band<'_>) -> usize {
    band.slots().len() + band.callers().len() + usize::from(band.has_cursor())
}

/// All that the legend has to explain.
fn classes_of(layout: &Layout<'_>) -> BTreeSet<&'static str> {
    let mut classes = BTreeSet::new();
    for band in &layout.bands {
        classes.extend(band.bars().map(|bar| bar.what.class));
        classes.extend(band.moments.iter().filter_map(|moment| thick(moment.mark)));
        let notes = band.moments.iter().filter(|moment| moment.note.is_some());
        classes.extend(notes.map(|_| "refused"));
    }
    classes
}

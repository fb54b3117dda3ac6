//! How wide a picture's columns are, and how high its parts.

use super::band::Band;
use super::label::{width_of, Label};
use super::timeline::{Moment, Timeline};
use std::format;
use std::string::{String, ToString};
use std::vec::Vec;

/// What is left free around a picture.
pub(super) const MARGIN: usize = 14;

/// What is left free on each side of the names of rows.
pub(super) const NAME_PADDING: usize = 8;

/// How high a row is.
pub(super) const ROW: usize = 18;

/// What is left free on each side of a text in a bar, with the bar's own distance from the lines of
/// events.
pub(super) const PADDING: usize = 5;

/// How far the two lines of a level text are apart.
pub(super) const LEVEL_LINE: usize = 12;

/// The narrowest column: rising texts don't touch.
const LEAST_COLUMN: usize = 16;

/// The widest column that is made only so that the texts of events needn't rise, and the most
/// events of such a picture.
const MOST_LEVEL: (usize, usize) = (120, 14);

/// How a timeline is laid out. An interval is as wide as a column.
pub(super) struct Layout<'a> {
    pub(super) bands: Vec<Band<'a>>,
    /// Where the first intervals begin.
    pub(super) left: usize,
    pub(super) column: usize,
    /// Whether the texts of events are level. Else they rise.
    pub(super) is_level: bool,
}

impl<'a> Layout<'a> {
    pub(super) fn new(timeline: &'a Timeline) -> Self {
        let bands = Band::all_of(timeline);
        let rising = column_of(&bands, Label::least_width);
        let events = timeline.moments.iter().map(level_width).max();
        let level = events.unwrap_or(0) + 2 * PADDING;
        let level = level.max(column_of(&bands, Label::most_width));
        let is_level = level <= MOST_LEVEL.0 && timeline.moments.len() <= MOST_LEVEL.1;
        let column = if is_level { level } else { rising };
        let left = MARGIN + names_of(&bands) + 2 * NAME_PADDING;
        Layout {
            bands,
            left,
            column,
            is_level,
        }
    }

    /// Where an interval begins. The line of an event is where the interval after it begins.
    pub(super) fn left_of(&self, interval: usize) -> usize {
        self.left + interval * self.column
    }

    /// How wide the picture of the longest band is.
    pub(super) fn width(&self) -> usize {
        let most = self.bands.iter().map(|band| band.moments.len()).max();
        self.left_of(most.unwrap_or(0) + 1) + MARGIN
    }

    /// How high the texts of a band's events are.
    pub(super) fn head(&self, band: Band<'_>) -> usize {
        if self.is_level {
            let has_notes = band.moments.iter().any(|moment| moment.note.is_some());
            return ROW + if has_notes { LEVEL_LINE } else { 0 };
        }
        let texts = band.moments.iter().map(rising_text);
        let widest = texts.map(|text| width_of(&text)).max();
        widest.unwrap_or(0) + 2 * PADDING
    }
}

/// The text of an event that rises.
pub(super) fn rising_text(moment: &Moment) -> String {
    let note = moment.note.iter().map(|note| format!(" \u{d7} {note}"));
    core::iter::once(moment.event.clone()).chain(note).collect()
}

/// How wide the two lines of an event are that are level.
fn level_width(moment: &Moment) -> usize {
    let note = moment.note.as_ref();
    let note = note.map_or(0, |note| width_of(note) + width_of("\u{d7} "));
    width_of(&moment.event).max(note)
}

/// How wide the names of all rows are.
fn names_of(bands: &[Band<'_>]) -> usize {
    let rows = |band: &Band<'_>| band.slots().into_iter().chain(band.callers());
    let names = bands.iter().flat_map(rows).map(|row| width_of(&row.name));
    names.max().unwrap_or(0).max(width_of("cursor"))
}

/// How wide a column has to be for the texts of these bands, if those in bars are so wide.
fn column_of(bands: &[Band<'_>], width: impl Fn(&Label) -> usize) -> usize {
    let mut column = LEAST_COLUMN;
    for band in bands {
        for state in band.states() {
            let cursor = state.cursor.map_or(0, |one| width_of(&one.to_string()));
            column = column.max(cursor + PADDING);
        }
        for bar in band.bars() {
            let needed = width(&bar.what) + 2 * PADDING;
            column = column.max(needed.div_ceil(band.room(&bar)));
        }
    }
    column
}

#[cfg(test)]
mod tests {
    use super::*;
    use crate::allocator::Limits;
    use crate::drawing::replayed::replayed;
    use crate::traces::read_schedule;

    fn timeline(text: &str) -> Timeline {
        let events = read_schedule(text.as_bytes()).expect("a schedule");
        replayed(Limits::GREATEST, text, &events).expect("few events")
    }

    #[test]
    fn each_text_has_room() {
        let begins = "begin 1 1\nstep 1\nbegin 1023 3\nstep 1023\nanswer 1\nanswer 1023\nflush\n";
        let texts = [
            begins,
            &begins.repeat(9),
            &("alloc\n".repeat(36) + begins),
            &"alloc\nfree 0v1\n".repeat(3),
            "begin 1 4294967295\nbegin 1 4294967295\n",
            "free 4294967294v2147483647\n",
            "",
        ];
        for text in texts {
            let timeline = timeline(text);
            let layout = Layout::new(&timeline);
            for band in &layout.bands {
                for bar in band.bars() {
                    let room = band.room(&bar) * layout.column - 2 * PADDING;
                    assert!(width_of(bar.what.fitting(room)) <= room, "{text}");
                }
                let cursors = band.states().filter_map(|state| state.cursor);
                for cursor in cursors {
                    assert!(width_of(&cursor.to_string()) < layout.column, "{text}");
                }
                for moment in band.moments {
                    let is_wide = width_of(&moment.event) > layout.column;
                    assert!(!layout.is_level || !is_wide, "{text}");
                }
            }
        }
    }

    #[test]
    fn texts_of_few_events_are_level_and_those_of_many_rise() {
        let is_level = |count| Layout::new(&timeline(&"alloc\n".repeat(count))).is_level;
        assert!(is_level(0) && is_level(14) && !is_level(15));
        assert!(!Layout::new(&timeline("begin 4294967295 4294967295")).is_level);
    }
}

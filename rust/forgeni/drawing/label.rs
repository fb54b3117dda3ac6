//! Texts in bars, and the room that they take.

use super::state::{Occupant, OpenCall};
use std::format;
use std::string::String;
use std::vec;
use std::vec::Vec;

/// How wide a text in the font of bars and events is, in pixels. Fonts of this kind have letters
/// that are 0.6 times as wide as the font is high, or a bit more.
pub(super) fn width_of(text: &str) -> usize {
    (text.chars().count() * 61).div_ceil(10)
}

/// What may be written in a bar: the first of its texts that fits is.
#[derive(Clone, Debug, PartialEq, Eq)]
pub(super) struct Label {
    /// How the bar is drawn.
    pub(super) class: &'static str,
    /// The longest text first.
    texts: Vec<String>,
}

impl Label {
    /// The label of an occupant of this slot.
    pub(super) fn of_occupant(slot: u32, occupant: Occupant) -> Self {
        let (class, texts) = match occupant {
            Occupant::Alive(generation) => ("alive", vec![format!("{slot}v{generation}")]),
            Occupant::Reserved { generation, caller } => {
                let handle = format!("{slot}v{generation}");
                ("reserved", vec![format!("{handle} for {caller}"), handle])
            }
            Occupant::Waiting(generation) => {
                let handle = format!("{slot}v{generation}");
                ("waiting", vec![format!("next {handle}"), handle])
            }
            Occupant::Retired => ("retired", vec![String::from("retired"), String::new()]),
        };
        Label { class, texts }
    }

    /// The label of an open call: how many handles it requests, and after its step the cursor
    /// before and after that.
    pub(super) fn of_call(call: OpenCall) -> Self {
        let (class, texts) = match call.span {
            None => {
                let requested = call.requested;
                (
                    "open",
                    vec![format!("requests {requested}"), format!("{requested}")],
                )
            }
            Some((high, low)) => (
                "stepped",
                vec![
                    format!("{high} \u{2192} {low}"),
                    format!("{high}\u{2192}{low}"),
                    format!("\u{2192}{low}"),
                ],
            ),
        };
        Label { class, texts }
    }

    /// Whether the bar has a pattern, on which a text is hard to read.
    pub(super) fn has_pattern(&self) -> bool {
        matches!(self.class, "reserved" | "retired")
    }

    /// How its text is drawn: on a full bar in the colour of the background.
    pub(super) fn class_of_text(&self) -> &'static str {
        if self.class == "alive" {
            "alive"
        } else {
            ""
        }
    }

    /// The longest text that is at most so wide, or the shortest one.
    pub(super) fn fitting(&self, width: usize) -> &str {
        let fitting = self.texts.iter().find(|text| width_of(text) <= width);
        fitting.or(self.texts.last()).map_or("", String::as_str)
    }

    /// How wide its longest text is.
    pub(super) fn most_width(&self) -> usize {
        self.texts.first().map_or(0, |text| width_of(text))
    }

    /// How wide its shortest text is.
    pub(super) fn least_width(&self) -> usize {
        self.texts.last().map_or(0, |text| width_of(text))
    }
}

#[cfg(test)]
mod tests {
    use super::*;

    /// Each text is the widest that its own width has room for, and the last one is written in any
    /// room.
    #[test]
    fn a_bar_has_the_longest_text_that_fits() {
        let reserved = Occupant::Reserved {
            generation: 2,
            caller: 7,
        };
        let call = |span| OpenCall { requested: 3, span };
        let rows = [
            (
                Label::of_occupant(4, Occupant::Alive(1)),
                ["4v1"].as_slice(),
            ),
            (Label::of_occupant(4, reserved), &["4v2 for 7", "4v2"]),
            (
                Label::of_occupant(4, Occupant::Waiting(5)),
                &["next 4v5", "4v5"],
            ),
            (Label::of_occupant(4, Occupant::Retired), &["retired", ""]),
            (Label::of_call(call(None)), &["requests 3", "3"]),
            (
                Label::of_call(call(Some((1, -2)))),
                &["1 \u{2192} -2", "1\u{2192}-2", "\u{2192}-2"],
            ),
        ];
        for (label, texts) in rows {
            for text in texts {
                assert_eq!(label.fitting(width_of(text)), *text);
            }
            assert_eq!(label.fitting(0), texts[texts.len() - 1]);
            let [most, least] = [label.most_width(), label.least_width()];
            assert_eq!(
                [most, least],
                [texts[0], texts[texts.len() - 1]].map(width_of)
            );
        }
    }
}

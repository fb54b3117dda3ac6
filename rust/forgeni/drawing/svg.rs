//! The text of a picture.

use core::fmt::Write;
use std::string::String;

/// Where something is: so many pixels from the left, and so many from the top.
#[derive(Clone, Copy, Debug, PartialEq, Eq)]
pub(super) struct Point(pub(super) usize, pub(super) usize);

/// A rectangle, from its upper left corner.
#[derive(Clone, Copy, Debug, PartialEq, Eq)]
pub(super) struct Rect {
    pub(super) at: Point,
    pub(super) width: usize,
    pub(super) height: usize,
}

/// An SVG that grows, element by element. A class is a name of `style.css`.
pub(super) struct Svg {
    text: String,
}

impl Svg {
    /// A picture of this size with nothing but its background.
    pub(super) fn new(width: usize, height: usize, title: &str, description: &str) -> Self {
        let mut svg = Svg {
            text: String::new(),
        };
        svg.add(format_args!(
            "<svg xmlns=\"http://www.w3.org/2000/svg\" width=\"{width}\" height=\"{height}\" \
             viewBox=\"0 0 {width} {height}\" role=\"img\">\n\
             <title>{}</title>\n<desc>{}</desc>\n<style>\n{}</style>\n{}",
            escaped(title),
            escaped(description),
            include_str!("style.css"),
            include_str!("patterns.svg"),
        ));
        let at = Point(0, 0);
        svg.rect("paper", Rect { at, width, height });
        svg
    }

    pub(super) fn rect(&mut self, class: &str, rect: Rect) {
        let Rect { at, width, height } = rect;
        let Point(x, y) = at;
        self.add(format_args!(
            "<rect class=\"{class}\" x=\"{x}\" y=\"{y}\" width=\"{width}\" height=\"{height}\"/>\n"
        ));
    }

    pub(super) fn line(&mut self, class: &str, from: Point, to: Point) {
        let (Point(x1, y1), Point(x2, y2)) = (from, to);
        self.add(format_args!(
            "<line class=\"{class}\" x1=\"{x1}\" y1=\"{y1}\" x2=\"{x2}\" y2=\"{y2}\"/>\n"
        ));
    }

    /// A text whose baseline begins, ends or has its middle there, as the class says. No text is no
    /// element.
    pub(super) fn text(&mut self, class: &str, at: Point, text: &str) {
        if text.is_empty() {
            return;
        }
        let Point(x, y) = at;
        let text = escaped(text);
        self.add(format_args!(
            "<text class=\"{class}\" x=\"{x}\" y=\"{y}\">{text}</text>\n"
        ));
    }

    /// A text that rises from there.
    pub(super) fn rising_text(&mut self, class: &str, at: Point, text: &str) {
        let Point(x, y) = at;
        let text = escaped(text);
        self.add(format_args!(
            "<text class=\"{class}\" transform=\"translate({x} {y}) rotate(-90)\">{text}</text>\n"
        ));
    }

    /// The whole text.
    pub(super) fn finish(mut self) -> String {
        self.text.push_str("</svg>\n");
        self.text
    }

    fn add(&mut self, what: core::fmt::Arguments<'_>) {
        // A `String` takes all that is written to it.
        let _ = self.text.write_fmt(what);
    }
}

/// The text as XML has it. A character that XML has no form for becomes a question mark.
fn escaped(text: &str) -> String {
    let mut made = String::new();
    for letter in text.chars() {
        match letter {
            '&' => made.push_str("&amp;"),
            '<' => made.push_str("&lt;"),
            '>' => made.push_str("&gt;"),
            '"' => made.push_str("&quot;"),
            '\'' => made.push_str("&#39;"),
            letter if letter.is_control() => made.push('?'),
            letter => made.push(letter),
        }
    }
    made
}

#[cfg(test)]
mod tests {
    use super::*;

    #[test]
    fn texts_are_escaped() {
        assert_eq!(
            escaped("<a href='x'>\"&\"</a>\u{1}"),
            "&lt;a href=&#39;x&#39;&gt;&quot;&amp;&quot;&lt;/a&gt;?"
        );
        let mut svg = Svg::new(1, 1, "a < b", "b & c");
        svg.text("", Point(0, 0), "</text>");
        let text = svg.finish();
        assert!(text.contains(">a &lt; b</title>") && text.contains(">b &amp; c</desc>"));
        assert!(text.ends_with(">&lt;/text&gt;</text>\n</svg>\n"));
    }
}

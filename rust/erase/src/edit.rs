//! Changes to a text, by its bytes.

/// One change.
#[derive(Clone, Debug, PartialEq, Eq)]
pub enum Change {
    /// These lines go, as a whole.
    Lines,
    /// This text goes to the place.
    Text(String),
}

/// A change of the bytes from `from` up to, not including, `to`.
#[derive(Clone, Debug, PartialEq, Eq)]
pub struct Edit {
    /// The first byte.
    pub from: usize,
    /// The byte after the last one.
    pub to: usize,
    /// What becomes of them.
    pub change: Change,
}

/// The text after all changes, which are apart from one another. Changes at one place are made in
/// their order.
pub fn edited(text: &str, mut edits: Vec<Edit>) -> String {
    edits.sort_by_key(|edit| (edit.from, edit.to));
    let mut out = String::with_capacity(text.len());
    let mut at = 0;
    let mut edits = edits.into_iter().peekable();
    while let Some(edit) = edits.next() {
        if edit.to <= at && edit.change == Change::Lines {
            continue;
        }
        assert!(at <= edit.from, "two changes of one place: {edit:?}");
        out.push_str(&text[at..edit.from]);
        at = edit.to;
        match edit.change {
            Change::Text(new) => out.push_str(&new),
            Change::Lines => {
                // Lines that follow with nothing but blank ones between them go with these.
                while let Some(next) = edits.peek() {
                    let joins = next.change == Change::Lines
                        && text[at..next.from.max(at)].trim().is_empty();
                    if !joins {
                        break;
                    }
                    at = next.to.max(at);
                    edits.next();
                }
                at = close_gap(&mut out, text, at);
            }
        }
    }
    out.push_str(&text[at..]);
    out
}

/// Of the blank lines above and below lines that went, one stays at most, and none at the beginning
/// and at the end of a block. A block of which nothing is left is `{}`. Returns where the text goes
/// on.
fn close_gap(out: &mut String, text: &str, at: usize) -> usize {
    let mut at = at;
    let is_first = out.is_empty() || out.ends_with("\n\n") || out.ends_with("{\n");
    while is_first && text[at..].starts_with('\n') {
        at += 1;
    }
    let rest = text[at..].trim_start_matches(' ');
    if rest.starts_with('}') {
        if out.ends_with("{\n") {
            out.pop();
            at = text.len() - rest.len();
        } else if out.ends_with("\n\n") {
            out.pop();
        }
    }
    at
}

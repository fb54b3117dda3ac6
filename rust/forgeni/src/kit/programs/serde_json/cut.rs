//! Whether a text ends before its value does.
//!
//! No clause of the kit's contracts says when the fault of a text is its end. What the kit does was
//! found by asking it: all is as in a value up to the end of the text, where the value goes on. Of
//! a string it looks at the letters after backslashes and at control characters, and not at the
//! bytes of other characters, nor at what surrogates stand for.

/// How deep arrays and objects may be nested.
const DEPTH: usize = 127;

/// Whether the bytes are the beginning of a value, and no value.
pub(super) fn is_cut_short(text: &[u8]) -> bool {
    let mut walk = Walk {
        text,
        at: 0,
        wanted: Wanted::Value,
        objects: [false; DEPTH],
        depth: 0,
    };
    loop {
        match walk.step() {
            Some(Ended::Here(_)) => {}
            Some(Ended::Cut) => return true,
            None => return false,
        }
    }
}

/// Where a token ends.
enum Ended {
    Here(usize),
    /// Beyond the text.
    Cut,
}

/// What has to come next.
#[derive(Clone, Copy, PartialEq, Eq)]
enum Wanted {
    Value,
    ValueOrEnd,
    Key,
    KeyOrEnd,
    Colon,
    /// A comma or the bracket that closes, or no more at the top.
    More,
}

struct Walk<'a> {
    text: &'a [u8],
    at: usize,
    wanted: Wanted,
    /// Which of the brackets that are open are those of objects.
    objects: [bool; DEPTH],
    /// How many brackets are open.
    depth: usize,
}

impl Walk<'_> {
    /// Takes a token. `None` is a fault, or the end of a value.
    fn step(&mut self) -> Option<Ended> {
        while matches!(self.text.get(self.at), Some(b' ' | b'\t' | b'\n' | b'\r')) {
            self.at += 1;
        }
        let Some(byte) = self.text.get(self.at) else {
            let is_whole = self.wanted == Wanted::More && self.depth == 0;
            return (!is_whole).then_some(Ended::Cut);
        };
        match (self.wanted, byte) {
            (Wanted::ValueOrEnd, b']') => self.close(false),
            (Wanted::KeyOrEnd, b'}') => self.close(true),
            (Wanted::More, b']') => self.close(false),
            (Wanted::More, b'}') => self.close(true),
            (Wanted::More, b',') => self.go_on(),
            (Wanted::Value | Wanted::ValueOrEnd, b'[') => self.open(false),
            (Wanted::Value | Wanted::ValueOrEnd, b'{') => self.open(true),
            (Wanted::Value | Wanted::ValueOrEnd, b'"') => {
                let ended = string_end(self.text, self.at + 1)?;
                self.take(ended, Wanted::More)
            }
            (Wanted::Value | Wanted::ValueOrEnd, _) => {
                let ended = word_end(self.text, self.at)?;
                self.take(ended, Wanted::More)
            }
            (Wanted::Key | Wanted::KeyOrEnd, b'"') => {
                let ended = string_end(self.text, self.at + 1)?;
                self.take(ended, Wanted::Colon)
            }
            (Wanted::Colon, b':') => self.take(Ended::Here(self.at + 1), Wanted::Value),
            _ => None,
        }
    }

    fn take(&mut self, ended: Ended, wanted: Wanted) -> Option<Ended> {
        if let Ended::Here(end) = ended {
            self.at = end;
            self.wanted = wanted;
        }
        Some(ended)
    }

    fn open(&mut self, is_object: bool) -> Option<Ended> {
        *self.objects.get_mut(self.depth)? = is_object;
        self.depth += 1;
        let wanted = if is_object {
            Wanted::KeyOrEnd
        } else {
            Wanted::ValueOrEnd
        };
        self.take(Ended::Here(self.at + 1), wanted)
    }

    fn close(&mut self, is_object: bool) -> Option<Ended> {
        if self.is_in_object()? != is_object {
            return None;
        }
        self.depth -= 1;
        self.take(Ended::Here(self.at + 1), Wanted::More)
    }

    /// A comma.
    fn go_on(&mut self) -> Option<Ended> {
        let wanted = if self.is_in_object()? {
            Wanted::Key
        } else {
            Wanted::Value
        };
        self.take(Ended::Here(self.at + 1), wanted)
    }

    /// Whether the innermost bracket that is open is that of an object, if one is open.
    fn is_in_object(&self) -> Option<bool> {
        let last = self.depth.checked_sub(1)?;
        Some(self.objects[last])
    }
}

/// The end of a string whose text begins here.
fn string_end(text: &[u8], start: usize) -> Option<Ended> {
    let mut at = start;
    loop {
        at += match text.get(at) {
            None => return Some(Ended::Cut),
            Some(b'"') => return Some(Ended::Here(at + 1)),
            Some(b'\\') => match text.get(at + 1) {
                None => return Some(Ended::Cut),
                Some(b'"' | b'\\' | b'/' | b'b' | b'f' | b'n' | b'r' | b't') => 2,
                Some(b'u') => match text.get(at + 2..at + 6) {
                    None => return Some(Ended::Cut),
                    Some(digits) if digits.iter().all(u8::is_ascii_hexdigit) => 6,
                    Some(_) => return None,
                },
                Some(_) => return None,
            },
            Some(..0x20) => return None,
            Some(_) => 1,
        };
    }
}

/// The end of a number or a literal that begins here.
fn word_end(text: &[u8], at: usize) -> Option<Ended> {
    let literals: [&[u8]; 3] = [b"true", b"false", b"null"];
    let rest = &text[at..];
    let end = match literals.into_iter().find(|it| it[0] == rest[0]) {
        Some(literal) if rest.starts_with(literal) => at + literal.len(),
        Some(literal) => return literal.starts_with(rest).then_some(Ended::Cut),
        None => match number_end(text, at)? {
            Ended::Cut => return Some(Ended::Cut),
            Ended::Here(end) => end,
        },
    };
    let ends = text
        .get(end)
        .is_none_or(|next| b" \t\n\r{}[]:,".contains(next));
    ends.then_some(Ended::Here(end))
}

fn number_end(text: &[u8], begin: usize) -> Option<Ended> {
    let mut at = begin + usize::from(text[begin] == b'-');
    at = match text.get(at) {
        Some(b'0') => at + 1,
        _ => match digits_end(text, at)? {
            Ended::Cut => return Some(Ended::Cut),
            Ended::Here(end) => end,
        },
    };
    if text.get(at) == Some(&b'.') {
        at = match digits_end(text, at + 1)? {
            Ended::Cut => return Some(Ended::Cut),
            Ended::Here(end) => end,
        };
    }
    if let Some(b'e' | b'E') = text.get(at) {
        let has_sign = matches!(text.get(at + 1), Some(b'+' | b'-'));
        return digits_end(text, at + 1 + usize::from(has_sign));
    }
    Some(Ended::Here(at))
}

/// The end of digits, of which there has to be one.
fn digits_end(text: &[u8], begin: usize) -> Option<Ended> {
    let rest = text.get(begin..).unwrap_or_default();
    let count = rest.iter().take_while(|byte| byte.is_ascii_digit()).count();
    match count {
        0 if rest.is_empty() => Some(Ended::Cut),
        0 => None,
        _ => Some(Ended::Here(begin + count)),
    }
}

//! A value as a text.

use super::{Number, Value};
use crate::kit::alloc::AllocError;
use crate::kit::programs::inline_text::InlineText;
use crate::kit::programs::string::{String, ToStringIn};

type Written = Result<(), AllocError>;

impl ToStringIn for Value {
    /// The contract: the text without blanks that reads as the value, its members in the order of
    /// their keys, or an `Err` if there isn't enough memory for it.
    fn to_string_in(&self) -> Result<String, AllocError> {
        let mut text = String::new();
        write_value(&mut text, self)?;
        Ok(text)
    }
}

fn write_value(out: &mut String, value: &Value) -> Written {
    match value {
        Value::Null => out.push_str("null"),
        Value::Bool(is) => write!(out, "{is}"),
        Value::Number(Number::Positive(number)) => write!(out, "{number}"),
        Value::Number(Number::Negative(number)) => write!(out, "{number}"),
        Value::Number(Number::Float(float)) => write_float(out, *float),
        Value::String(text) => write_quoted(out, text),
        Value::Array(items) => {
            out.push_str("[")?;
            for (at, item) in items.iter().enumerate() {
                write_comma(out, at)?;
                write_value(out, item)?;
            }
            out.push_str("]")
        }
        Value::Object(members) => {
            out.push_str("{")?;
            for (at, (key, member)) in members.iter().enumerate() {
                write_comma(out, at)?;
                write_quoted(out, key)?;
                out.push_str(":")?;
                write_value(out, member)?;
            }
            out.push_str("}")
        }
    }
}

fn write_comma(out: &mut String, at: usize) -> Written {
    out.push_str(if at == 0 { "" } else { "," })
}

fn write_quoted(out: &mut String, text: &str) -> Written {
    out.push_str("\"")?;
    for letter in text.chars() {
        match letter {
            '"' => out.push_str("\\\"")?,
            '\\' => out.push_str("\\\\")?,
            '\u{8}' => out.push_str("\\b")?,
            '\u{c}' => out.push_str("\\f")?,
            '\n' => out.push_str("\\n")?,
            '\r' => out.push_str("\\r")?,
            '\t' => out.push_str("\\t")?,
            '\0'..' ' => write!(out, "\\u{:04x}", u32::from(letter))?,
            _ => out.push(letter)?,
        }
    }
    out.push_str("\"")
}

/// The shortest digits that read as the float: a decimal with a point where that is short, as in
/// `10.0` and `0.00001`, and else with an exponent, as in `1e+30` and `1.5e-7`.
fn write_float(out: &mut String, float: f64) -> Written {
    if float == 0.0 {
        return out.push_str(if float.is_sign_negative() {
            "-0.0"
        } else {
            "0.0"
        });
    }
    if float < 0.0 {
        out.push_str("-")?;
    }
    let digits = digits_of(float.abs());
    let (mantissa, exponent) = digits.as_str().split_once('e').unwrap_or(("0", "0"));
    let (first, more) = mantissa.split_once('.').unwrap_or((mantissa, ""));
    let exponent: i32 = exponent.parse().unwrap_or(0);
    // How many digits come before the point, which is negative for zeros after it.
    let (whole, count) = (exponent + 1, 1 + more.len() as i32);
    match whole {
        1..=16 if count <= whole => {
            write!(out, "{first}{more}")?;
            write_zeros(out, whole - count)?;
            out.push_str(".0")
        }
        1..=16 => {
            let (before, after) = more.split_at(exponent as usize);
            write!(out, "{first}{before}.{after}")
        }
        -4..=0 => {
            out.push_str("0.")?;
            write_zeros(out, -whole)?;
            write!(out, "{first}{more}")
        }
        _ => {
            let point = if more.is_empty() { "" } else { "." };
            write!(out, "{first}{point}{more}e{exponent:+}")
        }
    }
}

/// The digits, with a point after the first one, and the exponent. There are as few as read as the
/// float, and of those they are the nearest, or of two that are as near the even ones.
fn digits_of(float: f64) -> InlineText<32> {
    // Of two that are as near, Rust's shortest digits may be the odd ones. Its rounded digits are
    // the even ones.
    let shortest = InlineText::<32>::of(format_args!("{float:e}"));
    let mantissa = shortest.as_str().split('e').next().unwrap_or("");
    let more = mantissa.len().saturating_sub(2);
    let nearest = InlineText::<32>::of(format_args!("{float:.more$e}"));
    if nearest.as_str().parse() == Ok(float) {
        nearest
    } else {
        shortest
    }
}

fn write_zeros(out: &mut String, count: i32) -> Written {
    (0..count).try_for_each(|_| out.push_str("0"))
}

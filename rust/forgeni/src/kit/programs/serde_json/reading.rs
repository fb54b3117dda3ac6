//! A text as a value.

use super::error::Code;
use super::{Error, Map, Number, Value};
use crate::kit::programs::json::{Reader, Scratch, Token};
use crate::kit::programs::string::String;
use crate::kit::vec::FallibleVec;
use ::alloc::vec::Vec;

/// How deep arrays and objects may be nested.
const DEPTH: usize = 127;

impl Value {
    /// The contract: the value that the bytes are in JSON, nested at most 127 deep, or an `Err`: of
    /// memory if that was refused, and else the bytes are no such value.
    pub fn from_slice(bytes: &[u8]) -> Result<Self, Error> {
        let Ok(text) = core::str::from_utf8(bytes) else {
            let valid = bytes.utf8_chunks().next();
            let end = valid.map_or(0, |chunk| chunk.valid().len());
            return Err(Error::at(Code::Invalid, bytes, end));
        };
        let fault = |code, at| Error::at(code, bytes, at);
        let mut scratch = Scratch::new();
        let mut reader = Reader::new(text, &mut scratch).map_err(|why| fault(why.into(), 0))?;
        let value = read(&mut reader, DEPTH).map_err(|code| fault(code, reader.offset()))?;
        let end = reader.offset();
        match reader.next() {
            Some(_) => Err(fault(Code::Invalid, end)),
            None => Ok(value),
        }
    }
}

/// The next value, nested at most so deep.
fn read(reader: &mut Reader<'_>, depth: usize) -> Result<Value, Code> {
    Ok(match reader.next().ok_or(Code::Invalid)? {
        Token::Null => Value::Null,
        Token::Bool(is) => Value::Bool(is),
        Token::Number(text) => Value::Number(Number::read(text).ok_or(Code::NumberOutOfRange)?),
        Token::String(text) => Value::String(String::from_str(text)?),
        Token::BeginArray => Value::Array(items(reader, deeper(depth)?)?),
        Token::BeginObject => Value::Object(members(reader, deeper(depth)?)?),
        Token::EndArray | Token::EndObject | Token::Key(_) | Token::Bad => {
            return Err(Code::Invalid);
        }
    })
}

fn deeper(depth: usize) -> Result<usize, Code> {
    depth.checked_sub(1).ok_or(Code::Invalid)
}

fn items(reader: &mut Reader<'_>, depth: usize) -> Result<Vec<Value>, Code> {
    let mut found = Vec::new();
    while !reader.take_end_array() {
        let item = read(reader, depth)?;
        found.push_fallibly(item)?;
    }
    Ok(found)
}

fn members(reader: &mut Reader<'_>, depth: usize) -> Result<Map<String, Value>, Code> {
    let mut found = Map::new();
    while let Some(name) = reader.next_key()? {
        let key = String::from_str(name)?;
        let member = read(reader, depth)?;
        found.insert(key, member)?;
    }
    Ok(found)
}

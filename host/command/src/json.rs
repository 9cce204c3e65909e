//! Writes JSON, piece by piece, so that a long listing is never held as text.
//!
//! Numbers are written as they are: 64-bit integers, which a reader must not take for floating-point numbers.
use std::io::{self, Write};

/// A value without parts.
#[derive(Clone)]
pub enum Value {
    /// A 64-bit integer.
    Number(u64),
    /// True or false.
    Truth(bool),
    /// A string.
    Text(String),
}

impl From<u64> for Value {
    fn from(number: u64) -> Value {
        Value::Number(number)
    }
}

impl From<bool> for Value {
    fn from(truth: bool) -> Value {
        Value::Truth(truth)
    }
}

impl From<&str> for Value {
    fn from(text: &str) -> Value {
        Value::Text(text.into())
    }
}

/// A writer of one JSON value.
pub struct Json<'a> {
    out: &'a mut dyn Write,
    /// Whether a value stands before the next one, so that a comma is due.
    comma: bool,
}

impl<'a> Json<'a> {
    /// A writer to a stream.
    pub fn new(out: &'a mut dyn Write) -> Json<'a> {
        Json { out, comma: false }
    }

    /// An object, whose fields the function writes.
    pub fn object(&mut self, fields: impl FnOnce(&mut Self) -> io::Result<()>) -> io::Result<()> {
        self.between(["{", "}"], fields)
    }

    /// A list, whose items the function writes.
    pub fn list(&mut self, items: impl FnOnce(&mut Self) -> io::Result<()>) -> io::Result<()> {
        self.between(["[", "]"], items)
    }

    /// The name of a field, whose value comes next.
    pub fn name(&mut self, name: &str) -> io::Result<&mut Self> {
        self.text(name)?;
        write!(self.out, ":")?;
        self.comma = false;
        Ok(self)
    }

    /// A field with a value without parts.
    pub fn field(&mut self, name: &str, value: impl Into<Value>) -> io::Result<()> {
        self.name(name)?.value(value)
    }

    /// A value without parts.
    pub fn value(&mut self, value: impl Into<Value>) -> io::Result<()> {
        match value.into() {
            Value::Number(number) => write!(self.next()?, "{number}"),
            Value::Truth(truth) => write!(self.next()?, "{truth}"),
            Value::Text(text) => self.text(&text),
        }
    }

    fn between(&mut self, marks: [&str; 2], inside: impl FnOnce(&mut Self) -> io::Result<()>) -> io::Result<()> {
        write!(self.next()?, "{}", marks[0])?;
        self.comma = false;
        inside(self)?;
        self.comma = true;
        write!(self.out, "{}", marks[1])
    }

    fn text(&mut self, text: &str) -> io::Result<()> {
        let out = self.next()?;
        write!(out, "\"")?;
        for c in text.chars() {
            match c {
                '"' | '\\' => write!(out, "\\{c}")?,
                c if u32::from(c) < 0x20 => write!(out, "\\u{:04x}", u32::from(c))?,
                c => write!(out, "{c}")?,
            }
        }
        write!(out, "\"")
    }

    /// The stream, after the comma if one is due; after the value that is written next, one is.
    fn next(&mut self) -> io::Result<&mut dyn Write> {
        if self.comma {
            write!(self.out, ",")?;
        }
        self.comma = true;
        Ok(self.out)
    }
}

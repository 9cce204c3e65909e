//! What a command has to say: the same answer for people and for programs.
use crate::failure::Failure;
use crate::json::{Json, Value};
use std::io::{self, Write};

/// An answer in its two forms.
pub trait Answer {
    /// Writes it for people.
    fn text(&self, out: &mut dyn Write) -> io::Result<()>;

    /// Writes its fields into the object that programs read.
    fn json(&self, json: &mut Json<'_>) -> io::Result<()>;

    /// What is wrong with the arena, where that came to light while the answer was put together.
    fn fault(&self) -> Option<Failure> {
        None
    }
}

/// What a command comes to.
pub type Outcome = Result<Box<dyn Answer>, Failure>;

/// An answer of a few numbers: a text, and fields.
pub struct Said {
    text: String,
    fields: Vec<(&'static str, Value)>,
}

impl Said {
    /// An answer with a text and no fields.
    pub fn new(text: impl Into<String>) -> Said {
        Said { text: text.into(), fields: Vec::new() }
    }

    /// A text that is the same for programs.
    pub fn plain(text: String) -> Outcome {
        Said::new(text.as_str()).with("text", text.as_str()).done()
    }

    /// The answer with a further field.
    pub fn with(mut self, name: &'static str, value: impl Into<Value>) -> Said {
        self.fields.push((name, value.into()));
        self
    }

    /// The answer as what a command comes to.
    pub fn done(self) -> Outcome {
        Ok(Box::new(self))
    }
}

impl Answer for Said {
    fn text(&self, out: &mut dyn Write) -> io::Result<()> {
        writeln!(out, "{}", self.text)
    }

    fn json(&self, json: &mut Json<'_>) -> io::Result<()> {
        self.fields.iter().try_for_each(|(name, value)| json.field(name, value.clone()))
    }
}

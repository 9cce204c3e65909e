//! The driver: reads calls as text and writes them with the crate's answers. A file of stored answers is such a text, and
//! comes out as it went in.
use crate::both::Both;
use crate::text::{Line, answered, read_line};
use std::io::{self, BufRead, Write};

/// Answers the calls of `from`, one to a line. Stops at the first line that is no call, or where the crate and document 01
/// differ.
pub fn drive(from: impl BufRead, to: &mut impl Write) -> io::Result<()> {
    let wrong =
        |at: usize, what: String| io::Error::new(io::ErrorKind::InvalidData, format!("line {}: {what}", at + 1));
    let mut both: Both = Both::default();
    let mut calls = 0;
    for (at, line) in from.lines().enumerate() {
        let line = line?;
        match read_line(&line).map_err(|what| wrong(at, what))? {
            Line::Comment => writeln!(to, "{line}")?,
            Line::Listed => (),
            Line::Total(_) => writeln!(to, "t {calls:x}")?,
            Line::Call(call) => {
                let answer = both.call(&call).map_err(|what| wrong(at, what))?;
                to.write_all(answered(&call, &answer).as_bytes())?;
                calls += 1;
            }
        }
    }
    to.flush()
}

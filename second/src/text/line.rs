//! Lines (document 01, "Rules of writing").

use super::cursor::Cursor;
use super::statement::{self, Statement};
use super::{At, Fault};

/// The lines of a source: "Lines end at LF; the last may lack it, and an LF that ends the source
/// begins no further line."
pub fn lines(source: &[u8]) -> impl Iterator<Item = &[u8]> {
    let ended = source.strip_suffix(b"\n");
    let count = if source.is_empty() { 0 } else { usize::MAX };
    ended.unwrap_or(source).split(|byte| *byte == b'\n').take(count)
}

/// What stands in a line. The label is judged before the statement is (10, 9, then 4 and 3), so
/// a fault of the statement does not hide the label.
#[derive(Debug)]
pub struct LineRead<'l> {
    pub label: Option<At<&'l [u8]>>,
    /// The statement, at its word.
    pub statement: Result<Option<At<Statement<'l>>>, Fault>,
}

impl<'l> LineRead<'l> {
    /// What the line says, wherever it says it.
    pub fn says(self) -> Result<Option<Statement<'l>>, Fault> {
        self.statement.map(|statement| statement.map(|statement| statement.what))
    }
}

/// "A line's first token, if a word directly followed by `:`, is its label (one per line)."
pub fn read_line(line: &[u8]) -> LineRead<'_> {
    let start = Cursor::start(line).past_blanks();
    let labelled = start.word().and_then(|(name, after)| Some((name, after.mark(b':')?)));
    let (label, rest) = match labelled {
        Some((name, after)) => (Some(name), after.past_blanks()),
        None => (None, start),
    };
    if rest.is_at_end() {
        return LineRead { label, statement: Ok(None) };
    }
    LineRead { label, statement: statement::read(rest).map(Some) }
}

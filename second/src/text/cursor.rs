//! A place in a line. Reading hands back what was read and the moved cursor (document 01:
//! "Reading a word gives the word and the position after it"), or the column where the line's form
//! breaks (document 02, K4).

use super::{At, Column};
use crate::number::{self, is_word_byte, Number, Sign};

/// What was read and the cursor behind it, or the column of the first fault of form.
pub type Read<'l, T> = Result<(T, Cursor<'l>), Column>;

#[derive(Clone, Copy, Debug)]
pub struct Cursor<'l> {
    line: &'l [u8],
    at: usize,
}

impl<'l> Cursor<'l> {
    pub fn start(line: &'l [u8]) -> Cursor<'l> {
        Cursor { line, at: 0 }
    }

    fn moved_to(self, at: usize) -> Cursor<'l> {
        Cursor { at, ..self }
    }

    /// The column of the byte here, or of the line's end.
    pub fn column(self) -> Column {
        Column::behind(self.at)
    }

    /// The column where what stands here may not: "the first token or stray byte", or "the column
    /// after the line's last byte if one is missing". Blanks and a comment are bytes of the line.
    pub fn misplaced(self) -> Column {
        let here = self.past_blanks();
        if here.is_at_end() {
            Column::behind(self.line.len())
        } else {
            here.column()
        }
    }

    pub fn byte(self) -> Option<u8> {
        self.line.get(self.at).copied()
    }

    /// "Blanks are space, tab and CR"; they may stand between tokens.
    pub fn past_blanks(self) -> Cursor<'l> {
        let rest = &self.line[self.at..];
        let blanks = rest.iter().take_while(|byte| matches!(**byte, b' ' | b'\t' | b'\r'));
        self.moved_to(self.at + blanks.count())
    }

    /// Whether nothing is left to read but a comment, which "runs from `;` to the line's end".
    pub fn is_at_end(self) -> bool {
        matches!(self.byte(), None | Some(b';'))
    }

    /// A single mark, standing right here.
    pub fn mark(self, mark: u8) -> Option<Cursor<'l>> {
        if self.byte() == Some(mark) {
            Some(self.moved_to(self.at + 1))
        } else {
            None
        }
    }

    /// A mark that blanks may precede.
    pub fn next_mark(self, mark: u8) -> Option<Cursor<'l>> {
        self.past_blanks().mark(mark)
    }

    /// A mark that blanks may precede and that no line of right form lacks here.
    pub fn due_mark(self, mark: u8) -> Result<Cursor<'l>, Column> {
        self.next_mark(mark).ok_or_else(|| self.misplaced())
    }

    /// "Word: longest run of letters, digits, `_`, not begun by a digit."
    pub fn word(self) -> Option<(At<&'l [u8]>, Cursor<'l>)> {
        let rest = &self.line[self.at..];
        if rest.first().map_or(true, |byte| byte.is_ascii_digit()) {
            return None;
        }
        let length = rest.iter().take_while(|byte| is_word_byte(**byte)).count();
        if length == 0 {
            return None;
        }
        let word = At { what: &rest[..length], column: self.column() };
        Some((word, self.moved_to(self.at + length)))
    }

    /// A number. Once one has begun the fault is "inside a number .. the first byte" that cannot
    /// stand there, be it a blank or `;`; where none begins it is the token here.
    pub fn number(self, sign: Sign) -> Read<'l, At<Number>> {
        match number::read(self.line, self.at, sign) {
            Ok((what, end)) => Ok((At { what, column: self.column() }, self.moved_to(end))),
            Err(broken) if broken == self.at => Err(self.misplaced()),
            Err(broken) => Err(Column::behind(broken)),
        }
    }

    /// A string's cells with the 0 that ends them: "Strings hold 32..126 except `"`; a backslash
    /// only as `\n` (10)." The fault is the byte that a string cannot have there, or the line's end.
    pub fn string(self) -> Read<'l, Vec<u16>> {
        let mut cursor = self.due_mark(b'"')?;
        let mut cells = Vec::new();
        loop {
            let here = cursor;
            cursor = here.moved_to(here.at + 1);
            match here.byte() {
                Some(b'"') => break,
                Some(b'\\') => {
                    cursor = cursor.mark(b'n').ok_or(cursor.column())?;
                    cells.push(10);
                }
                Some(byte @ 32..=126) => cells.push(u16::from(byte)),
                _ => return Err(here.column()),
            }
        }
        cells.push(0);
        Ok((cells, cursor))
    }
}

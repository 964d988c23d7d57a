//! Operands as they are written (document 01, "Rules of writing": `#v`, `.reg`, `/v`, `[.reg]`,
//! `#v[.IX]`, `#v[.IY]`, `#v[.SP]`, `$v`).

use super::cursor::{Cursor, Read};
use super::{At, Fault, Why};
use crate::isa::Operand;
use crate::machine::{IX, IY, REGISTER_NAMES, SP};
use crate::number::{Number, Sign};

/// A `v`: "a number or label". A label's name keeps its case.
#[derive(Clone, Copy, Debug, PartialEq, Eq)]
pub enum Spelled<'l> {
    Number(Number),
    Label(&'l [u8]),
}

/// An operand of right form. Its size is judged later: kind comes before size.
#[derive(Clone, Copy, Debug, PartialEq, Eq)]
pub enum WrittenOperand<'l> {
    Immediate(At<Spelled<'l>>),
    Register(u16),
    Memory(At<Spelled<'l>>),
    Indirect(u16),
    IndexedIx(At<Spelled<'l>>),
    IndexedIy(At<Spelled<'l>>),
    IndexedSp(At<Spelled<'l>>),
    Relative(At<Spelled<'l>>),
}

impl<'l> WrittenOperand<'l> {
    /// The `v` of an operand that has one.
    pub fn spelled(&self) -> Option<At<Spelled<'l>>> {
        match *self {
            WrittenOperand::Register(_) | WrittenOperand::Indirect(_) => None,
            WrittenOperand::Immediate(spelled)
            | WrittenOperand::Memory(spelled)
            | WrittenOperand::IndexedIx(spelled)
            | WrittenOperand::IndexedIy(spelled)
            | WrittenOperand::IndexedSp(spelled)
            | WrittenOperand::Relative(spelled) => Some(spelled),
        }
    }

    /// The name of the label that it waits for.
    pub fn label(&self) -> Option<At<&'l [u8]>> {
        match self.spelled()? {
            At { what: Spelled::Label(what), column } => Some(At { what, column }),
            At { what: Spelled::Number(_), .. } => None,
        }
    }

    /// The same operand with the word that is to stand in memory.
    pub fn with_word(&self, word: u16) -> Operand {
        match *self {
            WrittenOperand::Register(code) => Operand::Register(code),
            WrittenOperand::Indirect(code) => Operand::Indirect(code),
            WrittenOperand::Immediate(_) => Operand::Immediate(word),
            WrittenOperand::Memory(_) => Operand::Memory(word),
            WrittenOperand::IndexedIx(_) => Operand::IndexedIx(word),
            WrittenOperand::IndexedIy(_) => Operand::IndexedIy(word),
            WrittenOperand::IndexedSp(_) => Operand::IndexedSp(word),
            WrittenOperand::Relative(_) => Operand::Relative(word),
        }
    }

    /// The number's word in its range, 0 standing for a label until it is settled. "A decimal
    /// displacement (indexed or `$`) lies in -32768..32767."
    pub fn sized(&self) -> Result<Operand, Fault> {
        let (number, column) = match self.spelled() {
            Some(At { what: Spelled::Number(number), column }) => (number, column),
            _ => return Ok(self.with_word(0)),
        };
        let word = match self {
            WrittenOperand::Immediate(_) | WrittenOperand::Memory(_) => number.value(),
            _ => number.displacement(),
        };
        word.map(|word| self.with_word(word)).ok_or(Why::OutOfRange.at(column))
    }
}

/// Reads one operand, blanks allowed before it.
pub fn read(cursor: Cursor) -> Read<At<WrittenOperand>> {
    let start = cursor.past_blanks();
    let (what, after) = shape(start)?;
    Ok((At { what, column: start.column() }, after))
}

/// One of the eight shapes, by the mark it begins with.
fn shape(start: Cursor) -> Read<WrittenOperand> {
    if let Some(inside) = start.mark(b'#') {
        return immediate_or_indexed(inside);
    }
    if let Some(inside) = start.mark(b'/') {
        let (spelled, after) = value(inside)?;
        return Ok((WrittenOperand::Memory(spelled), after));
    }
    if let Some(inside) = start.mark(b'$') {
        let (spelled, after) = value(inside)?;
        return Ok((WrittenOperand::Relative(spelled), after));
    }
    if let Some(inside) = start.mark(b'[') {
        let (code, after) = register(inside)?;
        return Ok((WrittenOperand::Indirect(code.what), after.due_mark(b']')?));
    }
    let (code, after) = register(start)?;
    Ok((WrittenOperand::Register(code.what), after))
}

/// After `#`: immediate, or indexed if a bracket follows.
fn immediate_or_indexed(inside: Cursor) -> Read<WrittenOperand> {
    let (spelled, after) = value(inside)?;
    match after.next_mark(b'[') {
        None => Ok((WrittenOperand::Immediate(spelled), after)),
        Some(inside) => indexed(spelled, inside),
    }
}

/// After `#v[`: the index register, told before the bracket is closed.
fn indexed<'l>(spelled: At<Spelled<'l>>, inside: Cursor<'l>) -> Read<'l, WrittenOperand<'l>> {
    let (code, after) = register(inside)?;
    let operand = match code.what {
        IX => WrittenOperand::IndexedIx(spelled),
        IY => WrittenOperand::IndexedIy(spelled),
        SP => WrittenOperand::IndexedSp(spelled),
        _ => return Err(code.column),
    };
    Ok((operand, after.due_mark(b']')?))
}

/// `.reg`, at its word; an unknown register is form (refusal 3).
fn register(cursor: Cursor) -> Read<At<u16>> {
    let named = cursor.due_mark(b'.')?.past_blanks();
    let (word, after) = named.word().ok_or_else(|| named.misplaced())?;
    let known = |name: &&str| name.as_bytes().eq_ignore_ascii_case(word.what);
    match REGISTER_NAMES.iter().position(known) {
        Some(code) => Ok((At { what: code as u16, column: word.column }, after)),
        None => Err(word.column),
    }
}

/// A `v`, blanks allowed before it.
fn value(cursor: Cursor) -> Read<At<Spelled>> {
    let cursor = cursor.past_blanks();
    if let Some((At { what, column }, after)) = cursor.word() {
        return Ok((At { what: Spelled::Label(what), column }, after));
    }
    let (At { what, column }, after) = cursor.number(Sign::Allowed)?;
    Ok((At { what: Spelled::Number(what), column }, after))
}

//! Statements (document 01, "Rules of writing"). A statement is judged in the paper's order:
//! form 3; 15, 16; 8; 6 or 7; then its result.

use super::cursor::{Cursor, Read};
use super::operand::{self, WrittenOperand};
use super::{expression, At, Column, Fault, Why};
use crate::isa::{Instruction, Opcode, Operand};
use crate::number::{Number, Sign};

/// A label that an operand waits for.
#[derive(Clone, Copy, Debug, PartialEq, Eq)]
pub struct Awaited<'l> {
    pub name: At<&'l [u8]>,
    /// Where the operand starts.
    pub operand: Column,
}

/// An instruction as written: allowed in count and kinds, sizes in range, labels still names.
#[derive(Clone, Copy, Debug, PartialEq, Eq)]
pub struct Written<'l> {
    /// The instruction with 0 in the place of each label.
    pub instruction: Instruction,
    /// The label that each operand waits for.
    pub labels: [Option<Awaited<'l>>; 2],
}

#[derive(Clone, Debug, PartialEq, Eq)]
pub enum Statement<'l> {
    Org(u16),
    Equ(u16),
    Res(u16),
    End,
    Data(Vec<u16>),
    Instruction(Written<'l>),
}

/// What a statement's word announces.
#[derive(Clone, Copy, Debug, PartialEq, Eq)]
enum Announced {
    Org,
    Equ,
    Res,
    End,
    Data,
    Instruction(Opcode),
}

/// Words other than labels don't keep case.
fn announced(word: &[u8]) -> Option<Announced> {
    let pseudo = [
        ("ORG", Announced::Org),
        ("EQU", Announced::Equ),
        ("RES", Announced::Res),
        ("END", Announced::End),
        ("DATA", Announced::Data),
    ];
    let found = pseudo.iter().find(|(name, _)| name.as_bytes().eq_ignore_ascii_case(word));
    match found {
        Some((_, announced)) => Some(*announced),
        None => Opcode::from_word(word).map(Announced::Instruction),
    }
}

/// Reads the statement whose word is the first token here. "A token there that is no word is 3."
pub fn read(start: Cursor) -> Result<At<Statement>, Fault> {
    let (word, after) = start.word().ok_or_else(|| Why::Form.at(start.misplaced()))?;
    let column = word.column;
    let what = match announced(word.what).ok_or(Why::WordUnknown.at(column))? {
        // "All bytes after END as a statement's word are ignored."
        Announced::End => Statement::End,
        Announced::Org => Statement::Org(result(column, after, 0)?),
        Announced::Equ => Statement::Equ(result(column, after, -32_768)?),
        Announced::Res => Statement::Res(result(column, after, 0)?),
        Announced::Data => Statement::Data(data(after)?),
        Announced::Instruction(opcode) => {
            Statement::Instruction(instruction(At { what: opcode, column }, after)?)
        }
    };
    Ok(At { what, column })
}

/// The fault of a line whose form breaks at a column.
fn misformed(column: Column) -> Fault {
    Why::Form.at(column)
}

/// An expression's value in `lowest..65535`, kept modulo 65536. Where the value itself is out of
/// range, the statement's word is told.
fn result(word: Column, start: Cursor, lowest: i64) -> Result<u16, Fault> {
    let value = expression::read(start).map_err(misformed)?.evaluate()?;
    if (lowest..=65_535).contains(&value) {
        Ok(value as u16)
    } else {
        Err(Why::OutOfRange.at(word))
    }
}

#[derive(Debug)]
enum Item {
    Number(At<Number>),
    String(Vec<u16>),
}

/// `DATA` with one or more numbers and strings by commas.
fn data(start: Cursor) -> Result<Vec<u16>, Fault> {
    let items = parted_by_commas(start, item).map_err(misformed)?;
    let mut cells = Vec::new();
    for item in items {
        match item {
            Item::Number(number) => {
                cells.push(number.what.value().ok_or(Why::OutOfRange.at(number.column))?)
            }
            Item::String(mut characters) => cells.append(&mut characters),
        }
    }
    Ok(cells)
}

fn item(cursor: Cursor) -> Read<Item> {
    let start = cursor.past_blanks();
    if start.byte() == Some(b'"') {
        let (cells, after) = start.string()?;
        return Ok((Item::String(cells), after));
    }
    let (number, after) = start.number(Sign::Allowed)?;
    Ok((Item::Number(number), after))
}

/// One or more by commas, up to the line's end.
fn parted_by_commas<'l, T>(
    start: Cursor<'l>,
    one: impl Fn(Cursor<'l>) -> Read<'l, T>,
) -> Result<Vec<T>, Column> {
    let mut all = Vec::new();
    let mut cursor = start;
    loop {
        let (read, after) = one(cursor)?;
        all.push(read);
        if after.past_blanks().is_at_end() {
            return Ok(all);
        }
        cursor = after.due_mark(b',')?;
    }
}

/// An instruction: form of all its operands, then 15 and 16, then sizes.
fn instruction<'l>(opcode: At<Opcode>, start: Cursor<'l>) -> Result<Written<'l>, Fault> {
    let operands = operands(start).map_err(misformed)?;
    judge_operands(opcode, &operands)?;
    let sized = |place: usize| match operands.get(place) {
        Some(operand) => operand.what.sized(),
        None => Ok(Operand::Absent),
    };
    let awaited = |place: usize| {
        let operand = operands.get(place)?;
        Some(Awaited { name: operand.what.label()?, operand: operand.column })
    };
    Ok(Written {
        instruction: Instruction { opcode: opcode.what, first: sized(0)?, second: sized(1)? },
        labels: [awaited(0), awaited(1)],
    })
}

/// "Operands are parted by commas"; any number of well-formed operands has right form.
fn operands(start: Cursor) -> Result<Vec<At<WrittenOperand>>, Column> {
    if start.past_blanks().is_at_end() {
        return Ok(Vec::new());
    }
    parted_by_commas(start, operand::read)
}

/// "15, wrong number of operands, and 16, kind not allowed": "15 comes before 16", "and of two
/// operands wrong in kind the first is named". The size plays no part: any word will do.
fn judge_operands(opcode: At<Opcode>, operands: &[At<WrittenOperand>]) -> Result<(), Fault> {
    let wanted = opcode.what.operands();
    if operands.len() != wanted.len() {
        return Err(Why::OperandCount.at(opcode.column));
    }
    for (number, (place, operand)) in (1..).zip(wanted.iter().zip(operands)) {
        if !place.allows(&operand.what.with_word(0)) {
            return Err(Why::OperandKind(number).at(operand.column));
        }
    }
    Ok(())
}

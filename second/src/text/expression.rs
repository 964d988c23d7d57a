//! Expressions of ORG, EQU and RES (document 01, "Rules of writing" and "Refusing a source").
//! Form comes first and is read without recursion, so that no depth can overflow the stack; then
//! depth; only then values, "in order of evaluation (left, right, operation)".

use super::cursor::{Cursor, Read};
use super::{At, Column, Fault, Why};
use crate::number::{Number, Sign};

/// "parentheses at most 32 deep".
pub const DEPTH_LIMIT: usize = 32;

#[derive(Clone, Copy, Debug, PartialEq, Eq)]
enum Token {
    Number(Number),
    Operation(u8),
    Open,
    Close,
}

/// An expression of right form, not yet evaluated.
#[derive(Debug)]
pub struct Expression {
    tokens: Vec<At<Token>>,
    /// "the parenthesis opening level 33", the leftmost.
    too_deep: Option<Column>,
}

/// Reads the expression that fills the rest of a line.
pub fn read(start: Cursor) -> Result<Expression, Column> {
    let mut tokens = Vec::new();
    let (mut depth, mut too_deep) = (0usize, None);
    let mut operand_is_due = true;
    let mut cursor = start.past_blanks();
    while !cursor.is_at_end() {
        let (token, after) = if operand_is_due { operand(cursor)? } else { operation(cursor)? };
        match token.what {
            Token::Open => {
                depth += 1;
                too_deep = too_deep.or((depth > DEPTH_LIMIT).then_some(token.column));
            }
            Token::Close => depth = depth.checked_sub(1).ok_or(token.column)?,
            Token::Number(_) => operand_is_due = false,
            Token::Operation(_) => operand_is_due = true,
        }
        tokens.push(token);
        cursor = after.past_blanks();
    }
    if operand_is_due || depth != 0 {
        return Err(cursor.misplaced());
    }
    Ok(Expression { tokens, too_deep })
}

/// Where an operand is due: a number or an opening parenthesis.
fn operand(cursor: Cursor) -> Read<At<Token>> {
    if let Some(after) = cursor.mark(b'(') {
        return Ok((At { what: Token::Open, column: cursor.column() }, after));
    }
    let (At { what, column }, after) = cursor.number(Sign::IsOperation)?;
    Ok((At { what: Token::Number(what), column }, after))
}

/// Where an operand has just ended: an operation or a closing parenthesis.
fn operation(cursor: Cursor) -> Read<At<Token>> {
    let column = cursor.misplaced();
    let byte = cursor.byte().ok_or(column)?;
    let what = match byte {
        b'+' | b'-' | b'*' | b'/' | b'%' => Token::Operation(byte),
        b')' => Token::Close,
        _ => return Err(column),
    };
    Ok((At { what, column }, cursor.due_mark(byte)?))
}

impl Expression {
    /// The value: 8, then 6 or 7, whichever evaluation meets first.
    pub fn evaluate(&self) -> Result<i64, Fault> {
        match self.too_deep {
            Some(parenthesis) => Err(Why::TooDeep.at(parenthesis)),
            None => Evaluation { rest: &self.tokens }.sum(),
        }
    }
}

/// What is still to be evaluated. Sum, product and factor call each other, at most 32 deep.
struct Evaluation<'t> {
    rest: &'t [At<Token>],
}

impl Evaluation<'_> {
    /// Takes the operation that comes next, if it is one of these.
    fn take_operation(&mut self, among: &[u8]) -> Option<At<u8>> {
        match self.rest.split_first() {
            Some((At { what: Token::Operation(mark), column }, rest)) if among.contains(mark) => {
                self.rest = rest;
                Some(At { what: *mark, column: *column })
            }
            _ => None,
        }
    }

    fn sum(&mut self) -> Result<i64, Fault> {
        let mut left = self.product()?;
        while let Some(mark) = self.take_operation(b"+-") {
            left = performed(left, mark, self.product()?)?;
        }
        Ok(left)
    }

    fn product(&mut self) -> Result<i64, Fault> {
        let mut left = self.factor()?;
        while let Some(mark) = self.take_operation(b"*/%") {
            left = performed(left, mark, self.factor()?)?;
        }
        Ok(left)
    }

    fn factor(&mut self) -> Result<i64, Fault> {
        match self.rest.split_first() {
            Some((At { what: Token::Number(number), column }, rest)) => {
                self.rest = rest;
                number.in_expression().ok_or(Why::OutOfRange.at(*column))
            }
            Some((At { what: Token::Open, .. }, rest)) => {
                self.rest = rest;
                let value = self.sum()?;
                // The form was read before: a closing parenthesis stands here.
                self.rest = self.rest.get(1..).unwrap_or(&[]);
                Ok(value)
            }
            // The form was read before: nothing else stands here.
            _ => Err(Why::Form.at(Column::NONE)),
        }
    }
}

/// One operation; what it fails by is told at its mark. "Intermediates are exact, within a signed
/// 32-bit range": operands lie in it, so that the exact result always fits 64 bits.
fn performed(left: i64, mark: At<u8>, right: i64) -> Result<i64, Fault> {
    let exact = match mark.what {
        b'+' => Some(left + right),
        b'-' => Some(left - right),
        b'*' => Some(left * right),
        b'/' => left.checked_div(right),
        _ => left.checked_rem(right),
    };
    let exact = exact.ok_or(Why::DividesByZero.at(mark.column))?;
    i32::try_from(exact).map(i64::from).map_err(|_| Why::OutOfRange.at(mark.column))
}

//! Settling labels in operands, when every line has passed (document 01, "Refusing a source":
//! "Only if no line fails: 13 and 14 together, by line, then operand").

use super::labels::Labels;
use super::{Accepted, Address, Line, Refusal, Refused};
use crate::image::{CODE, DATA, RESERVED};
use crate::isa::Operand;
use crate::text::Awaited;

/// A memory and a map in the making.
#[derive(Debug)]
pub struct Image {
    pub cells: Vec<u16>,
    pub marks: Vec<u8>,
}

impl Image {
    pub fn counts(&self) -> Accepted {
        let marked = |wanted: u8| self.marks.iter().filter(|mark| **mark == wanted).count() as u32;
        Accepted { code: marked(CODE), data: marked(DATA), reserved: marked(RESERVED) }
    }
}

/// An operand that names a label, in the order of lines and operands.
#[derive(Debug)]
pub struct Late<'s> {
    pub line: Line,
    /// The cell that is to hold the operand's word.
    pub cell: Address,
    pub awaited: Awaited<'s>,
    pub operand: Operand,
    /// The address after the instruction.
    pub after: Address,
}

/// A source whose lines all passed.
#[derive(Debug)]
pub struct Placed<'s> {
    pub labels: Labels<'s>,
    pub image: Image,
    pub late: Vec<Late<'s>>,
}

pub fn settle(placed: Placed) -> Result<Image, Refused> {
    let Placed { labels, mut image, late } = placed;
    for operand in &late {
        let word = word(operand, &labels)?;
        if let Some(cell) = image.cells.get_mut(operand.cell.0 as usize) {
            *cell = word;
        }
    }
    Ok(image)
}

/// "`$label` is the label's value less the address after the instruction, as plain numbers."
/// Everywhere else a label stands for its value. 13 is told at the label, 14 at the operand.
fn word(late: &Late, labels: &Labels) -> Result<u16, Refused> {
    let Awaited { name, operand } = late.awaited;
    let refused = |refusal, column| Refused { refusal, line: late.line, column };
    let unknown = refused(Refusal::LabelUnknown, name.column);
    let value = labels.value(name.what).ok_or(unknown)?;
    if !matches!(late.operand, Operand::Relative(_)) {
        return Ok(value);
    }
    let distance = i64::from(value) - i64::from(late.after.0);
    match i16::try_from(distance) {
        Ok(displacement) => Ok(displacement as u16),
        Err(_) => Err(refused(Refusal::TooFar, operand)),
    }
}

//! Placing statements, line after line: addresses, waiting labels, claimed cells (document 01,
//! "Rules of writing" and "Refusing a source").

use super::labels::Labels;
use super::settling::{Image, Late, Placed};
use super::{Address, Line, Refusal, Refused};
use crate::image::{CODE, DATA, FREE, RESERVED};
use crate::isa::encode;
use crate::text::{At, Column, Statement, Why, Written};

/// What has been placed up to a line.
#[derive(Debug)]
pub struct Placing<'s> {
    line: Line,
    address: Address,
    labels: Labels<'s>,
    image: Image,
    late: Vec<Late<'s>>,
    ended: bool,
}

impl<'s> Placing<'s> {
    /// "Addresses start at 0." What memory and map held before plays no part.
    pub fn new(cells: usize) -> Placing<'s> {
        Placing {
            line: Line(0),
            address: Address(0),
            labels: Labels::default(),
            image: Image { cells: vec![0; cells], marks: vec![FREE; cells] },
            late: Vec::new(),
            ended: false,
        }
    }

    pub fn next_line(&mut self) {
        self.line = Line(self.line.0 + 1);
    }

    pub fn has_ended(&self) -> bool {
        self.ended
    }

    /// A refusal on the line that is being placed.
    pub fn refused(&self, refusal: Refusal, column: Column) -> Refused {
        Refused { refusal, line: self.line, column }
    }

    pub fn label(&mut self, name: At<&'s [u8]>) -> Result<(), Refused> {
        let kept = self.labels.keep(name.what);
        kept.map_err(|refusal| self.refused(refusal, name.column))
    }

    /// Places a statement; whatever it is refused for is told at its word.
    pub fn place(&mut self, statement: At<Statement<'s>>) -> Result<(), Refused> {
        let word = statement.column;
        match statement.what {
            // "ORG lets it wait on".
            Statement::Org(address) => self.address = Address(u32::from(address)),
            Statement::Equ(value) => self.labels.bind_waiting(value),
            Statement::Res(cells) => self.reserve(cells, word)?,
            Statement::Data(cells) => {
                self.bind_here(word)?;
                self.claim(&cells, DATA, word)?;
            }
            Statement::Instruction(written) => self.instruction(&written, word)?,
            Statement::End => {
                self.bind_here(word)?;
                self.ended = true;
            }
        }
        Ok(())
    }

    /// Binds the waiting labels to the current address; "65,536 is 6" if there are any.
    fn bind_here(&mut self, column: Column) -> Result<(), Refused> {
        if !self.labels.are_waiting() {
            return Ok(());
        }
        match u16::try_from(self.address.0) {
            Ok(address) => {
                self.labels.bind_waiting(address);
                Ok(())
            }
            Err(_) => Err(self.refused(Refusal::OfLine(Why::OutOfRange), column)),
        }
    }

    /// "RES must claim its cells, marked 3 in the map, holding 0" (document 02, K2); "an address
    /// above 65,536 after it is 6", and that comes before 11.
    fn reserve(&mut self, cells: u16, word: Column) -> Result<(), Refused> {
        self.bind_here(word)?;
        if self.address.0 + u32::from(cells) > 65_536 {
            return Err(self.refused(Refusal::OfLine(Why::OutOfRange), word));
        }
        self.claim(&vec![0; usize::from(cells)], RESERVED, word)
    }

    /// Claims the cells from the current address on: 11 over all of them, then 12. Where there are
    /// none (`RES 0`) it is neither, at any address.
    fn claim(&mut self, words: &[u16], mark: u8, word: Column) -> Result<(), Refused> {
        if words.is_empty() {
            return Ok(());
        }
        let start = self.address.0 as usize;
        let cells = start..start + words.len();
        if cells.end > self.image.cells.len() {
            return Err(self.refused(Refusal::PastMemory, word));
        }
        if self.image.marks[cells.clone()].iter().any(|mark| *mark != FREE) {
            return Err(self.refused(Refusal::ClaimedTwice, word));
        }
        self.image.cells[cells.clone()].copy_from_slice(words);
        self.image.marks[cells.clone()].fill(mark);
        self.address = Address(cells.end as u32);
        Ok(())
    }

    /// An instruction's words, and what is to be settled in them once all labels are known.
    fn instruction(&mut self, written: &Written<'s>, word: Column) -> Result<(), Refused> {
        // Count and kinds were judged when the line was read: the encoder takes what it allows.
        let words = encode(&written.instruction)
            .map_err(|_| self.refused(Refusal::OfLine(Why::OperandCount), word))?;
        self.bind_here(word)?;
        let start = self.address;
        self.claim(words.as_slice(), CODE, word)?;
        let operands = [written.instruction.first, written.instruction.second];
        for (place, operand) in operands.iter().enumerate() {
            if let Some(awaited) = written.labels[place] {
                self.late.push(Late {
                    line: self.line,
                    cell: Address(start.0 + 1 + place as u32),
                    awaited,
                    operand: *operand,
                    after: self.address,
                });
            }
        }
        Ok(())
    }

    /// "the source's end gives the current address", on the last line if it is out of range, "but
    /// column 0 for a label bound at the source's end".
    pub fn finish(mut self) -> Result<Placed<'s>, Refused> {
        self.bind_here(Column::NONE)?;
        Ok(Placed { labels: self.labels, image: self.image, late: self.late })
    }
}

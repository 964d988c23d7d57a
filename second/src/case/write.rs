//! Writing case lines, without their LF.

use super::{Case, LentImage, LentMachine, LentMemory, LentSource};
use std::fmt::{self, Display, Formatter};

/// Bytes in lower-case hex, or `-` for none.
pub struct Hex<'b>(pub &'b [u8]);

impl Display for Hex<'_> {
    fn fmt(&self, out: &mut Formatter) -> fmt::Result {
        if self.0.is_empty() {
            return out.write_str("-");
        }
        self.0.iter().try_for_each(|byte| write!(out, "{:02x}", byte))
    }
}

/// A count and so many pairs.
pub struct Pairs<'p, T>(pub &'p [(usize, T)]);

impl<T: Display> Display for Pairs<'_, T> {
    fn fmt(&self, out: &mut Formatter) -> fmt::Result {
        write!(out, "{}", self.0.len())?;
        self.0.iter().try_for_each(|(address, value)| write!(out, " {} {}", address, value))
    }
}

impl Display for Case {
    fn fmt(&self, out: &mut Formatter) -> fmt::Result {
        match self {
            Case::Assemble(lent) => source(lent, out),
            Case::Encode { opcode, operands: [first, second] } => {
                write!(out, "E {} {} {} {} {}", opcode, first.0, first.1, second.0, second.1)
            }
            Case::Decode(words) => {
                write!(out, "D {}", words.len())?;
                words.iter().try_for_each(|word| write!(out, " {}", word))
            }
            Case::Step(lent) => {
                out.write_str("S ")?;
                machine(lent, out)
            }
            Case::Run(budget, lent) => {
                write!(out, "R {} ", budget)?;
                machine(lent, out)
            }
            Case::Print(lent) => image('P', lent, out),
            Case::List(lent) => image('G', lent, out),
            Case::Line(line) => write!(out, "L {}", Hex(line)),
        }
    }
}

fn source(lent: &LentSource, out: &mut Formatter) -> fmt::Result {
    let LentMemory { cells, fill, step, .. } = lent.memory;
    write!(out, "A {} {} {} {} ", cells, lent.map_length, fill, step)?;
    write!(out, "{} {}", lent.map_fill, Hex(&lent.source))
}

fn machine(lent: &LentMachine, out: &mut Formatter) -> fmt::Result {
    let LentMemory { cells, fill, step, ref overwritten } = lent.memory;
    write!(out, "{} {} {} {}", cells, fill, step, Pairs(overwritten))?;
    lent.registers.iter().try_for_each(|register| write!(out, " {}", register))?;
    write!(out, " {} {} {} ", lent.stop_code, Hex(&lent.input), lent.input_position)?;
    write!(out, "{} {} {}", lent.output_length, lent.output_fill, lent.output_position)
}

fn image(letter: char, lent: &LentImage, out: &mut Formatter) -> fmt::Result {
    let LentMemory { cells, fill, step, ref overwritten } = lent.memory;
    write!(out, "{} {} {} {} {} ", letter, cells, lent.map_length, fill, step)?;
    write!(out, "{} {} {} ", Pairs(overwritten), lent.map_fill, Pairs(&lent.marks))?;
    write!(out, "{} {}", lent.room, lent.room_fill)
}

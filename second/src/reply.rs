//! Replies: what a case is answered, one a line (docs/COMPARED.md has the format).

use crate::case::write::{Hex, Pairs};
use crate::isa::Instruction;
use crate::text::{At, Column, Fault};
use std::fmt::{self, Display, Formatter};

/// Cells or map bytes by ascending address.
pub type Listed<T> = Vec<(usize, T)>;

/// What a step or a run leaves behind.
#[derive(Clone, Debug, PartialEq, Eq)]
pub struct Left {
    pub registers: [u16; 16],
    pub stop_code: u8,
    pub input_position: u64,
    pub output_position: u64,
    pub changed_cells: Listed<u16>,
    pub changed_output: Listed<Vec<u8>>,
}

#[derive(Clone, Debug, PartialEq, Eq)]
pub enum Reply {
    Assemble {
        refusal: u8,
        line: u32,
        column: u32,
        place: u8,
        code: u32,
        data: u32,
        reserved: u32,
        cells: Listed<u16>,
        marks: Listed<u8>,
    },
    Encoded(Vec<u16>),
    NotEncoded,
    Decoded(Instruction),
    NotDecoded(u8),
    Step(u8, Left),
    Run(u8, u32, Left),
    Print {
        code: u8,
        length: usize,
        changed: Listed<Vec<u8>>,
    },
    List {
        code: u8,
        address: u32,
        length: usize,
        changed: Listed<Vec<u8>>,
    },
    /// A line's label and what it says, or the first of its own checks that fails.
    Line(Name, Result<LineSays, Fault>),
}

/// How many of DATA's cells a reply shows, after their number.
const MOST_SHOWN: usize = 64;

/// A word's place in its line: where it starts, and where it ends; both 0 for no word.
#[derive(Clone, Copy, Debug, PartialEq, Eq)]
pub struct Name(pub usize, pub usize);

impl Name {
    /// The place of a word that was read: columns count from 1, places from 0.
    pub fn of(word: Option<At<&[u8]>>) -> Name {
        match word {
            None => Name(0, 0),
            Some(At { what, column: Column(column) }) => {
                let start = column as usize - 1;
                Name(start, start + what.len())
            }
        }
    }
}

#[derive(Clone, Debug, PartialEq, Eq)]
pub enum LineSays {
    Nothing,
    /// With 0 in the place of each label, and the labels' places.
    Instruction(Instruction, [Name; 2]),
    Org(u16),
    Equ(u16),
    Res(u16),
    /// Its cells.
    Data(Vec<u16>),
    End,
}

/// What differs between two rows of one length, by ascending address.
pub fn differing<T: Copy + PartialEq>(before: &[T], after: &[T]) -> Listed<T> {
    let pairs = before.iter().zip(after).enumerate();
    pairs.filter(|(_, (old, new))| old != new).map(|(at, (_, new))| (at, *new)).collect()
}

/// The maximal runs of bytes that differ from what all of them were before.
pub fn changed_runs(fill: u8, after: &[u8]) -> Listed<Vec<u8>> {
    let mut runs: Listed<Vec<u8>> = Vec::new();
    let mut end_of_last = usize::MAX;
    for (at, byte) in after.iter().enumerate().filter(|(_, byte)| **byte != fill) {
        match runs.last_mut() {
            Some((_, run)) if end_of_last == at => run.push(*byte),
            _ => runs.push((at, vec![*byte])),
        }
        end_of_last = at + 1;
    }
    runs
}

struct Runs<'r>(&'r [(usize, Vec<u8>)]);

impl Display for Runs<'_> {
    fn fmt(&self, out: &mut Formatter) -> fmt::Result {
        write!(out, "{}", self.0.len())?;
        self.0.iter().try_for_each(|(start, bytes)| write!(out, " {} {}", start, Hex(bytes)))
    }
}

impl Display for Left {
    fn fmt(&self, out: &mut Formatter) -> fmt::Result {
        self.registers.iter().try_for_each(|register| write!(out, "{} ", register))?;
        write!(out, "{} {} {} ", self.stop_code, self.input_position, self.output_position)?;
        write!(out, "{} {}", Pairs(&self.changed_cells), Runs(&self.changed_output))
    }
}

impl Display for Name {
    fn fmt(&self, out: &mut Formatter) -> fmt::Result {
        write!(out, "{} {}", self.0, self.1)
    }
}

impl Display for LineSays {
    fn fmt(&self, out: &mut Formatter) -> fmt::Result {
        match self {
            LineSays::Nothing => out.write_str("N"),
            LineSays::Instruction(Instruction { opcode, first, second }, labels) => {
                write!(out, "I {} {} {} ", opcode.number(), first.kind(), first.word())?;
                write!(out, "{} {} {} {}", labels[0], second.kind(), second.word(), labels[1])
            }
            LineSays::Org(value) => write!(out, "O {}", value),
            LineSays::Equ(value) => write!(out, "Q {}", value),
            LineSays::Res(value) => write!(out, "R {}", value),
            LineSays::Data(cells) => {
                write!(out, "D {}", cells.len())?;
                cells.iter().take(MOST_SHOWN).try_for_each(|cell| write!(out, " {}", cell))
            }
            LineSays::End => out.write_str("E"),
        }
    }
}

impl Display for Reply {
    fn fmt(&self, out: &mut Formatter) -> fmt::Result {
        match self {
            Reply::Assemble {
                refusal,
                line,
                column,
                place,
                code,
                data,
                reserved,
                cells,
                marks,
            } => {
                write!(out, "{} {} {} {} ", refusal, line, column, place)?;
                write!(out, "{} {} {} ", code, data, reserved)?;
                write!(out, "{} {}", Pairs(cells), Pairs(marks))
            }
            Reply::Encoded(words) => {
                write!(out, "0 {}", words.len())?;
                words.iter().try_for_each(|word| write!(out, " {}", word))
            }
            Reply::NotEncoded => out.write_str("5"),
            Reply::Decoded(instruction) => {
                let Instruction { opcode, first, second } = instruction;
                write!(out, "0 {} {} {} ", opcode.number(), first.kind(), first.word())?;
                write!(out, "{} {} {}", second.kind(), second.word(), instruction.length())
            }
            Reply::NotDecoded(stop) => write!(out, "{}", stop),
            Reply::Step(stop, left) => write!(out, "{} {}", stop, left),
            Reply::Run(stop, count, left) => write!(out, "{} {} {}", stop, count, left),
            Reply::Print { code, length, changed } => {
                write!(out, "{} {} {}", code, length, Runs(changed))
            }
            Reply::List { code, address, length, changed } => {
                write!(out, "{} {} {} {}", code, address, length, Runs(changed))
            }
            Reply::Line(label, Ok(says)) => write!(out, "0 {} {}", label, says),
            Reply::Line(label, Err(Fault { why, column: Column(column) })) => {
                write!(out, "{} {} {} {}", why.number(), label, column, why.place())
            }
        }
    }
}

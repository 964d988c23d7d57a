//! Operands of a step: where each one lies and what it holds (document 01, "What a step does":
//! "addresses, targets and source values are found before anything is written").

use super::{Registers, Stop, IX, IY, SP};
use crate::isa::Operand;

/// Where an operand lies. A cell's address is known to be below M.
#[derive(Clone, Copy, Debug, PartialEq, Eq)]
pub enum Located {
    Value(u16),
    Register(u16),
    Cell(usize),
}

/// An address found, or stop 5 if it is not below M. "Addresses add modulo 65536."
#[inline]
pub fn cell(address: u16, memory: &[u16]) -> Result<usize, Stop> {
    let address = usize::from(address);
    if address < memory.len() {
        Ok(address)
    } else {
        Err(Stop::MemoryEnd)
    }
}

/// Finds an operand that is no target. The registers hold PC as operands see it.
#[inline]
pub fn locate(operand: Operand, seen: &Registers, memory: &[u16]) -> Result<Located, Stop> {
    let address = match operand {
        Operand::Immediate(value) => return Ok(Located::Value(value)),
        Operand::Register(code) => return Ok(Located::Register(code)),
        Operand::Memory(address) => address,
        Operand::Indirect(code) => seen.get(code),
        Operand::IndexedIx(displacement) => seen.get(IX).wrapping_add(displacement),
        Operand::IndexedIy(displacement) => seen.get(IY).wrapping_add(displacement),
        Operand::IndexedSp(displacement) => seen.get(SP).wrapping_add(displacement),
        // Decoding gives neither of these outside a target's place.
        Operand::Absent | Operand::Relative(_) => return Err(Stop::Mode),
    };
    cell(address, memory).map(Located::Cell)
}

/// What a located operand holds.
#[inline]
pub fn read(located: Located, seen: &Registers, memory: &[u16]) -> u16 {
    match located {
        Located::Value(value) => value,
        Located::Register(code) => seen.get(code),
        Located::Cell(address) => memory[address],
    }
}

/// "Branch and CALL targets are addresses, never a cell's content." They count only as next PC.
#[inline]
pub fn target(operand: Operand, after: u16, seen: &Registers) -> u16 {
    match operand {
        Operand::Indirect(code) => seen.get(code),
        Operand::Relative(displacement) => after.wrapping_add(displacement),
        other => other.word(),
    }
}

//! Operands: their kinds, and the mode that stands for each in a first word (document 01,
//! "Layout": "Modes: 0 none, 1 immediate, 2 register, 3 memory, 4 indirect, 5 IX, 6 IY,
//! 7 relative for branches and CALL, else SP-indexed").

use super::Place;

/// One operand, its word with it. A register code read from outside may be above 15; encoding
/// refuses it and decoding never gives it.
#[derive(Clone, Copy, Debug, PartialEq, Eq)]
pub enum Operand {
    Absent,
    Immediate(u16),
    Register(u16),
    Memory(u16),
    Indirect(u16),
    IndexedIx(u16),
    IndexedIy(u16),
    Relative(u16),
    IndexedSp(u16),
}

impl Operand {
    /// The kind's number in case lines: the mode, with 8 for SP-indexed.
    pub fn kind(&self) -> u8 {
        match self {
            Operand::Absent => 0,
            Operand::Immediate(_) => 1,
            Operand::Register(_) => 2,
            Operand::Memory(_) => 3,
            Operand::Indirect(_) => 4,
            Operand::IndexedIx(_) => 5,
            Operand::IndexedIy(_) => 6,
            Operand::Relative(_) => 7,
            Operand::IndexedSp(_) => 8,
        }
    }

    /// The operand of a kind number with its word; nothing above 8.
    pub fn of_kind(kind: u8, word: u16) -> Option<Operand> {
        Some(match kind {
            0 => Operand::Absent,
            1 => Operand::Immediate(word),
            2 => Operand::Register(word),
            3 => Operand::Memory(word),
            4 => Operand::Indirect(word),
            5 => Operand::IndexedIx(word),
            6 => Operand::IndexedIy(word),
            7 => Operand::Relative(word),
            8 => Operand::IndexedSp(word),
            _ => return None,
        })
    }

    /// The operand's word: value, displacement or register code; 0 if there is none.
    pub fn word(&self) -> u16 {
        match *self {
            Operand::Absent => 0,
            Operand::Immediate(word)
            | Operand::Register(word)
            | Operand::Memory(word)
            | Operand::Indirect(word)
            | Operand::IndexedIx(word)
            | Operand::IndexedIy(word)
            | Operand::Relative(word)
            | Operand::IndexedSp(word) => word,
        }
    }

    /// The three bits that stand for the kind in a first word.
    pub fn mode(&self) -> u16 {
        match self {
            Operand::IndexedSp(_) => 7,
            other => u16::from(other.kind()),
        }
    }

    /// The operand that a mode means at a place: 7 is relative only for branches and CALL.
    pub fn of_mode(mode: u16, word: u16, place: Place) -> Operand {
        match mode & 7 {
            0 => Operand::Absent,
            1 => Operand::Immediate(word),
            2 => Operand::Register(word),
            3 => Operand::Memory(word),
            4 => Operand::Indirect(word),
            5 => Operand::IndexedIx(word),
            6 => Operand::IndexedIy(word),
            _ if place == Place::Target => Operand::Relative(word),
            _ => Operand::IndexedSp(word),
        }
    }

    /// Whether its word is a register code that names no register.
    pub fn names_no_register(&self) -> bool {
        matches!(*self, Operand::Register(code) | Operand::Indirect(code) if code > 15)
    }
}

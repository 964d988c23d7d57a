//! The text side: from a line's bytes to its label and its statement (document 01, "Rules of
//! writing"). Nothing here knows of addresses or of other lines. Whatever is read keeps the column
//! at which it starts, so that a fault can be named by it (document 02, K4).

pub mod cursor;
pub mod expression;
pub mod line;
pub mod operand;
pub mod statement;

pub use line::{lines, read_line, LineRead};
pub use operand::{Spelled, WrittenOperand};
pub use statement::{Awaited, Statement, Written};

/// "the 1-based place in its line", counted in bytes; 0 where no place is to blame. Neither a
/// line's number nor a cell's address.
#[derive(Clone, Copy, Debug, PartialEq, Eq, PartialOrd, Ord)]
pub struct Column(pub u32);

impl Column {
    /// "1 and 2 have column 0", and so has "a label bound at the source's end".
    pub const NONE: Column = Column(0);

    /// The column of a line's byte that so many bytes precede.
    pub fn behind(bytes: usize) -> Column {
        Column(bytes as u32 + 1)
    }
}

/// Something read, with the column of its first byte.
#[derive(Clone, Copy, Debug, PartialEq, Eq)]
pub struct At<T> {
    pub what: T,
    pub column: Column,
}

/// Why a line by itself can be refused (document 01, "Refusing a source", with K4's 15 and 16).
#[derive(Clone, Copy, Debug, PartialEq, Eq)]
pub enum Why {
    Form,
    WordUnknown,
    OutOfRange,
    DividesByZero,
    TooDeep,
    OperandCount,
    /// "kind not allowed, the latter with the operand's place, 1 or 2".
    OperandKind(u8),
}

impl Why {
    pub fn number(self) -> u8 {
        match self {
            Why::Form => 3,
            Why::WordUnknown => 4,
            Why::OutOfRange => 6,
            Why::DividesByZero => 7,
            Why::TooDeep => 8,
            Why::OperandCount => 15,
            Why::OperandKind(_) => 16,
        }
    }

    /// The operand's place in 16, else 0.
    pub fn place(self) -> u8 {
        match self {
            Why::OperandKind(place) => place,
            _ => 0,
        }
    }

    pub fn at(self, column: Column) -> Fault {
        Fault { why: self, column }
    }
}

/// A line's fault, and the column "where the fault starts".
#[derive(Clone, Copy, Debug, PartialEq, Eq)]
pub struct Fault {
    pub why: Why,
    pub column: Column,
}

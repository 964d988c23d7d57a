//! The instruction set (document 01, "Layout").
//!
//! ```text
//!   15                6 5     3 2     0      15            0      15            0
//!  +-------------------+-------+-------+    +---------------+    +---------------+
//!  |      opcode       | mode1 | mode2 |    |  operand 1    |    |  operand 2    |
//!  +-------------------+-------+-------+    +---------------+    +---------------+
//! ```
//! then one word per operand in order: value, displacement or register code.

pub mod decode;
pub mod encode;
pub mod opcode;
pub mod operand;

pub use decode::decode;
pub use encode::encode;
pub use opcode::{Opcode, Place};
pub use operand::Operand;

/// "An instruction read is an opcode with its operands, each of one kind."
#[derive(Clone, Copy, Debug, PartialEq, Eq)]
pub struct Instruction {
    pub opcode: Opcode,
    pub first: Operand,
    pub second: Operand,
}

impl Instruction {
    /// How many cells it takes: the first word and one a operand.
    pub fn length(&self) -> u16 {
        1 + u16::from(self.first != Operand::Absent) + u16::from(self.second != Operand::Absent)
    }
}

/// The lowest number that is no first word: "2,496 or more is 2".
pub const FIRST_WORDS: u16 = 39 * 64;

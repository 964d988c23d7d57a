//! The machine (document 01, "What a step does").

pub mod effects;
pub mod operands;
pub mod ports;
pub mod run;
pub mod step;

pub use run::{run, Ran, BUDGET_LIMIT};
pub use step::{step, Stepped};

use crate::arithmetic::{H, WRITABLE};

/// Register codes: "R0..R9 0..9, A 10, SR 11, IX 12, IY 13, SP 14, PC 15".
pub const A: u16 = 10;
pub const SR: u16 = 11;
pub const IX: u16 = 12;
pub const IY: u16 = 13;
pub const SP: u16 = 14;
pub const PC: u16 = 15;

/// The names of the registers by code.
pub const REGISTER_NAMES: [&str; 16] =
    ["R0", "R1", "R2", "R3", "R4", "R5", "R6", "R7", "R8", "R9", "A", "SR", "IX", "IY", "SP", "PC"];

/// Why a machine does not go on, by document 01's numbers.
#[derive(Clone, Copy, Debug, PartialEq, Eq)]
#[repr(u8)]
pub enum Stop {
    None = 0,
    Halt = 1,
    Opcode = 2,
    Mode = 3,
    Register = 4,
    MemoryEnd = 5,
    ZeroDivisor = 6,
    BudgetSpent = 7,
    InputEnd = 8,
    OutputShort = 9,
    BadLoan = 10,
}

impl Stop {
    pub fn number(self) -> u8 {
        self as u8
    }

    /// What a stored stop code says: 0 to 6, "stop code above 6" being a bad loan.
    pub fn of_code(code: u8) -> Option<Stop> {
        Some(match code {
            0 => Stop::None,
            1 => Stop::Halt,
            2 => Stop::Opcode,
            3 => Stop::Mode,
            4 => Stop::Register,
            5 => Stop::MemoryEnd,
            6 => Stop::ZeroDivisor,
            _ => return None,
        })
    }

    /// "2 to 6 set the stop code"; 7, 8, 9 and 10 are never stored.
    pub fn is_stored_fault(self) -> bool {
        (2..=6).contains(&self.number())
    }
}

/// The 16 registers by code.
#[derive(Clone, Copy, Debug, PartialEq, Eq)]
pub struct Registers(pub [u16; 16]);

impl Registers {
    /// A code above 15 does not come out of decoding; the mask spares the check.
    #[inline]
    pub fn get(&self, code: u16) -> u16 {
        self.0[usize::from(code & 15)]
    }

    /// "Writing SR sets bits 0..4 and keeps H."
    #[inline]
    pub fn set(&mut self, code: u16, value: u16) {
        let kept = if code == SR { (self.get(SR) & H) | (value & WRITABLE) } else { value };
        self.0[usize::from(code & 15)] = kept;
    }

    /// HALT alone sets H.
    #[inline]
    pub fn set_halted(&mut self) {
        self.0[usize::from(SR)] |= H;
    }
}

/// A machine's record with everything the host lends it. Positions are as wide as a host may
/// lend them; only after the loan was judged are they known to lie within their rows.
#[derive(Debug)]
pub struct Machine<'a> {
    pub registers: Registers,
    pub stop_code: u8,
    pub memory: &'a mut [u16],
    pub input: &'a [u8],
    pub input_position: u64,
    pub output: &'a mut [u8],
    pub output_position: u64,
}

/// "M from 1 to 65,536" (What is lent).
pub fn is_memory_size(cells: usize) -> bool {
    (1..=65_536).contains(&cells)
}

impl Machine<'_> {
    /// Stop 10: "bad loan (M, a position past its end, SR above 63, stop code above 6)".
    pub fn is_bad_loan(&self) -> bool {
        !is_memory_size(self.memory.len())
            || self.input_position > self.input.len() as u64
            || self.output_position > self.output.len() as u64
            || self.registers.get(SR) > 63
            || self.stop_code > 6
    }
}

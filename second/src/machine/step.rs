//! One step (document 01, "What a step does": "Order: 10, stopped already, PC≥M (5), 2, 3, ...").

use super::effects::perform;
use super::{Machine, Stop, PC};
use crate::isa::{decode, Opcode};

/// A step's reply: the stop number, and whether the step completed and so is counted.
#[derive(Clone, Copy, Debug, PartialEq, Eq)]
pub struct Stepped {
    pub stop: Stop,
    pub completed: bool,
}

/// One step of a machine that a host lends. What refuses changes nothing, "except that 2 to 6
/// set the stop code; a stopped machine repeats it".
pub fn step(machine: &mut Machine) -> Stepped {
    if machine.is_bad_loan() {
        return Stepped { stop: Stop::BadLoan, completed: false };
    }
    match Stop::of_code(machine.stop_code) {
        Some(Stop::None) => advance(machine),
        Some(stop) => Stepped { stop, completed: false },
        None => Stepped { stop: Stop::BadLoan, completed: false },
    }
}

/// One step of a machine whose loan is good and whose stop code is 0.
#[inline]
pub(super) fn advance(machine: &mut Machine) -> Stepped {
    match complete(machine) {
        Ok(stop) => {
            machine.stop_code = stop.number();
            Stepped { stop, completed: true }
        }
        Err(stop) => {
            if stop.is_stored_fault() {
                machine.stop_code = stop.number();
            }
            Stepped { stop, completed: false }
        }
    }
}

/// Fetches, decodes and performs. Gives what stops the machine after a step that was kept: 0, 1
/// after HALT, 5 for a next PC past the end; refuses with everything as it was.
#[inline]
fn complete(machine: &mut Machine) -> Result<Stop, Stop> {
    let pc = machine.registers.get(PC);
    let words = machine.memory.get(usize::from(pc)..).ok_or(Stop::MemoryEnd)?;
    let instruction = decode(words)?;
    let sequential = u32::from(pc) + u32::from(instruction.length());
    // "Operands see PC after the instruction, modulo 65536"; a refusal puts it back.
    machine.registers.set(PC, sequential as u16);
    if instruction.opcode == Opcode::Halt {
        machine.registers.set_halted();
        return Ok(Stop::Halt);
    }
    match perform(&instruction, machine, sequential) {
        Ok(next) => {
            // "After a step PC is kept modulo 65536; a next PC≥M before that reduction is stop 5."
            machine.registers.set(PC, next as u16);
            let past_memory = next as usize >= machine.memory.len();
            Ok(if past_memory { Stop::MemoryEnd } else { Stop::None })
        }
        Err(stop) => {
            machine.registers.set(PC, pc);
            Err(stop)
        }
    }
}

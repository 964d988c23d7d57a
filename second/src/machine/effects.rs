//! What each instruction does (document 01, "What a step does"; manual, section 5). Everything
//! that may refuse is asked before the first write, in the papers' order: operand addresses,
//! zero divisor, stack, input and output.

use super::operands::{cell, locate, read, target, Located};
use super::{ports, Machine, Stop, A, PC, SP, SR};
use crate::arithmetic::{self, Outcome, C, P, S, V, Z};
use crate::isa::{Instruction, Opcode, Operand};
use crate::number;

/// A step at work. Its registers hold PC as operands see it: the address after the instruction,
/// modulo 65536. Who calls `perform` puts PC there, and back if the step refuses.
pub struct Work<'w, 'm> {
    machine: &'w mut Machine<'m>,
    /// The next PC, not reduced: after the instruction unless something else is written.
    next: u32,
}

impl Work<'_, '_> {
    #[inline]
    fn after(&self) -> u16 {
        self.machine.registers.get(PC)
    }

    #[inline]
    fn locate(&self, operand: Operand) -> Result<Located, Stop> {
        locate(operand, &self.machine.registers, self.machine.memory)
    }

    #[inline]
    fn read(&self, located: Located) -> u16 {
        read(located, &self.machine.registers, self.machine.memory)
    }

    #[inline]
    fn value(&self, operand: Operand) -> Result<u16, Stop> {
        self.locate(operand).map(|located| self.read(located))
    }

    /// "A write to register PC gives the next PC."
    #[inline]
    fn write(&mut self, located: Located, value: u16) {
        match located {
            Located::Register(PC) => self.next = u32::from(value),
            Located::Register(code) => self.machine.registers.set(code, value),
            Located::Cell(address) => self.machine.memory[address] = value,
            Located::Value(_) => {}
        }
    }

    /// Flags come after the result was stored, so `INC .SR` ends with the result's flags.
    #[inline]
    fn set_flags(&mut self, outcome: &Outcome) {
        self.machine.registers.set(SR, outcome.flags());
    }

    /// The branch conditions are the manual's (section 5.6); document 01 confirms BP and BNN.
    #[inline]
    fn condition(&self, opcode: Opcode) -> bool {
        let sr = self.machine.registers.get(SR);
        let set = |flag: u16| sr & flag != 0;
        match opcode {
            Opcode::Bz => set(Z),
            Opcode::Bnz => !set(Z),
            Opcode::Bp => !set(S),
            Opcode::Bnp => set(S) || set(Z),
            Opcode::Bn => set(S),
            Opcode::Bnn => !set(S) || set(Z),
            Opcode::Bv => set(V),
            Opcode::Bnv => !set(V),
            Opcode::Bc => set(C),
            Opcode::Bnc => !set(C),
            Opcode::Be => !set(P),
            Opcode::Bo => set(P),
            _ => true,
        }
    }

    /// "PUSH stores at SP, then SP falls"; a cell not below M is stop 5.
    fn push(&mut self, value: u16) -> Result<(), Stop> {
        let sp = self.machine.registers.get(SP);
        let top = cell(sp, self.machine.memory)?;
        self.machine.memory[top] = value;
        self.machine.registers.set(SP, sp.wrapping_sub(1));
        Ok(())
    }

    /// "POP raises SP, then reads."
    fn pop(&mut self) -> Result<u16, Stop> {
        let sp = self.machine.registers.get(SP).wrapping_add(1);
        let top = cell(sp, self.machine.memory)?;
        self.machine.registers.set(SP, sp);
        Ok(self.machine.memory[top])
    }

    /// Two sources whose outcome goes to A, or, for CMP, to the flags alone.
    fn calculate(&mut self, opcode: Opcode, first: Operand, second: Operand) -> Result<(), Stop> {
        let a = self.value(first)?;
        let b = self.value(second)?;
        let outcome = match opcode {
            Opcode::Add => arithmetic::add(a, b),
            Opcode::Mul => arithmetic::mul(a, b),
            Opcode::Div => arithmetic::div(a, b).ok_or(Stop::ZeroDivisor)?,
            Opcode::Mod => arithmetic::modulo(a, b).ok_or(Stop::ZeroDivisor)?,
            _ => arithmetic::sub(a, b),
        };
        if opcode != Opcode::Cmp {
            self.machine.registers.set(A, outcome.value);
        }
        self.set_flags(&outcome);
        Ok(())
    }

    /// AND, OR, XOR: "logic and moves set none" of the flags.
    fn combine(&mut self, opcode: Opcode, first: Operand, second: Operand) -> Result<(), Stop> {
        let a = self.value(first)?;
        let b = self.value(second)?;
        let result = match opcode {
            Opcode::And => a & b,
            Opcode::Or => a | b,
            _ => a ^ b,
        };
        self.machine.registers.set(A, result);
        Ok(())
    }

    /// "INC and DEC are plus and minus 1; NEG is 0 minus"; NOT sets no flags.
    fn change(&mut self, opcode: Opcode, operand: Operand) -> Result<(), Stop> {
        let place = self.locate(operand)?;
        let old = self.read(place);
        let outcome = match opcode {
            Opcode::Inc => arithmetic::add(old, 1),
            Opcode::Dec => arithmetic::sub(old, 1),
            Opcode::Neg => arithmetic::sub(0, old),
            _ => {
                self.write(place, !old);
                return Ok(());
            }
        };
        self.write(place, outcome.value);
        self.set_flags(&outcome);
        Ok(())
    }

    /// MOVE, PUSH and POP (manual, 5.2). POP's operand address is found before SP rises.
    fn transfer(&mut self, opcode: Opcode, first: Operand, second: Operand) -> Result<(), Stop> {
        match opcode {
            Opcode::Push => {
                let pushed = self.value(first)?;
                self.push(pushed)
            }
            Opcode::Pop => {
                let place = self.locate(first)?;
                let popped = self.pop()?;
                self.write(place, popped);
                Ok(())
            }
            _ => {
                let moved = self.value(first)?;
                let place = self.locate(second)?;
                self.write(place, moved);
                Ok(())
            }
        }
    }

    /// Branches, CALL and RET (manual, 5.6 and 5.7).
    fn go(&mut self, opcode: Opcode, operand: Operand) -> Result<(), Stop> {
        let target = target(operand, self.after(), &self.machine.registers);
        match opcode {
            Opcode::Ret => self.next = u32::from(self.pop()?),
            Opcode::Call => {
                self.push(self.after())?;
                self.next = u32::from(target);
            }
            branch => {
                if self.condition(branch) {
                    self.next = u32::from(target);
                }
            }
        }
        Ok(())
    }

    /// INCHAR, ININT, INSTR (manual, 5.8): the operand's address comes before the input's end.
    fn take(&mut self, opcode: Opcode, operand: Operand) -> Result<(), Stop> {
        let place = self.locate(operand)?;
        match (opcode, place) {
            (Opcode::Instr, Located::Cell(address)) => ports::store_line(self.machine, address)?,
            (Opcode::Inchar, _) => {
                let byte = ports::byte(self.machine.input, self.machine.input_position)?;
                self.machine.input_position += 1;
                self.write(place, u16::from(byte));
            }
            _ => {
                let line = ports::line(self.machine.input, self.machine.input_position)?;
                let value = number::of_line(line.bytes);
                self.machine.input_position = line.position_after;
                self.write(place, value);
            }
        }
        Ok(())
    }

    /// WRCHAR, WRINT, WRSTR (manual, 5.8).
    fn give(&mut self, opcode: Opcode, operand: Operand) -> Result<(), Stop> {
        let place = self.locate(operand)?;
        let held = self.read(place);
        match (opcode, place) {
            (Opcode::Wrstr, Located::Cell(address)) => ports::write_string(self.machine, address),
            (Opcode::Wrint, _) => ports::write_number(self.machine, held),
            _ => ports::write(self.machine, &[held as u8]),
        }
    }
}

/// Does what an instruction other than HALT does and gives the next PC, not reduced; or refuses
/// and leaves the machine as it was.
#[inline(always)]
pub fn perform(
    instruction: &Instruction,
    machine: &mut Machine,
    sequential: u32,
) -> Result<u32, Stop> {
    let mut work = Work { machine, next: sequential };
    let Instruction { opcode, first, second } = *instruction;
    match opcode {
        Opcode::Nop | Opcode::Halt => {}
        Opcode::Move | Opcode::Push | Opcode::Pop => work.transfer(opcode, first, second)?,
        Opcode::Add | Opcode::Sub | Opcode::Mul | Opcode::Div | Opcode::Mod | Opcode::Cmp => {
            work.calculate(opcode, first, second)?
        }
        Opcode::Inc | Opcode::Dec | Opcode::Neg | Opcode::Not => work.change(opcode, first)?,
        Opcode::And | Opcode::Or | Opcode::Xor => work.combine(opcode, first, second)?,
        Opcode::Inchar | Opcode::Inint | Opcode::Instr => work.take(opcode, first)?,
        Opcode::Wrchar | Opcode::Wrint | Opcode::Wrstr => work.give(opcode, first)?,
        _ => work.go(opcode, first)?,
    }
    Ok(work.next)
}

//! Machines about to step: an instruction at PC whose operands lie near the edges.

use super::draw;
use super::ports;
use super::random::Random;
use crate::case::{Case, LentMachine};
use crate::isa::{encode, opcode, Instruction, Opcode, Operand, Place};
use crate::machine::{IX, IY, PC, SP, SR};

pub fn step_case(random: &mut Random) -> Case {
    let mut lent = machine(random);
    let instruction = instruction(random, &mut lent);
    place_instruction(random, &instruction, &mut lent);
    arrange_text(random, &instruction, &mut lent);
    spoil(random, &mut lent);
    Case::Step(lent)
}

/// A machine with drawn registers, ports and memory, nothing in it yet.
pub fn machine(random: &mut Random) -> LentMachine {
    let cells = draw::machine_cells(random);
    let mut registers = [0; 16];
    for register in &mut registers {
        *register = draw::word(random);
    }
    registers[usize::from(SR)] = random.below(64) as u16;
    registers[usize::from(SP)] = stack_pointer(random, cells);
    let input = ports::input(random);
    let output_length = ports::room(random);
    LentMachine {
        memory: draw::memory(random, cells),
        registers,
        stop_code: 0,
        input_position: ports::position(random, input.len()),
        input,
        output_length,
        output_fill: ports::fill(random),
        output_position: ports::position(random, output_length),
    }
}

/// SP around 0, M-1, M and 65,535, for PUSH and, one below, for POP.
fn stack_pointer(random: &mut Random, cells: usize) -> u16 {
    match random.below(16) {
        0 => 0,
        1 => cells as u16,
        2 | 3 => (cells as u16).wrapping_sub(2),
        4 => *random.pick(&[65_535, 65_534]),
        _ => draw::address(random, cells),
    }
}

/// An allowed instruction; input and output are drawn more often than by number.
fn instruction(random: &mut Random, lent: &mut LentMachine) -> Instruction {
    let opcode = match random.below(5) {
        0 => opcode::ALL[random.between(33, 38)],
        1 => opcode::ALL[random.between(2, 17)],
        _ => *random.pick(&opcode::ALL),
    };
    let (first, second) = opcode.places();
    Instruction {
        opcode,
        first: operand(random, first, lent),
        second: operand(random, second, lent),
    }
}

/// An operand whose address is near an edge; registers are set to suit.
pub fn operand(random: &mut Random, place: Place, lent: &mut LentMachine) -> Operand {
    let kind = draw::allowed_operand(random, place, 0);
    operand_of(random, kind, lent)
}

/// The same of a given kind, whatever its word is.
pub fn operand_of(random: &mut Random, kind: Operand, lent: &mut LentMachine) -> Operand {
    let code = register_code(random);
    let address = draw::address(random, lent.memory.cells);
    let base = |register: u16| lent.registers[usize::from(register)];
    match kind {
        Operand::Absent => Operand::Absent,
        Operand::Immediate(_) => Operand::Immediate(draw::word(random)),
        Operand::Register(_) => Operand::Register(code),
        Operand::Memory(_) => Operand::Memory(address),
        Operand::Indirect(_) => {
            // PC and SR have their own say; SP was drawn before.
            if !matches!(code, SR | SP | PC) {
                lent.registers[usize::from(code)] = address;
            }
            Operand::Indirect(code)
        }
        Operand::IndexedIx(_) => Operand::IndexedIx(address.wrapping_sub(base(IX))),
        Operand::IndexedIy(_) => Operand::IndexedIy(address.wrapping_sub(base(IY))),
        Operand::IndexedSp(_) => Operand::IndexedSp(address.wrapping_sub(base(SP))),
        Operand::Relative(_) if random.one_in(2) => Operand::Relative(draw::word(random)),
        Operand::Relative(_) => Operand::Relative(address.wrapping_sub(base(PC))),
    }
}

fn register_code(random: &mut Random) -> u16 {
    match random.below(3) {
        0 => *random.pick(&[SR, SP, PC, IX, IY]),
        _ => random.below(16) as u16,
    }
}

/// Writes the instruction's words at PC, which is drawn so that they fit, mostly.
fn place_instruction(random: &mut Random, instruction: &Instruction, lent: &mut LentMachine) {
    let mut words = match encode(instruction) {
        Ok(words) => words.as_slice().to_vec(),
        Err(_) => Vec::new(),
    };
    match random.below(24) {
        0 => words = vec![random.word(), draw::word(random), draw::word(random)],
        1 => words = vec![random.below(2_600) as u16, draw::word(random), 3],
        2 | 3 if words.len() > 1 => {
            let at = random.between(1, words.len() - 1);
            words[at] = *random.pick(&[16, 17, 65_535]);
        }
        _ => {}
    }
    let (cells, length) = (lent.memory.cells, words.len());
    let start = match random.below(32) {
        0 | 1 => cells.saturating_sub(length),
        2 => cells.saturating_sub(1),
        3 => cells.saturating_sub(length.saturating_sub(1)),
        4 => *random.pick(&[cells, cells + 1, 65_535]),
        _ => random.below(cells.saturating_sub(length) + 1),
    };
    lent.registers[usize::from(PC)] = start as u16;
    write_cells(lent, start & 65_535, &words);
}

/// Overwrites cells from an address on, as far as there are any.
pub fn write_cells(lent: &mut LentMachine, start: usize, words: &[u16]) {
    for (at, word) in words.iter().enumerate() {
        if start + at < lent.memory.cells {
            lent.memory.overwritten.push((start + at, *word));
        }
    }
}

/// The address that INSTR or WRSTR will use, as far as it is known before the step.
fn text_address(instruction: &Instruction, lent: &LentMachine) -> usize {
    let register = |code: u16| lent.registers[usize::from(code & 15)];
    usize::from(match instruction.first {
        Operand::Memory(address) => address,
        Operand::Indirect(code) => register(code),
        Operand::IndexedIx(displacement) => register(IX).wrapping_add(displacement),
        Operand::IndexedIy(displacement) => register(IY).wrapping_add(displacement),
        Operand::IndexedSp(displacement) => register(SP).wrapping_add(displacement),
        _ => 0,
    })
}

/// A string for WRSTR that ends before M, at M or not at all; a line for INSTR that just fits or
/// just does not.
pub fn arrange_text(random: &mut Random, instruction: &Instruction, lent: &mut LentMachine) {
    let address = text_address(instruction, lent);
    let room = lent.memory.cells.saturating_sub(address);
    match instruction.opcode {
        Opcode::Wrstr if random.below(4) != 0 => {
            let length = if room <= 40 && random.one_in(2) { room } else { random.below(8) };
            let mut cells: Vec<u16> = (0..length).map(|_| character(random)).collect();
            if random.below(4) != 0 {
                cells.push(0);
            }
            write_cells(lent, address, &cells);
            if random.one_in(2) {
                lent.output_length = cells.len().saturating_sub(random.below(3));
                lent.output_position = 0;
            }
        }
        Opcode::Instr if room <= 40 && random.one_in(2) => {
            let length = (room + random.below(3)).saturating_sub(2);
            lent.input = (0..length).map(|at| b'a' + (at % 26) as u8).collect();
            lent.input_position = 0;
            if random.one_in(2) {
                lent.input.extend_from_slice(b"\nnext\n");
            }
        }
        _ => {}
    }
}

/// A cell of a string: mostly a character, now and then one whose low byte is 0.
fn character(random: &mut Random) -> u16 {
    match random.below(10) {
        0 => *random.pick(&[256, 512, 65_280]),
        1 => random.word() | 1,
        _ => random.between(32, 126) as u16,
    }
}

/// Now and then a loan that is bad, or a machine that stopped before.
pub fn spoil(random: &mut Random, lent: &mut LentMachine) {
    match random.below(40) {
        0 => lent.registers[usize::from(SR)] = *random.pick(&[64, 65, 96, 127, 32_768, 65_535]),
        1 => lent.stop_code = random.between(1, 6) as u8,
        2 => lent.stop_code = *random.pick(&[7, 8, 9, 10, 11, 255]),
        _ => {}
    }
}

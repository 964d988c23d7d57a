//! Steps that no draw may leave out: every allowed first word, every stop that an opcode's step
//! can come to, and lines and rooms of more than 100 bytes. Every set of machine cases begins
//! with them.

use super::edges::kinds::all_kinds;
use super::random::Random;
use super::{draw, ports, states};
use crate::answer::operate;
use crate::case::{Case, LentMachine};
use crate::isa::{encode, opcode, Instruction, Opcode, Operand, Place};
use crate::machine::{self, Stop, PC};

pub fn all(random: &mut Random) -> Vec<Case> {
    let mut cases = Vec::new();
    for instruction in all_kinds() {
        cases.push(Case::Step(with_first_word(random, &instruction)));
        cases.extend(completing(random, &instruction).map(Case::Step));
    }
    for opcode in opcode::ALL {
        for (stop, completed) in stops(opcode) {
            cases.extend(coming_to(random, opcode, stop, completed).map(Case::Step));
        }
    }
    for opcode in
        [Opcode::Inchar, Opcode::Inint, Opcode::Instr, Opcode::Wrchar, Opcode::Wrint, Opcode::Wrstr]
    {
        let times = if opcode.places().0 == Place::Text { 36 } else { 12 };
        for _ in 0..times {
            cases.push(Case::Step(long(random, opcode)));
        }
    }
    cases
}

/// What an opcode's step can come to, its first word being that opcode's and the machine well
/// lent and not stopped: the stop, and whether the step completes.
pub fn stops(opcode: Opcode) -> Vec<(Stop, bool)> {
    let (first, _) = opcode.places();
    let mut stops = vec![(Stop::Mode, false)];
    if opcode == Opcode::Halt {
        stops.push((Stop::Halt, true));
    } else {
        // kept, as the next PC is no cell's
        stops.extend([(Stop::None, true), (Stop::MemoryEnd, true)]);
    }
    if first != Place::Empty {
        // words that are missing, and a register code above 15
        stops.extend([(Stop::MemoryEnd, false), (Stop::Register, false)]);
    }
    match opcode {
        Opcode::Ret => stops.push((Stop::MemoryEnd, false)),
        Opcode::Div | Opcode::Mod => stops.push((Stop::ZeroDivisor, false)),
        Opcode::Inchar | Opcode::Inint | Opcode::Instr => stops.push((Stop::InputEnd, false)),
        Opcode::Wrchar | Opcode::Wrint | Opcode::Wrstr => stops.push((Stop::OutputShort, false)),
        _ => {}
    }
    stops
}

/// What a step of a lent machine comes to.
pub fn comes_to(lent: &LentMachine) -> (Stop, bool) {
    let (stepped, _) = operate(lent, machine::step);
    (stepped.stop, stepped.completed)
}

/// A machine of so many cells, well lent.
fn machine_of(random: &mut Random, cells: usize) -> LentMachine {
    let mut lent = states::machine(random);
    lent.memory = draw::memory(random, cells);
    lent.registers[usize::from(machine::SP)] = draw::address(random, cells);
    lent.input_position = 0;
    lent.output_position = 0;
    lent
}

/// An instruction of these kinds at PC, with all its words.
fn with_first_word(random: &mut Random, kinds: &Instruction) -> LentMachine {
    let cells = random.between(12, 40);
    let mut lent = machine_of(random, cells);
    let first = states::operand_of(random, kinds.first, &mut lent);
    let second = states::operand_of(random, kinds.second, &mut lent);
    let words = words(&Instruction { opcode: kinds.opcode, first, second });
    place(random, &mut lent, &words);
    lent
}

/// The same, drawn until the step completes and its next PC is a cell's.
fn completing(random: &mut Random, kinds: &Instruction) -> Option<LentMachine> {
    let mut drawn = (0..20_000).map(|_| with_first_word(random, kinds));
    drawn.find(|lent| matches!(comes_to(lent), (Stop::None | Stop::Halt, true)))
}

fn words(instruction: &Instruction) -> Vec<u16> {
    encode(instruction).map_or(Vec::new(), |words| words.as_slice().to_vec())
}

/// Writes words somewhere at or before the memory's end, and sets PC there.
fn place(random: &mut Random, lent: &mut LentMachine, words: &[u16]) {
    let last = lent.memory.cells.saturating_sub(words.len());
    let start = if random.one_in(6) { last } else { random.below(last + 1) };
    lent.registers[usize::from(PC)] = start as u16;
    states::write_cells(lent, start, words);
}

/// Draws steps of an opcode until one comes to this.
fn coming_to(
    random: &mut Random,
    opcode: Opcode,
    stop: Stop,
    completed: bool,
) -> Option<LentMachine> {
    let (first, second) = opcode.places();
    for _ in 0..20_000 {
        let cells = *random.pick(&[4, 9, 16, 24]);
        let mut lent = machine_of(random, cells);
        let instruction = Instruction {
            opcode,
            first: states::operand(random, first, &mut lent),
            second: states::operand(random, second, &mut lent),
        };
        let mut words = words(&instruction);
        match stop {
            Stop::Mode => words[0] = opcode.number() * 64 + random.below(64) as u16,
            Stop::Register => bad_register(random, &mut words),
            Stop::MemoryEnd if !completed && random.one_in(4) => {
                words.truncate(random.between(1, 2));
                lent.registers[usize::from(PC)] = (cells - words.len()) as u16;
            }
            Stop::InputEnd => lent.input_position = lent.input.len() as u64,
            Stop::OutputShort => lent.output_position = lent.output_length as u64,
            _ => {}
        }
        place(random, &mut lent, &words);
        if stop == Stop::MemoryEnd && random.one_in(2) {
            // at the very end, all words or some
            let start = cells - random.between(1, 3).min(words.len());
            lent.memory.overwritten.clear();
            lent.registers[usize::from(PC)] = start as u16;
            states::write_cells(&mut lent, start, &words);
        }
        states::arrange_text(random, &instruction, &mut lent);
        let still_there = first_word(&lent).map(|word| word / 64) == Some(opcode.number());
        if still_there && comes_to(&lent) == (stop, completed) {
            return Some(lent);
        }
    }
    None
}

/// The word at PC, if there is one.
pub fn first_word(lent: &LentMachine) -> Option<u16> {
    lent.memory.row().get(usize::from(lent.registers[usize::from(PC)])).copied()
}

fn bad_register(random: &mut Random, words: &mut [u16]) {
    if words.len() > 1 {
        let at = random.between(1, words.len() - 1);
        words[at] = *random.pick(&[16, 17, 255, 256, 32_768, 65_535]);
    }
}

/// A step that reads or writes more than 100 bytes, or has room for more.
fn long(random: &mut Random, opcode: Opcode) -> LentMachine {
    let cells = random.between(350, 420);
    let mut lent = machine_of(random, cells);
    let length = random.between(101, 300);
    let (first, _) = opcode.places();
    let mut instruction = Instruction {
        opcode,
        first: states::operand(random, first, &mut lent),
        second: Operand::Absent,
    };
    if first == Place::Text {
        // the text ends before M, with it, or one past it
        let start = cells - length - random.between(0, 2);
        instruction.first = Operand::Memory(start as u16);
        lent.memory = draw::memory(random, cells);
        lent.memory.fill = 97;
        lent.memory.step = 0;
        states::write_cells(&mut lent, start + length, &[0]);
    }
    lent.input = match opcode {
        Opcode::Inint => ports::long_number(random, length),
        _ => (0..length).map(|_| random.between(32, 126) as u8).collect(),
    };
    lent.input.extend_from_slice(random.text(&["", "\n", "\n1\n"]).as_bytes());
    lent.input_position = match opcode {
        Opcode::Inchar => random.between(100, lent.input.len()) as u64,
        _ => 0,
    };
    lent.output_length = length + random.below(6);
    lent.output_position = match opcode {
        Opcode::Wrstr => random.below(4) as u64,
        _ => (lent.output_length - random.below(8)) as u64,
    };
    let start = random.below(8) * 3;
    lent.registers[usize::from(PC)] = start as u16;
    states::write_cells(&mut lent, start, &words(&instruction));
    lent
}

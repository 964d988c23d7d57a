//! Machines about to run: small programs, most of which end within 2,000 steps.

use super::draw;
use super::ports;
use super::random::Random;
use super::states::{machine, operand, spoil, write_cells};
use crate::assembler::assemble;
use crate::case::{Case, LentMachine};
use crate::isa::{encode, opcode, Instruction};
use crate::machine::{is_memory_size, PC, SP};

/// Programs that come to an end by themselves. `#N` stands for a small number, `#T` for the last
/// cell's address, `#V` for any word.
const ENDING: [&str; 16] = [
    "MOVE #N,.R1\nloop: DEC .R1\nBNZ $loop\nHALT",
    "MOVE #N,.R1\nloop: ADD .R0,.R1\nMOVE .A,.R0\nDEC .R1\nBNZ /loop\nWRINT .R0\nHALT",
    "loop: INCHAR .A\nWRCHAR .A\nBR $loop",
    "loop: ININT .R1\nWRINT .R1\nWRCHAR #10\nBR /loop",
    "loop: INSTR /b\nWRSTR /b\nBR /loop\nb: RES 9",
    "MOVE #T,.SP\nCALL $f\nWRINT .A\nHALT\nf: ADD #N,#V\nRET",
    "MOVE #T,.SP\nf: CALL /f",
    "MOVE #T,.SP\nMOVE #N,.R1\nl: PUSH .R1\nDEC .R1\nBNN /l\nm: POP .A\nWRINT .A\nBR $m",
    "MOVE #N,.R1\nl: DIV #V,.R1\nDEC .R1\nBR $l",
    "MOVE #N,.R1\nl: MOD #V,.R1\nDEC .R1\nBR $l",
    "MOVE #N,.IX\nl: MOVE #V,#9[.IX]\nINC .IX\nBR $l",
    "l: WRSTR /s\nBR /l\ns: DATA \"ab\\n\"",
    "MOVE #N,.A\nl: MUL .A,#3\nBC /e\nBV /e\nBZ /e\nBR /l\ne: WRINT .A\nHALT",
    "MOVE #V,.R2\nl: INC .R2\nBO $l\nBE /m\nm: CMP .R2,#N\nBP $e\nBN $e\ne: HALT",
    "MOVE #N,.IY\nl: MOVE #0[.IY],.A\nDEC .IY\nBNN $l\nNOT .A\nNEG .A\nAND .A,#V\nOR .A,#N\nHALT",
    "MOVE #x,.R1\nl: INC [.R1]\nx: NOP\nBR /l",
];

/// Programs that go on for ever, or do for some numbers.
const ENDLESS: [&str; 6] = [
    "MOVE #s,.R3\nWRSTR [.R3]\nMOVE #N,.PC\ns: DATA \"hola\"",
    "XOR .PC,#N\nMOVE .A,.R1\nBR [.R1]",
    "BR $-2",
    "l: INC .R1\nBNV $l\nBR /l",
    "MOVE #T,.SP\nl: PUSH .R1\nPOP .R2\nINC .R1\nBR /l",
    "l: ADD .R1,#V\nMOVE .A,.R1\nXOR .A,.R2\nMOVE .A,.R2\nBR $l",
];

pub fn run_case(random: &mut Random) -> Case {
    let mut lent = machine(random);
    let budget = match random.below(10) {
        0 | 1 => {
            written(random, &ENDLESS, &mut lent);
            endless_budget(random)
        }
        2..=4 => {
            drawn(random, &mut lent);
            *random.pick(&[0, 1, 2, 3, 5, 20, 300])
        }
        _ => {
            written(random, &ENDING, &mut lent);
            ending_budget(random)
        }
    };
    spoil(random, &mut lent);
    Case::Run(budget, lent)
}

fn ending_budget(random: &mut Random) -> u32 {
    match random.below(16) {
        0..=5 => *random.pick(&[0, 1, 2, 3, 7, 30]),
        6 => *random.pick(&[1_000_001, u32::MAX]),
        7..=10 => *random.pick(&[1_999, 2_000]),
        _ => 1_000_000,
    }
}

/// Few endless runs may spend much.
fn endless_budget(random: &mut Random) -> u32 {
    match random.below(250) {
        0 => 1_000_000,
        1 => 65_537,
        _ => *random.pick(&[0, 1, 2, 10, 99, 1_000, 2_000, 1_000_001]),
    }
}

/// A written program, assembled at the machine's size if it fits there, at 40 cells otherwise.
fn written(random: &mut Random, programs: &[&str], lent: &mut LentMachine) {
    if !is_memory_size(lent.memory.cells) || lent.memory.cells < 24 {
        lent.memory.cells = random.between(24, 40);
    }
    // Recursion into the largest memory would run through all of it: small ones do as well.
    if lent.memory.cells > 16_384 && random.below(8) != 0 {
        lent.memory.cells = random.between(24, 400);
    }
    lent.memory.fill = 0;
    lent.memory.step = 0;
    let source = source(random, programs, lent.memory.cells);
    let mut memory = vec![0; lent.memory.cells];
    let mut map = vec![0; lent.memory.cells];
    if assemble(source.as_bytes(), &mut memory, &mut map).is_ok() {
        let cells = memory.iter().enumerate().filter(|(_, cell)| **cell != 0);
        lent.memory.overwritten = cells.map(|(at, cell)| (at, *cell)).collect();
    }
    lent.registers[usize::from(PC)] = 0;
    if random.one_in(2) {
        lent.registers[usize::from(SP)] = (lent.memory.cells as u16).wrapping_sub(1);
    }
}

/// A program's text with its numbers filled in.
fn source(random: &mut Random, programs: &[&str], cells: usize) -> String {
    let small = match random.below(4) {
        0 => random.below(300),
        _ => random.below(12),
    };
    random
        .pick(programs)
        .replace("#N", &format!("#{}", small))
        .replace("#T", &format!("#{}", cells - 1))
        .replace("#V", &format!("#{}", draw::word(random)))
}

/// Allowed instructions one after another, their operands near the edges.
fn drawn(random: &mut Random, lent: &mut LentMachine) {
    let mut words = Vec::new();
    for _ in 0..random.between(1, 6) {
        let opcode = *random.pick(&opcode::ALL);
        let (first, second) = opcode.places();
        let first = operand(random, first, lent);
        let second = operand(random, second, lent);
        if let Ok(encoded) = encode(&Instruction { opcode, first, second }) {
            words.extend_from_slice(encoded.as_slice());
        }
    }
    if random.one_in(5) {
        let at = random.below(words.len());
        if let Some(word) = words.get_mut(at) {
            *word = *random.pick(&[16, 17, 1, 2_496, 65_535, 144]);
        }
    }
    let start = random.below(lent.memory.cells.saturating_sub(words.len()) + 1);
    lent.registers[usize::from(PC)] = start as u16;
    write_cells(lent, start, &words);
    if random.one_in(2) {
        lent.input = ports::input(random);
        lent.input_position = 0;
    }
}

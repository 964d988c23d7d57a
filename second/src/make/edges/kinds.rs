//! Every allowed first word, written: each operand that has a number or a label names a label.

use super::case;
use crate::case::Case;
use crate::isa::{encode, opcode, Instruction, Operand};
use crate::machine::REGISTER_NAMES;
use crate::make::random::Random;

/// The kinds of operand that an opcode's two places allow, 601 in all.
pub fn all_kinds() -> Vec<Instruction> {
    let mut all = Vec::new();
    for opcode in opcode::ALL {
        for first in (0..=8).filter_map(|kind| Operand::of_kind(kind, 0)) {
            for second in (0..=8).filter_map(|kind| Operand::of_kind(kind, 0)) {
                let instruction = Instruction { opcode, first, second };
                if encode(&instruction).is_ok() {
                    all.push(instruction);
                }
            }
        }
    }
    all
}

pub fn add(random: &mut Random, cases: &mut Vec<Case>) {
    for Instruction { opcode, first, second } in all_kinds() {
        let mut text = String::from(opcode.name());
        if let Some(first) = operand(random, &first, "x") {
            text.push_str(&format!(" {}", first));
        }
        if let Some(second) = operand(random, &second, "y") {
            text.push_str(&format!(",{}", second));
        }
        let source = around(random, &text);
        cases.push(case(random, 16, source));
    }
}

/// An operand with a label, or with a register.
fn operand(random: &mut Random, kind: &Operand, label: &str) -> Option<String> {
    let register = random.text(&REGISTER_NAMES);
    Some(match kind {
        Operand::Absent => return None,
        Operand::Immediate(_) => format!("#{}", label),
        Operand::Register(_) => format!(".{}", register),
        Operand::Memory(_) => format!("/{}", label),
        Operand::Indirect(_) => format!("[.{}]", register),
        Operand::IndexedIx(_) => format!("#{}[.IX]", label),
        Operand::IndexedIy(_) => format!("#{}[.IY]", label),
        Operand::IndexedSp(_) => format!("#{}[.SP]", label),
        Operand::Relative(_) => format!("${}", label),
    })
}

/// x and y before the instruction, after it, on it, or one of each; by place or by EQU.
fn around(random: &mut Random, text: &str) -> String {
    match random.below(8) {
        0 => format!("x: EQU {}\ny: EQU 2\n{}", random.below(16), text),
        1 => format!("{}\nx: DATA 5\ny: HALT", text),
        2 => format!("y: NOP\n{}\nx:", text),
        3 => format!("x:\ny: {}", text),
        4 => format!("x: {}\ny: EQU 0x{:x}", text, random.word()),
        5 => format!("RES 3\nx:\n{}\ny: END", text),
        6 => format!("x:\ny:\nORG {}\n{}", random.between(1, 13), text),
        _ => format!("y: RES 1\n{}\nx: EQU {}\n", text, random.below(1_000)),
    }
}

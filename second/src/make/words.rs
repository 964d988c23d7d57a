//! Cases for the encoder and the decoder.

use super::draw;
use super::random::Random;
use crate::case::Case;
use crate::isa::{encode, opcode, Instruction, Operand, Place};

/// An operand for a place: mostly of an allowed kind, its register code mostly a register's.
fn operand(random: &mut Random, place: Place) -> Operand {
    let word = draw::word(random);
    let drawn = if random.one_in(8) {
        Operand::of_kind(random.below(9) as u8, word).unwrap_or(Operand::Absent)
    } else {
        draw::allowed_operand(random, place, word)
    };
    with_register(random, drawn)
}

/// The same operand, its word a register code if it names a register: seldom a bad one.
fn with_register(random: &mut Random, operand: Operand) -> Operand {
    let code = match random.below(12) {
        0 => *random.pick(&[16, 17, 31, 255, 256, 65_535]),
        1 => 15,
        _ => random.below(16) as u16,
    };
    match operand {
        Operand::Register(_) => Operand::Register(code),
        Operand::Indirect(_) => Operand::Indirect(code),
        other => other,
    }
}

fn instruction(random: &mut Random) -> Instruction {
    let opcode = *random.pick(&opcode::ALL);
    let (first, second) = opcode.places();
    Instruction { opcode, first: operand(random, first), second: operand(random, second) }
}

pub fn encode_case(random: &mut Random) -> Case {
    let Instruction { opcode, first, second } = instruction(random);
    let number = match random.below(20) {
        0 => *random.pick(&[39, 40, 63, 64, 128, 255]),
        1 => random.byte(),
        _ => opcode.number() as u8,
    };
    let fields = |operand: Operand| (operand.kind(), operand.word());
    Case::Encode { opcode: number, operands: [fields(first), fields(second)] }
}

pub fn decode_case(random: &mut Random) -> Case {
    Case::Decode(drawn(random))
}

/// Words that start with an allowed first word mostly, some missing or too many now and then.
pub fn drawn(random: &mut Random) -> Vec<u16> {
    let mut words = match encode(&instruction(random)) {
        Ok(words) => words.as_slice().to_vec(),
        Err(_) => vec![random.below(2_560) as u16, draw::word(random), draw::word(random)],
    };
    match random.below(12) {
        0 => words.truncate(random.below(3)),
        1 => words[0] = *random.pick(&[1, 144, 2_495, 2_496, 2_497, 65_535, 7, 64, 71, 128]),
        2 => words[0] = random.word(),
        3 => words[0] = random.below(2_496) as u16,
        4 => words.extend((0..random.between(1, 2)).map(|at| at as u16)),
        5 | 6 => bad_register(random, &mut words),
        _ => {}
    }
    words.truncate(5);
    words
}

/// A register code above 15 where there is an operand.
fn bad_register(random: &mut Random, words: &mut [u16]) {
    if words.len() > 1 {
        let at = random.between(1, words.len() - 1);
        words[at] = *random.pick(&[16, 17, 255, 65_535]);
    }
}

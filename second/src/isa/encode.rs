//! Encoding an instruction (document 01, "Layout").

use super::Instruction;

/// An instruction's words, at most three.
#[derive(Clone, Copy, Debug, PartialEq, Eq)]
pub struct Words {
    words: [u16; 3],
    length: usize,
}

impl Words {
    pub fn as_slice(&self) -> &[u16] {
        &self.words[..self.length]
    }
}

/// The instruction is none of the allowed ones. For a source 5 is split into 15 and 16, "while the
/// encoder keeps it" (document 02, K4).
#[derive(Clone, Copy, Debug, PartialEq, Eq)]
pub struct NotAllowed;

/// The words of an allowed instruction. "Encoding any other instruction is 5", a register code
/// above 15 included (readings, "Encoder and decoder").
pub fn encode(instruction: &Instruction) -> Result<Words, NotAllowed> {
    let Instruction { opcode, first, second } = *instruction;
    let (first_place, second_place) = opcode.places();
    if !first_place.allows(&first) || !second_place.allows(&second) {
        return Err(NotAllowed);
    }
    if first.names_no_register() || second.names_no_register() {
        return Err(NotAllowed);
    }
    let first_word = opcode.number() * 64 + first.mode() * 8 + second.mode();
    Ok(Words {
        words: [first_word, first.word(), second.word()],
        length: usize::from(instruction.length()),
    })
}

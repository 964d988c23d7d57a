//! Decoding words (document 01, "Layout": "Decoding refuses as stops 2, 3, 5, 4, in step order").

use super::{Instruction, Opcode, Operand, Place};
use crate::machine::Stop;

/// The instruction that a row of words starts with. Words after it play no part.
#[inline(always)]
pub fn decode(words: &[u16]) -> Result<Instruction, Stop> {
    let first_word = *words.first().ok_or(Stop::MemoryEnd)?;
    let opcode = Opcode::from_number(first_word / 64).ok_or(Stop::Opcode)?;
    let (first_place, second_place) = opcode.places();
    let (first_mode, second_mode) = (first_word / 8 % 8, first_word % 8);
    if !first_place.allows_mode(first_mode) || !second_place.allows_mode(second_mode) {
        return Err(Stop::Mode);
    }
    // A missing word comes before a bad register code (readings, "Encoder and decoder").
    let first = operand(words, 1, first_mode, first_place)?;
    let second = operand(words, 2, second_mode, second_place)?;
    if first.names_no_register() || second.names_no_register() {
        return Err(Stop::Register);
    }
    Ok(Instruction { opcode, first, second })
}

/// The operand whose word stands at `at`. A second operand never stands without a first.
#[inline(always)]
fn operand(words: &[u16], at: usize, mode: u16, place: Place) -> Result<Operand, Stop> {
    if mode == 0 {
        return Ok(Operand::Absent);
    }
    let word = *words.get(at).ok_or(Stop::MemoryEnd)?;
    Ok(Operand::of_mode(mode, word, place))
}

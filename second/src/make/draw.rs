//! Numbers biased to the edges that the papers name.

use super::random::Random;
use crate::case::LentMemory;
use crate::isa::Operand;

/// A word that arithmetic finds interesting.
pub fn word(random: &mut Random) -> u16 {
    match random.below(4) {
        0 => *random.pick(&[0, 1, 2, 32_767, 32_768, 32_769, 65_534, 65_535]),
        1 => random.below(20) as u16,
        2 => (random.below(512) as u16).wrapping_sub(256),
        _ => random.word(),
    }
}

/// An address around the start and the end of a memory of so many cells.
pub fn address(random: &mut Random, cells: usize) -> u16 {
    let last = cells.wrapping_sub(1) as u16;
    match random.below(24) {
        0 | 1 => last,
        2 => last.wrapping_sub(1),
        3 => cells as u16,
        4 => *random.pick(&[65_535, 65_534, 0]),
        5 => last.wrapping_add(2),
        6 => random.word(),
        _ => random.below(cells) as u16,
    }
}

/// A memory size for a machine: small as a rule, large once in ten, bad now and then.
pub fn machine_cells(random: &mut Random) -> usize {
    if random.one_in(80) {
        return *random.pick(&[0, 65_537, 65_600]);
    }
    match random.below(20) {
        0 | 1 => *random.pick(&[16_384, 65_535, 65_536, 65_536]),
        2 => random.between(1, 3),
        3..=6 => random.between(4, 40),
        7 => random.between(100, 400),
        8..=11 => 24,
        _ => 16,
    }
}

/// A memory without overwritten cells: zeros, one number, or all different.
pub fn memory(random: &mut Random, cells: usize) -> LentMemory {
    let (fill, step) = match random.below(4) {
        0 | 1 => (0, 0),
        2 => (word(random), 0),
        _ => (random.word(), word(random)),
    };
    LentMemory { cells, fill, step, overwritten: Vec::new() }
}

/// The kinds that a first and a second operand of an opcode may have, mostly.
pub fn allowed_operand(random: &mut Random, place: crate::isa::Place, word: u16) -> Operand {
    let allowed: Vec<Operand> = (0..=8)
        .filter_map(|kind| Operand::of_kind(kind, word))
        .filter(|operand| place.allows(operand))
        .collect();
    *random.pick(&allowed)
}

//! Cases for the assembler.

use super::random::Random;
use super::{blocks, columns, draw, edges, faulty, large, late, mutate, nasty};
use super::{reserved, source, values, whole};
use crate::case::{Case, LentMemory, LentSource, CELLS_LIMIT};

pub fn assemble_case(random: &mut Random) -> Case {
    let (cells, mut source) = match random.below(40) {
        0 => (65_536, reserved::at_the_top(random)),
        1..=4 => columns::drawn(random),
        _ => {
            let cells = source_cells(random);
            (cells, drawn(random, cells))
        }
    };
    if random.one_in(20) {
        source = late::late(random, &source);
    }
    let memory = draw::memory(random, cells);
    Case::Assemble(LentSource {
        memory: LentMemory { overwritten: Vec::new(), ..memory },
        map_length: map_length(random, cells),
        map_fill: *random.pick(&[0, 0, 1, 2, 3, 255]),
        source,
    })
}

/// A source for a memory of so many cells.
pub fn drawn(random: &mut Random, cells: usize) -> Vec<u8> {
    match random.below(52) {
        0..=6 => source::source(random, cells),
        7..=17 => whole::source(random, cells),
        18..=23 => {
            let mut text = match random.below(2) {
                0 => source::source(random, cells),
                _ => whole::source(random, cells),
            };
            mutate::mutate(random, &mut text);
            text
        }
        24..=27 => nasty::source(random),
        28..=31 => faulty::source(random),
        32..=34 => blocks::source(random, cells),
        35 | 36 => large::whole(random),
        37 | 38 => {
            let text = late::told_late(random);
            late::late(random, &text)
        }
        39..=42 => values::source(random),
        43 | 44 => edges::addresses::drawn_reach(random, cells),
        45..=50 => reserved::source(random, cells),
        _ => nasty::bytes(random),
    }
}

/// Small as a rule, large once in ten, bad now and then.
fn source_cells(random: &mut Random) -> usize {
    match random.below(60) {
        0 => *random.pick(&[0, 65_537, 65_600]),
        1..=5 => *random.pick(&[16_384, 65_535, 65_536, 65_536]),
        6..=9 => *random.pick(&[1, 2, 2, 3, 4]),
        10..=20 => 100,
        21..=24 => random.between(101, 3_000),
        25..=44 => random.between(16, 40),
        _ => 16,
    }
}

fn map_length(random: &mut Random, cells: usize) -> usize {
    let length = match random.below(80) {
        0 => cells + 1,
        1 => cells.saturating_sub(1),
        2 => *random.pick(&[0, 16, 65_536]),
        _ => cells,
    };
    length.min(CELLS_LIMIT)
}

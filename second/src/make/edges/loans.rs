//! Every memory size with a map that fits and with maps that do not, and the last cells of each.

use super::{case, with_map, SIZES};
use crate::case::Case;
use crate::make::random::Random;

pub fn add(random: &mut Random, cases: &mut Vec<Case>) {
    let sources = ["", "HALT", "FOO", "ORG 0\nDATA 1"];
    for cells in SIZES {
        for map_length in [cells, cells - 1, cells + 1, 0] {
            let source = random.text(&sources);
            cases.push(with_map(random, cells, map_length, source));
        }
    }
    for (cells, map_length) in [
        (0, 0),
        (0, 1),
        (1, 65_536),
        (16, 32),
        (65_536, 1),
        (65_537, 65_537),
        (65_537, 65_536),
        (65_537, 1),
        (65_538, 65_538),
        (65_600, 65_600),
    ] {
        let source = random.text(&sources);
        cases.push(with_map(random, cells, map_length, source));
    }
    for cells in SIZES.into_iter().chain([3, 100, 255, 256, 257]) {
        last_cells(random, cells, cases);
    }
}

/// Statements that end with the last cell, and such as pass it by one.
fn last_cells(random: &mut Random, cells: usize, cases: &mut Vec<Case>) {
    let statements =
        [("HALT", 1), ("DATA 9", 1), ("DATA \"\"", 1), ("BR $-2", 2), ("MOVE .A,/0", 3)];
    for (statement, length) in statements {
        for start in [cells.saturating_sub(length), cells + 1 - length.min(cells)] {
            if start <= 65_535 {
                cases.push(case(random, cells, format!("ORG {}\n{}", start, statement)));
            }
        }
    }
}

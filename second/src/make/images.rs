//! Cases for printing an image.

use super::draw;
use super::random::Random;
use crate::case::{Case, LentImage, LentMemory};
use crate::image::{self, CODE, DATA, FREE, RESERVED};

pub fn print_case(random: &mut Random) -> Case {
    let lent = loan(random);
    with_room(random, lent)
}

/// Any memory and map, of any lengths, with no room yet.
pub fn loan(random: &mut Random) -> LentImage {
    let cells = image_cells(random);
    let mut lent = LentImage {
        memory: draw::memory(random, cells),
        map_length: map_length(random, cells),
        map_fill: map_fill(random, cells),
        marks: Vec::new(),
        room: 0,
        room_fill: *random.pick(&[0, 46, 61, 10, 49, 101, 255]),
    };
    for _ in 0..random.below(6) {
        lent.memory.overwritten.push((random.below(cells), draw::word(random)));
    }
    for _ in 0..random.below(10) {
        let mark = if random.one_in(60) { bad_mark(random) } else { random.below(4) as u8 };
        lent.marks.push((random.below(lent.map_length), mark));
    }
    drop_past_the_end(&mut lent);
    lent
}

/// A mark above 3, 4 as often as any other.
pub fn bad_mark(random: &mut Random) -> u8 {
    match random.below(2) {
        0 => 4,
        _ => 5 + random.below(251) as u8,
    }
}

/// Images that no draw may leave out: every set of print cases begins with them.
pub fn edges(random: &mut Random) -> Vec<Case> {
    let mut cases = Vec::new();
    for cells in [1, 2, 9, 10, 11, 99, 100, 101, 999, 1_000, 16_384, 65_535, 65_536] {
        for mark in [0, 1, 2, 3, 4, 255] {
            for at in [0, cells - 1] {
                let mut lent = free_image(random, cells, cells);
                lent.marks.push((at, mark));
                lent.memory.overwritten.push((at, draw::word(random)));
                cases.push(with_room(random, lent));
            }
        }
        for map_length in [cells - 1, cells + 1, 0] {
            let lent = free_image(random, cells, map_length);
            cases.push(with_room(random, lent));
        }
    }
    for (cells, map_length) in
        [(0, 0), (0, 1), (65_537, 65_537), (65_537, 65_536), (65_536, 65_537), (65_600, 65_600)]
    {
        let lent = free_image(random, cells, map_length);
        cases.push(with_room(random, lent));
    }
    // a bad mark before the first or after the last of many that are good
    for (at, mark) in [(0, 4), (39, 4), (20, 255), (0, 0), (39, 0), (20, 1)] {
        let mut lent = free_image(random, 40, 40);
        lent.map_fill = 2;
        lent.marks.push((at, mark));
        cases.push(with_room(random, lent));
    }
    // every number of digits, with every room around the text's length
    for more in 0..=4 {
        for value in [0, 9, 10, 99, 100, 999, 1_000, 9_999, 10_000, 65_535] {
            let mut lent = free_image(random, 12, 12);
            lent.marks.extend([(9, CODE), (10, DATA), (11, RESERVED)]);
            lent.memory.overwritten.extend([(9, value), (10, value), (11, value)]);
            lent.room = length(&lent) + more - 2;
            cases.push(Case::Print(lent));
        }
    }
    // all cells claimed
    for cells in [1, 3, 10, 101, 400] {
        for short in [0, 1] {
            let mut lent = free_image(random, cells, cells);
            lent.map_fill = random.between(1, 3) as u8;
            lent.room = length(&lent) - short;
            cases.push(Case::Print(lent));
        }
    }
    reserved(random, &mut cases);
    cases
}

/// Reserved cells (document 02, K2), whatever they hold: the readings' rows, beside every other
/// mark, at either end, all of a memory.
fn reserved(random: &mut Random, cases: &mut Vec<Case>) {
    // one cell that holds 7, or a mark that is none, with room enough, one byte too little and none
    for (mark, value) in [(RESERVED, 7), (RESERVED, 0), (4, 0), (4, 7)] {
        for short in [0, 1, 100] {
            let mut lent = free_image(random, 1, 1);
            lent.memory = LentMemory { cells: 1, fill: value, step: 0, overwritten: Vec::new() };
            lent.map_fill = mark;
            lent.room = length(&lent).saturating_sub(short);
            cases.push(Case::Print(lent));
        }
    }
    // every two marks side by side, within a memory and at its end
    for one in [FREE, CODE, DATA, RESERVED, 4] {
        for (at, other) in [(7, RESERVED), (14, RESERVED), (14, 4)] {
            let mut lent = free_image(random, 16, 16);
            lent.memory = LentMemory { fill: draw::word(random), step: 1, ..lent.memory };
            lent.marks.extend([(at, one), (at + 1, other), (0, RESERVED)]);
            lent.room = length(&lent) + random.below(2);
            cases.push(Case::Print(lent));
        }
    }
    // addresses of every number of digits
    for cells in [10, 11, 100, 101, 1_001, 10_001, 65_536] {
        for short in [0, 1] {
            let mut lent = free_image(random, cells, cells);
            lent.memory.step = 7;
            lent.marks.extend([(cells - 2, RESERVED), (cells - 1, RESERVED)]);
            lent.room = length(&lent) - short;
            cases.push(Case::Print(lent));
        }
    }
    // all of the largest memory, but no text: it is of a megabyte
    for (at, mark) in [(0, RESERVED), (0, 4), (65_535, 4), (65_535, CODE)] {
        let mut lent = free_image(random, 65_536, 65_536);
        lent.map_fill = RESERVED;
        lent.marks.push((at, mark));
        lent.room = random.below(100);
        cases.push(Case::Print(lent));
    }
}

/// The text's length; that of a short one where there is none.
fn length(lent: &LentImage) -> usize {
    image::text(&lent.memory.row(), &lent.map()).map_or(30, |text| text.len())
}

/// An image of free cells, with no room yet.
fn free_image(random: &mut Random, cells: usize, map_length: usize) -> LentImage {
    LentImage {
        memory: draw::memory(random, cells),
        map_length,
        map_fill: 0,
        marks: Vec::new(),
        room: 0,
        room_fill: *random.pick(&[0, 46, 61, 10, 49, 101, 255]),
    }
}

fn with_room(random: &mut Random, mut lent: LentImage) -> Case {
    lent.room = room(random, &lent);
    Case::Print(lent)
}

/// Small as a rule, so that the text stays short.
fn image_cells(random: &mut Random) -> usize {
    match random.below(30) {
        0 => 0,
        1 => *random.pick(&[65_537, 65_600]),
        2 => *random.pick(&[16_384, 65_535, 65_536]),
        3 => 1,
        4 => 100,
        _ => random.between(1, 20),
    }
}

fn map_length(random: &mut Random, cells: usize) -> usize {
    match random.below(20) {
        0 => cells + 1,
        1 => cells.saturating_sub(1),
        _ => cells,
    }
    .min(crate::case::CELLS_LIMIT)
}

/// A large image has few claimed cells: its text would be long.
fn map_fill(random: &mut Random, cells: usize) -> u8 {
    match random.below(16) {
        _ if cells > 100 => 0,
        0 => bad_mark(random),
        1 | 2 => CODE,
        3 | 4 => DATA,
        5 | 6 => RESERVED,
        _ => FREE,
    }
}

/// An empty row has no cell to overwrite.
pub fn drop_past_the_end(lent: &mut LentImage) {
    let (cells, marks) = (lent.memory.cells, lent.map_length);
    lent.memory.overwritten.retain(|(at, _)| *at < cells);
    lent.marks.retain(|(at, _)| *at < marks);
}

/// Room exactly enough, one short, ample or none.
fn room(random: &mut Random, lent: &LentImage) -> usize {
    let length = length(lent);
    match random.below(8) {
        0 => 0,
        1 => length - 1,
        2 => random.below(length),
        3 | 4 => length,
        5 => length + 1,
        _ => length + random.below(50),
    }
}

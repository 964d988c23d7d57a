//! Images that no draw may leave out: every set of list cases begins with them.

use super::claims::{all_code, words_of, Claims};
use super::{length, long, reserved, with_room};
use crate::case::{Case, LentImage, LentMemory, ROOM_LIMIT};
use crate::image::{CODE, DATA, FREE};
use crate::isa::{opcode, Instruction, Opcode, Operand, Place};
use crate::make::edges::kinds::all_kinds;
use crate::make::random::Random;

/// Words at the ends of their ranges, read with and without a sign.
const EXTREMES: [u16; 5] = [0, 1, 32_767, 32_768, 65_535];

/// Numbers of every count of digits, read with and without a sign.
const DIGITS: [u16; 20] = [
    0, 1, 9, 10, 99, 100, 999, 1_000, 9_999, 10_000, 32_767, 32_768, 55_536, 55_537, 64_536,
    65_436, 65_437, 65_526, 65_527, 65_535,
];

pub fn edges(random: &mut Random) -> Vec<Case> {
    let mut cases = Vec::new();
    papers(random, &mut cases);
    rooms(random, &mut cases);
    lengths(random, &mut cases);
    marks(random, &mut cases);
    places(random, &mut cases);
    patterns(random, &mut cases);
    cut(random, &mut cases);
    not_decoded(random, &mut cases);
    refused_twice(random, &mut cases);
    written(random, &mut cases);
    texts(random, &mut cases);
    reserved::add(random, &mut cases);
    cases
}

/// Cells from address 0 on with their marks, and behind them free ones.
pub fn row(cells: usize, words: &[u16], marks: &[u8]) -> Claims {
    let mut claims = Claims::none(cells);
    for (at, (word, mark)) in words.iter().zip(marks).enumerate() {
        if *mark != FREE {
            claims.lay(at, &[*word], *mark);
        }
    }
    claims
}

fn document_01() -> Claims {
    row(16, &[0, 0, 138, 5, 10, 64, 97, 0, 65_535], &[0, 0, 1, 1, 1, 1, 2, 2, 2])
}

/// An image with room for its text and so much more, or less.
pub fn with_more(random: &mut Random, claims: &Claims, more: isize) -> Case {
    let lent = claims.lent(random);
    let room = length(&lent) as isize + more;
    Case::List(LentImage { room: room.max(0) as usize, ..lent })
}

pub fn with(random: &mut Random, claims: &Claims, room: usize) -> Case {
    Case::List(LentImage { room, ..claims.lent(random) })
}

/// The rows of the readings' table, each with enough room, one byte too little, and none.
fn papers(random: &mut Random, cases: &mut Vec<Case>) {
    let rows: [(usize, &[u16], &[u8]); 13] = [
        (16, &[0, 0, 138, 5, 10, 64, 97, 0, 65_535], &[0, 0, 1, 1, 1, 1, 2, 2, 2]),
        (16, &[64, 7, 0, 8], &[1, 2, 0, 2]),
        (16, &[], &[]),
        (16, &[200, 5], &[1, 2]),
        (2, &[64, 200], &[1, 1]),
        (16, &[64, 138, 5, 16], &[1, 1, 1, 1]),
        (4, &[64, 138, 5, 16], &[1, 1, 1, 1]),
        (16, &[170, 65_535, 1], &[1, 1, 1]),
        (16, &[1_208, 65_533], &[1, 1]),
        (16, &[200, 65_535], &[1, 1]),
        (16, &[216, 65_506], &[1, 1]),
        (16, &[64], &[1]),
        (16, &[1], &[1]),
    ];
    for (cells, words, marks) in rows {
        let claims = row(cells, words, marks);
        for more in [0, -1] {
            cases.push(with_more(random, &claims, more));
        }
        cases.push(with(random, &claims, 0));
    }
    // what a free cell holds is not looked at
    let mut free_9 = row(16, &[64], &[1]).lent(random);
    free_9.memory = LentMemory { cells: 16, fill: 0, step: 0, overwritten: vec![(0, 64), (1, 9)] };
    cases.push(Case::List(LentImage { room: 9, ..free_9 }));
}

/// Every room around the length of a text.
fn rooms(random: &mut Random, cases: &mut Vec<Case>) {
    for room in [50, 51, 52, 53, 54, 200, 32_768, 40_000] {
        cases.push(with(random, &document_01(), room));
    }
    for room in 0..=6 {
        cases.push(with(random, &Claims::none(16), room));
    }
}

/// M and the map's length: neither, one or both wrong, over marks and cells that are wrong too.
fn lengths(random: &mut Random, cases: &mut Vec<Case>) {
    for (cells, map_length) in [
        (0, 0),
        (0, 1),
        (1, 0),
        (1, 2),
        (2, 1),
        (16, 15),
        (16, 17),
        (16, 0),
        (65_535, 65_536),
        (65_536, 65_535),
        (65_536, 65_537),
        (65_537, 65_536),
        (65_537, 65_537),
        (65_600, 65_600),
    ] {
        for (map_fill, fill) in [(FREE, 0), (CODE, 1), (4, 0)] {
            let mut lent = Claims::none(1).lent(random);
            lent.memory = LentMemory { cells, fill, step: 0, overwritten: Vec::new() };
            (lent.map_length, lent.map_fill) = (map_length, map_fill);
            cases.push(with_room(random, lent));
        }
    }
}

/// A mark above 3 at the first and at the last cell, over code that decodes or does not.
fn marks(random: &mut Random, cases: &mut Vec<Case>) {
    for cells in [1, 2, 16, 65_535, 65_536] {
        for mark in [4, 5, 255] {
            for at in [0, cells - 1] {
                let mut lent = Claims::none(cells).lent(random);
                lent.memory.fill = *random.pick(&[0, 1]);
                lent.memory.step = 0;
                lent.map_fill = if cells > 16 { FREE } else { CODE };
                lent.marks.push((at, mark));
                cases.push(with_room(random, lent));
            }
        }
    }
}

/// One claimed cell at either end of the memory, and at addresses of every count of digits.
fn places(random: &mut Random, cases: &mut Vec<Case>) {
    for cells in [1, 2, 16, 16_384, 65_535, 65_536] {
        for mark in [CODE, DATA] {
            for at in [0, cells - 1] {
                let mut claims = Claims::none(cells);
                claims.lay(at, &[64], mark);
                cases.push(with_more(random, &claims, 0));
            }
        }
    }
    for at in [1, 9, 10, 99, 100, 999, 1_000, 9_999, 10_000, 65_534] {
        let mut claims = Claims::none(65_536);
        claims.lay(at, &[2_048], *random.pick(&[CODE, DATA]));
        claims.lay(65_535, &[0], *random.pick(&[CODE, DATA]));
        cases.push(with_more(random, &claims, 0));
    }
    // three words that end with the last cell
    for cells in [3, 16, 65_535, 65_536] {
        let mut claims = Claims::none(cells);
        claims.lay(cells - 3, &[138, 65_535, 10], CODE);
        cases.push(with_more(random, &claims, 0));
        claims.lay(cells - 3, &[138, 65_535, 10], DATA);
        cases.push(with_more(random, &claims, -1));
    }
}

/// Every marking of four cells: runs that follow on, that are parted, and an instruction of two
/// words that is cut or not.
fn patterns(random: &mut Random, cases: &mut Vec<Case>) {
    let mark = |pattern: usize, at: u32| (pattern / 3usize.pow(at) % 3) as u8;
    for pattern in 0..81 {
        let marks: Vec<u8> = (0..4).map(|at| mark(pattern, at)).collect();
        let cells = random.between(4, 5);
        cases.push(with_more(random, &row(cells, &[0, 200, 64, 2_048], &marks), 0));
    }
}

/// Code runs that end inside an instruction: before data, before a free cell, and at M-1.
fn cut(random: &mut Random, cases: &mut Vec<Case>) {
    let instructions: [(&[u16], usize); 3] = [(&[200, 0], 1), (&[138, 0, 0], 1), (&[138, 0, 0], 2)];
    for (words, kept) in instructions {
        for before in [0, 1, 65_535 - kept] {
            for behind in [Some(DATA), Some(FREE), None] {
                let cells = before + if behind.is_some() { words.len() } else { kept };
                let mut claims = Claims::none(cells);
                if behind == Some(DATA) {
                    claims.lay(before, words, DATA);
                }
                if before == 1 {
                    claims.lay(0, &[64], CODE);
                }
                claims.lay(before, &words[..kept], CODE);
                cases.push(with(random, &claims, 100));
            }
        }
    }
}

/// Words that are no instruction: an opcode, a mode, a register that is none. They stand first,
/// behind an instruction, or in a run of their own behind data or a gap.
fn not_decoded(random: &mut Random, cases: &mut Vec<Case>) {
    let words: [[u16; 3]; 16] = [
        [1, 0, 0],
        [65, 0, 0],
        [144, 1, 1],
        [129, 1, 1],
        [648, 1, 0],
        [1_160, 1, 0],
        [1_168, 1, 0],
        [1_192, 1, 0],
        [2_256, 1, 0],
        [2_495, 0, 0],
        [2_496, 0, 0],
        [65_535, 0, 0],
        [146, 16, 0],
        [146, 0, 16],
        [164, 65_535, 0],
        [148, 0, 256],
    ];
    for fault in words {
        let room = random.below(100);
        cases.push(with(random, &row(16, &fault, &[1; 3]), room));
        let behind = match random.below(3) {
            0 => row(8, &[&[216, 16], &fault[..]].concat(), &[1; 5]),
            1 => row(8, &[&[7, 216, 0], &fault[..]].concat(), &[2, 1, 1, 1, 1, 1]),
            _ => row(8, &[&[0, 2_048, 0], &fault[..]].concat(), &[2, 1, 0, 1, 1, 1]),
        };
        cases.push(with(random, &behind, room));
    }
}

/// Two faults: the lowest address of 2, 1 before 2, both before 3.
fn refused_twice(random: &mut Random, cases: &mut Vec<Case>) {
    for (marks, room) in [
        ([1, 1, 0, 1, 1], 40),
        ([2, 1, 0, 1, 1], 40),
        ([0, 0, 2, 0, 1], 0),
        ([1, 2, 1, 2, 1], 0),
        ([1, 1, 1, 1, 4], 0),
        ([4, 1, 1, 1, 1], 40),
    ] {
        cases.push(with(random, &row(5, &[64, 1, 64, 2_496, 200], &marks), room));
    }
    // a text far too long, and the last cell of all that does not decode or is badly marked
    for (value, mark) in [(0, CODE), (1, CODE), (200, CODE), (0, DATA), (0, 4)] {
        let mut claims = Claims::none(65_536);
        claims.lay(0, &vec![0; 65_536], CODE);
        claims.lay(65_535, &[value], mark);
        let room = *random.pick(&[0, 32_768, ROOM_LIMIT]);
        cases.push(with(random, &claims, room));
    }
}

/// Every opcode with every kind of operand, every register, numbers of every count of digits.
fn written(random: &mut Random, cases: &mut Vec<Case>) {
    for opcode in opcode::ALL {
        cases.push(with_more(random, &all_code(&all_words(opcode)), 0));
    }
    for (first, second) in [(2, 4), (4, 2)] {
        let moved = |code| with_operands(Opcode::Move, (first, code), (second, 15 - code));
        let words: Vec<u16> = (0..16).flat_map(moved).collect();
        cases.push(with_more(random, &all_code(&words), 0));
    }
    for (opcode, kind) in [
        (Opcode::Wrint, 1),
        (Opcode::Push, 3),
        (Opcode::Inc, 5),
        (Opcode::Pop, 6),
        (Opcode::Wrstr, 8),
        (Opcode::Call, 3),
        (Opcode::Bnn, 7),
    ] {
        let words: Vec<u16> =
            DIGITS.iter().flat_map(|word| with_operands(opcode, (kind, *word), (0, 0))).collect();
        cases.push(with_more(random, &all_code(&words), 0));
    }
    cases.push(with_more(random, &row(DIGITS.len(), &DIGITS, &[DATA; DIGITS.len()]), 0));
}

/// All kinds of operands of an opcode, with words at the ends of their ranges: each kind meets all
/// of them. The word of one operand goes by the kind of the other, and two have kinds enough.
fn all_words(opcode: Opcode) -> Vec<u16> {
    let rounds = if opcode.places().1 == Place::Empty { EXTREMES.len() } else { 1 };
    let mut words = Vec::new();
    for Instruction { first, second, .. } in all_kinds().iter().filter(|of| of.opcode == opcode) {
        for round in 0..rounds {
            let by_second = extreme(*first, usize::from(second.kind()) + round);
            let by_first = extreme(*second, usize::from(first.kind()));
            words.extend(with_operands(opcode, by_second, by_first));
        }
    }
    words
}

/// The operand's kind, and one of the extremes for its word; registers are R0, R1 and PC.
fn extreme(operand: Operand, at: usize) -> (u8, u16) {
    let word = EXTREMES[at % EXTREMES.len()];
    match operand {
        Operand::Register(_) | Operand::Indirect(_) => (operand.kind(), word.min(15)),
        _ => (operand.kind(), word),
    }
}

/// The words of an instruction with two operands by kind and word.
fn with_operands(opcode: Opcode, first: (u8, u16), second: (u8, u16)) -> Vec<u16> {
    let operand = |(kind, word)| Operand::of_kind(kind, word).unwrap_or(Operand::Absent);
    words_of(&Instruction { opcode, first: operand(first), second: operand(second) })
}

/// Texts of 32,766 to 32,770 bytes, in rooms that would hold them or not.
fn texts(random: &mut Random, cases: &mut Vec<Case>) {
    for (data, length, room) in [
        (None, 32_766, 32_766),
        (None, 32_767, 32_768),
        (None, 32_768, 32_767),
        (None, 32_768, 32_768),
        (Some(65_535), 32_768, 40_000),
        (None, 32_769, 32_768),
        (None, 32_769, 32_769),
        (Some(0), 32_769, 40_000),
        (Some(9), 32_769, ROOM_LIMIT),
        (Some(65_535), 32_770, 32_770),
    ] {
        cases.push(with(random, &long::of_length(data, length), room));
    }
    // at the end of the largest memory, with an ORG of ten bytes in front
    for length in [32_768, 32_769] {
        let claims = long::of_length(Some(65_535), length - 10).at_the_top();
        cases.push(with(random, &claims, 32_769));
    }
    // all of the largest memory
    for (value, mark) in [(0, CODE), (65_535, DATA)] {
        let mut claims = Claims::none(65_536);
        claims.lay(0, &vec![value; 65_536], mark);
        cases.push(with(random, &claims, ROOM_LIMIT));
    }
}

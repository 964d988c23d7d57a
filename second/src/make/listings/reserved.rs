//! Images with reserved cells that no draw may leave out (document 02, K2). What a reserved cell
//! holds is drawn where it is not named.

use super::claims::Claims;
use super::edges::{row, with, with_more};
use super::length;
use crate::case::{Case, LentImage, LentMemory, ROOM_LIMIT};
use crate::image::{CODE, DATA, RESERVED};
use crate::make::random::Random;

pub fn add(random: &mut Random, cases: &mut Vec<Case>) {
    papers(random, cases);
    held(random, cases);
    places(random, cases);
    patterns(random, cases);
    cut(random, cases);
    digits(random, cases);
    whole(random, cases);
    texts(random, cases);
}

/// So many reserved cells from an address on.
fn reserved(cells: usize, start: usize, count: usize) -> Claims {
    let mut claims = Claims::none(cells);
    claims.lay(start, &vec![0; count], RESERVED);
    claims
}

/// The rows of the readings' table, each with enough room, one byte too little, and none.
fn papers(random: &mut Random, cases: &mut Vec<Case>) {
    let rows: [(&[u16], &[u8]); 5] = [
        (&[7], &[3]),
        (&[7], &[4]),
        (&[0; 5], &[3; 5]),
        (&[64, 0, 0, 5], &[1, 3, 3, 2]),
        (&[0, 0, 138, 1, 14], &[3, 3, 1, 1, 1]),
    ];
    for (words, marks) in rows {
        let claims = row(16, words, marks);
        for more in [0, -1] {
            cases.push(with_more(random, &claims, more));
        }
        cases.push(with(random, &claims, 0));
    }
}

/// Reserved cells that hold what is no instruction, the beginning of one, or anything.
fn held(random: &mut Random, cases: &mut Vec<Case>) {
    for value in [0, 1, 7, 64, 200, 2_496, 65_535] {
        for marks in [[3, 3, 3, 3], [1, 3, 3, 2], [3, 0, 0, 3]] {
            let mut lent = row(4, &[64, 0, 0, 9], &marks).lent(random);
            let marked = (0..4).filter(|at| marks[*at] == RESERVED);
            lent.memory = LentMemory { cells: 4, fill: 64, step: 0, overwritten: Vec::new() };
            lent.memory.overwritten = marked.map(|at| (at, value)).collect();
            let room = length(&lent);
            cases.push(Case::List(LentImage { room, ..lent }));
        }
    }
}

/// One reserved cell, and three, at either end of a memory, behind code and data or alone.
fn places(random: &mut Random, cases: &mut Vec<Case>) {
    for cells in [1, 2, 16, 16_384, 65_535, 65_536] {
        for count in [1, 3] {
            if count < cells {
                cases.push(with_more(random, &reserved(cells, 0, count), 0));
            }
            let mut claims = reserved(cells, cells.saturating_sub(count), count);
            cases.push(with_more(random, &claims, 0));
            if cells > 4 {
                claims.lay(cells - count - 1, &[64], *random.pick(&[CODE, DATA]));
                cases.push(with_more(random, &claims, 0));
            }
        }
    }
}

/// Every marking of three cells in which one is reserved.
fn patterns(random: &mut Random, cases: &mut Vec<Case>) {
    let mark = |pattern: usize, at: u32| (pattern / 4usize.pow(at) % 4) as u8;
    for pattern in 0..64 {
        let marks: Vec<u8> = (0..3).map(|at| mark(pattern, at)).collect();
        if marks.contains(&RESERVED) {
            let cells = random.between(3, 4);
            cases.push(with_more(random, &row(cells, &[200, 64, 2_048], &marks), 0));
        }
    }
}

/// Code runs that end inside an instruction because a reserved cell follows; both run at once.
fn cut(random: &mut Random, cases: &mut Vec<Case>) {
    let instructions: [(&[u16], usize); 3] = [(&[200, 0], 1), (&[138, 0, 0], 1), (&[138, 0, 0], 2)];
    for (words, kept) in instructions {
        for before in [0, 1, 65_533] {
            let mut claims = reserved(before + words.len(), before, words.len());
            claims.lay(before, &words[..kept], CODE);
            if before == 1 {
                claims.lay(0, &[64], CODE);
            }
            cases.push(with(random, &claims, 100));
        }
    }
    // reserved first, and the fault behind it
    for (words, marks) in [([0, 0, 1], [3, 3, 1]), ([0, 200, 0], [3, 1, 3]), ([1, 0, 1], [1, 3, 1])]
    {
        cases.push(with(random, &row(16, &words, &marks), 60));
    }
}

/// Runs of every number of digits, from 0 on and from elsewhere.
fn digits(random: &mut Random, cases: &mut Vec<Case>) {
    for count in [9, 10, 99, 100, 999, 1_000, 9_999, 10_000] {
        // the map says 3 for all, so that the case is short
        let cells = count + random.below(4);
        let start = random.below(cells - count + 1);
        cases.push(with_more(random, &reserved(cells, start, count), 0));
        cases.push(with_more(random, &reserved(cells, start, count), -1));
    }
}

/// All of the largest memories, and all but a cell at either end or in the midst.
fn whole(random: &mut Random, cases: &mut Vec<Case>) {
    for cells in [65_534, 65_535, 65_536] {
        for more in [-1, 0] {
            cases.push(with_more(random, &reserved(cells, 0, cells), more));
        }
        for at in [0, cells - 1, 32_768] {
            let mut claims = reserved(cells, 0, cells);
            for mark in [CODE, DATA] {
                claims.lay(at, &[64], mark);
                cases.push(with_more(random, &claims, 0));
            }
            claims.claimed.remove(&at);
            cases.push(with_more(random, &claims, 0));
        }
    }
    // a fault in the last cell of all
    for (value, mark) in [(1, CODE), (0, 4)] {
        let mut claims = reserved(65_536, 0, 65_535);
        claims.lay(65_535, &[value], mark);
        cases.push(with(random, &claims, ROOM_LIMIT));
    }
}

/// Texts of 32,768 and 32,769 bytes: `RES 1` and `DATA 0` by turns, and NOP and HALT (four bytes and
/// five) to make up the rest.
fn texts(random: &mut Random, cases: &mut Vec<Case>) {
    for length in [32_768, 32_769] {
        let mut claims = Claims::none(65_536);
        let mut missing = length - "END\n".len();
        while missing > 40 {
            let (mark, line) = match claims.top() % 2 {
                0 => (RESERVED, "RES 1\n"),
                _ => (DATA, "DATA 0\n"),
            };
            claims.lay(claims.top(), &[0], mark);
            missing -= line.len();
        }
        let halts = missing % 4;
        claims.lay(claims.top(), &vec![64; halts], CODE);
        claims.lay(claims.top(), &vec![0; (missing - 5 * halts) / 4], CODE);
        claims.cells = claims.top() + random.below(2);
        cases.push(with(random, &claims, 40_000));
    }
}

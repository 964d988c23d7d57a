//! Two blocks that touch, or overlap by one cell at either end, and a third between them.

use super::case;
use crate::case::Case;
use crate::make::random::Random;

/// Statements by the number of cells that they claim.
const STATEMENTS: [&[&str]; 5] = [
    &["HALT", "DATA 7", "DATA \"\"", "RET"],
    &["PUSH #1", "DATA 1,-1", "DATA \"a\"", "BR $0"],
    &["MOVE #1,.A", "DATA 1,2,3", "ADD .A,/1", "DATA \"\",\"b\""],
    &["DATA \"abc\"", "DATA 1,2,3,4", "HALT\nPUSH #2\nNOP"],
    &["DATA \"abcd\"", "PUSH #1\nADD .A,.A", "DATA 5\nDATA 4,3,2\nHALT"],
];

pub fn add(random: &mut Random, cases: &mut Vec<Case>) {
    let first = 20;
    for (one, other) in [(1, 1), (1, 2), (2, 1), (2, 2), (2, 3), (3, 1), (3, 3), (4, 2), (5, 5)] {
        let starts = [
            first - other,                // ends where the first begins
            first - other + 1,            // its last cell is the first's first
            first + one,                  // begins where the first ends
            first + one - 1,              // its first cell is the first's last
            first,                        // begins where the first begins
            first + one - other.min(one), // ends where the first ends
        ];
        for start in starts {
            let cells = *random.pick(&[40, 64, 16_384]);
            let source = two(random, (first, one), (start, other));
            cases.push(case(random, cells, source));
        }
    }
    for _ in 0..20 {
        let source = back_and_forth(random);
        cases.push(case(random, 60, source));
    }
}

/// A statement of so many cells.
fn statement(random: &mut Random, cells: usize) -> &'static str {
    random.text(STATEMENTS[cells - 1])
}

fn two(random: &mut Random, one: (usize, usize), other: (usize, usize)) -> String {
    let mut text = String::new();
    for (start, cells) in [one, other] {
        let statement = statement(random, cells);
        text.push_str(&format!("ORG {}\n{}\n", start, statement));
    }
    text
}

/// Blocks laid by turns downward from the middle and upward from it, all touching; at times the
/// last one is a cell too near.
fn back_and_forth(random: &mut Random) -> String {
    let (mut low, mut high) = (30, 30);
    let mut text = String::new();
    for turn in 0..random.between(4, 7) {
        let cells = random.between(1, 4);
        let statement = statement(random, cells);
        if turn % 2 == 0 {
            text.push_str(&format!("ORG {}\nu{}: {}\n", high, turn, statement));
            high += cells;
        } else {
            low -= cells;
            text.push_str(&format!("d{}: ORG {}\n{}\n", turn, low, statement));
        }
    }
    let last = match random.below(4) {
        0 => format!("ORG {}\nHALT\n", low),
        1 => format!("ORG {}\nPUSH #u0\n", high - 1),
        2 => format!("ORG {}\nPUSH #d1\n", low - 1),
        _ => format!("ORG {}\nMOVE #u0,/d1\n", high),
    };
    text + &last
}

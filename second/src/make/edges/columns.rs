//! What the readings' two tables for K4 name, each by itself and below other lines.

use super::case;
use crate::case::Case;
use crate::make::random::Random;
use crate::make::{columns, late};

/// Each refusal from 3 on, 16 of either operand, but for 8 and 10.
const LATE: [&str; 12] = [
    " NOP ,",
    " FOO",
    " PUSH #70000",
    " EQU 1/0",
    "a:\n a:",
    " RES 17",
    "NOP\nORG 0\n NOP",
    " BR /x",
    "x: EQU 40000\n BR $x",
    " NOP .A",
    " INC #1",
    "MOVE #1, #2",
];

pub fn add(random: &mut Random, cases: &mut Vec<Case>) {
    for (cells, source) in columns::edges() {
        cases.push(case(random, cells, source));
    }
    for (cells, source) in columns::short_edges() {
        let below = columns::below_others(random, &source);
        cases.push(case(random, cells, below));
    }
    let deep = format!(" EQU {}1{}", "(".repeat(33), ")".repeat(33));
    let long = format!(" {}:", "n".repeat(65));
    for source in LATE.iter().copied().chain([deep.as_str(), long.as_str()]) {
        let past_the_hundredth = late::late(random, source.as_bytes());
        cases.push(case(random, 16, past_the_hundredth));
    }
}

//! RES and ORG up to 65,536, labels bound there or not, and `$label` at both ends of its range.

use super::case;
use crate::case::Case;
use crate::make::random::Random;

/// What may follow where the address is 65,536.
pub const ENDS: [&str; 22] = [
    "x:",
    "x:\n",
    "x:\n\n\n",
    "x: ; c\n\n;",
    "x:\ny:\nz:",
    "x: END",
    "x: END\n\n\n",
    "x:\nEND\nFOO",
    "x: NOP",
    "x:\n\nDATA 1",
    "x: DATA \"\"",
    "x: RES 0",
    "x: EQU 4\nORG 0\nPUSH #x",
    "x:\ny:\nEQU 65535\nORG 0\nMOVE #x,/y",
    "x: ORG 0\nPUSH #x",
    "x: ORG 65535\nORG 9\ny: PUSH #x\nPUSH #y",
    "x: ORG 65535",
    "END",
    "NOP",
    "x: EQU 5\ny:",
    "BR /q\nx:",
    "ORG 0\nBR /q\nORG 65535\nRES 1\nx:",
];

pub fn add(random: &mut Random, cases: &mut Vec<Case>) {
    reserved(random, cases);
    bound_at_the_end(random, cases);
    reaching(random, cases);
}

/// RES that ends below, at and past 65,536. All cells reserved are an accepted reply of 512 KB: two
/// of these have it.
fn reserved(random: &mut Random, cases: &mut Vec<Case>) {
    for source in [
        "RES 0",
        "x: RES 0\ny: PUSH #x\nPUSH #y",
        "RES 65535\nORG 65534\nHALT",
        "RES 65536",
        "RES 65535\nRES 1",
        "RES 65535\nRES 2",
        "ORG 65534\nRES 1\nRES 1\nRES 0",
        "RES 65535\nRES 1\nRES 1",
        "RES 65535\nRES 1\nORG 0\nHALT",
        "ORG 65535\nRES 1",
        "ORG 65535\nRES 2",
        "ORG 65534\nRES 2\nRES 0",
        "ORG 65534\nRES 3",
        "ORG 1\nHALT\nORG 1\nRES 65535",
        "ORG 2\nRES 65535",
        "ORG 65535\nx: RES 1\nORG 0\nPUSH #x",
        "ORG 65535\nRES 0\nx: RES 1\nORG 0\nPUSH #x",
        "ORG 65535\nRES 1\nx: RES 0",
        "ORG 65535\nRES 1\nx: RES 1",
        "ORG 65535\nRES 1\nx: RES 65535",
        "ORG 65535\nRES 1\nRES 65535",
        "RES 0-0\nRES 1-1\nx: HALT\nORG 8\nPUSH /x",
        "HALT\nRES 3\nORG 1\nDATA 1,2,3\nHALT",
        "HALT\nRES 3\nORG 1\nDATA 1,2,3,4\nHALT",
        "RES 65535\nHALT",
        "RES 65535\nRES 1\nHALT",
    ] {
        for cells in [16, 65_536] {
            cases.push(case(random, cells, source));
        }
    }
}

/// Labels that wait at 65,536, reached by RES or by a statement in the last cell.
fn bound_at_the_end(random: &mut Random, cases: &mut Vec<Case>) {
    let ways = [
        "ORG 65535\nRES 1\n",
        "RES 65535\nRES 1\n",
        "ORG 65535\nHALT\n",
        "ORG 65533\nDATA \"ab\"\n",
    ];
    for (at, end) in ENDS.iter().enumerate() {
        for way in 0..2 {
            // a statement in the last cell fits only the largest memory; RES 1 there is 11 in others
            let way = ways[(2 * at + 3 * way + at / 2) % ways.len()];
            let cells = if way.contains("RES") { *random.pick(&[16, 65_536]) } else { 65_536 };
            cases.push(case(random, cells, format!("{}{}", way, end)));
        }
    }
}

/// `$x` within reach by 0 to 2 and out of it by 1, from near 0, 32,768 and 65,536; x by EQU or by
/// its place, before or after.
fn reaching(random: &mut Random, cases: &mut Vec<Case>) {
    for start in [0usize, 1, 32_765, 32_766, 32_767, 32_768, 65_532, 65_533, 65_534] {
        for distance in [-32_769i64, -32_768, -32_767, -3, -2, -1, 0, 32_766, 32_767, 32_768] {
            let value = (start + 2) as i64 + distance;
            if !(0..=65_535).contains(&value) {
                continue;
            }
            let source = reach(random, start, value as usize);
            cases.push(case(random, 65_536, source));
        }
    }
}

/// A branch at an address to a label of a value.
fn reach(random: &mut Random, start: usize, value: usize) -> String {
    let word = random.text(&["BR", "CALL", "BZ", "BNN", "bo", "BNC"]);
    let branch = format!("ORG {}\n{} $x\n", start, word);
    let label = match random.below(3) {
        0 => format!("ORG {}\nx: RES 0\n", value),
        1 => format!("x: ORG {}\nRES 0\n", value),
        _ => format!("x: EQU {}\n", value),
    };
    match random.below(2) {
        0 => branch + &label,
        _ => label + &branch,
    }
}

/// A branch anywhere in a memory, to a label just within its reach or just out of it.
pub fn drawn_reach(random: &mut Random, cells: usize) -> Vec<u8> {
    let start = random.below(cells.clamp(3, 65_536) - 1).min(65_534);
    let distance = *random.pick(&[32_765i64, 32_766, 32_767, 32_768, 32_769, 40_000, 1]);
    let up = (start + 2) as i64 + distance;
    let down = (start + 2) as i64 - distance - 1;
    let value = if up <= 65_535 { up } else { down.max(0) };
    let mut text = reach(random, start, value as usize);
    text.push_str(random.text(&["", "", "", "END", "BR /nosuch", "BR $x", "y: EQU x"]));
    text.into_bytes()
}

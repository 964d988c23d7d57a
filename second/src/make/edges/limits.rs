//! 510 to 514 labels, parentheses up to the source's length, and sources of 32,766 to 32,770
//! bytes: large, and therefore few.

use super::{case, with_map};
use crate::case::Case;
use crate::make::random::Random;

pub fn add(random: &mut Random, cases: &mut Vec<Case>) {
    labels(random, cases);
    parentheses(random, cases);
    lengths(random, cases);
    many_uses(random, cases);
    long_blocks(random, cases);
}

/// So many labels, a line each: two letters, and what each line says.
fn labelled(count: usize, statement: &str) -> String {
    let letter = |at: usize| (b'a' + (at % 26) as u8) as char;
    (0..count).map(|at| format!("{}{}:{}\n", letter(at / 26), letter(at), statement)).collect()
}

fn labels(random: &mut Random, cases: &mut Vec<Case>) {
    for count in 510..=514 {
        for end in ["", "aa:", "MOVE #aa,/tr\n"] {
            cases.push(case(random, 16_384, labelled(count, "") + end));
        }
    }
    for end in
        ["zz: END", "zz: FOO", "aa: END", "BR $aa", "BR /zz", "END\nzz:", "tr: HALT", "ka: RES 0"]
    {
        cases.push(case(random, 65_536, labelled(512, "") + end));
        cases.push(case(random, 65_536, labelled(511, "") + end));
    }
    for (statement, end) in [
        ("NOP", "MOVE #tq,#tr[.IX]\nCALL $tr"),
        ("EQU 9", "MOVE #tq,#tr[.IX]\nCALL $tr"),
        ("RES 1", "BR /zz\nzz: RES 0"),
        ("ORG 5", "zz: HALT"),
    ] {
        cases.push(case(random, 16_384, labelled(511, statement) + end));
        cases.push(case(random, 600, labelled(512, statement) + end));
    }
    // all wait at 65,536
    let all = labelled(512, "");
    for end in ["", "NOP", "EQU 5\nORG 0\nMOVE #aa,/tr", "END"] {
        cases.push(case(random, 65_536, format!("ORG 65535\nRES 1\n{}{}", all, end)));
    }
}

fn parentheses(random: &mut Random, cases: &mut Vec<Case>) {
    for depth in [31, 32, 33, 34, 255, 256, 257, 1_000, 1_001, 2_000, 5_000] {
        for (closed, inner) in
            [(depth, "1"), (depth, "1/0"), (depth - 1, "1"), (depth + 1, "1"), (depth, "x")]
        {
            if depth > 1_001 && inner != "1" {
                continue;
            }
            let word = random.text(&["EQU", "ORG", "RES"]);
            let (open, close) = ("(".repeat(depth), ")".repeat(closed));
            cases.push(case(random, 16, format!("{} {}{}{}", word, open, inner, close)));
        }
    }
    for depth in [32, 33, 1_000, 3_000] {
        let nested = "(1+".repeat(depth) + "1" + &")".repeat(depth);
        cases.push(case(random, 16, format!("x: EQU {}\nPUSH #x", nested)));
        cases.push(case(random, 16, format!("HALT\nEQU 2*{}%7", nested)));
    }
    // many beside each other are not deep
    cases.push(case(random, 16, format!("x: EQU 0{}\nPUSH #x", "+((1))".repeat(300))));
    cases.push(case(random, 16, format!("EQU {}1{}", "(".repeat(16_381), ")".repeat(16_381))));
}

/// Its first bytes, and one byte over and over until it has the length.
fn filled(start: &str, byte: u8, length: usize) -> Vec<u8> {
    let mut source = start.as_bytes().to_vec();
    source.resize(length, byte);
    source
}

fn lengths(random: &mut Random, cases: &mut Vec<Case>) {
    for (start, byte, length) in [
        ("x: BR $x ;", 200, 32_766),
        ("HALT\nORG 65535\nRES 1\nx:", b'\n', 32_767),
        ("PUSH #x\nx: END\n", b'(', 32_768),
        ("DATA 7 ", b'\t', 32_769),
        ("HALT\n", b'\n', 32_768),
        ("HALT\n", b'\n', 32_769),
        ("FOO\nEND\n", b'\n', 32_770),
        ("x: HALT\nEND\n", 255, 32_769),
        ("", b';', 32_770),
    ] {
        let cells = if start.contains("RES") { 65_536 } else { 16 };
        cases.push(case(random, cells, filled(start, byte, length)));
    }
    cases.push(with_map(random, 16, 17, filled("END", b' ', 32_769)));
}

/// As many label uses as fit into a source, all known or all but the last.
fn many_uses(random: &mut Random, cases: &mut Vec<Case>) {
    let start = "a: EQU 0\n";
    let uses = "ADD/a,/a\n".repeat((32_768 - start.len()) / 9);
    cases.push(case(random, 16_384, format!("{}{}", start, uses)));
    let mut unknown = format!("{}{}", start, uses).into_bytes();
    let last = unknown.len() - 2;
    unknown[last] = b'b';
    cases.push(case(random, 16_384, unknown));
}

/// DATA of 4,000 cells that ends with a claimed cell, just before it, or past M by one.
fn long_blocks(random: &mut Random, cases: &mut Vec<Case>) {
    let data = format!("DATA 0{}\n", ",0".repeat(3_999));
    for (cells, start) in [(16_384, 4_000), (16_384, 3_999), (3_999, 3_998)] {
        cases.push(case(random, cells, format!("ORG {}\nHALT\nORG 0\n{}", start, data)));
    }
    let text = format!("DATA \"{}\"", "x".repeat(3_000));
    cases.push(case(random, 3_000, &text));
    cases.push(case(random, 3_001, format!("ORG 3000\nDATA 1\nORG 0\n{}", text)));
}

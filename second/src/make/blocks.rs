//! Sources of a few blocks: cells claimed twice or past the end, labels that wait, and `$label`
//! at its farthest (document 01, refusals 11, 12 and 14).

use super::random::Random;

pub fn source(random: &mut Random, cells: usize) -> Vec<u8> {
    let text = match random.below(3) {
        0 => overlapping(random, cells),
        1 => waiting(random, cells),
        _ => far(random, cells),
    };
    text.into_bytes()
}

/// A statement with the number of cells that are left for it: none for RES, so that the next block
/// often lies over what it reserved.
const STATEMENTS: [(&str, usize); 8] = [
    ("HALT", 1),
    ("PUSH #1", 2),
    ("MOVE #1,.A", 3),
    ("DATA 7", 1),
    ("DATA \"abc\"", 4),
    ("DATA 1,2,3,4,5", 5),
    ("RES 2", 0),
    ("DATA \"\",\"\"", 2),
];

/// Blocks that touch, overlap by a cell, or end at M or past it.
fn overlapping(random: &mut Random, cells: usize) -> String {
    let mut text = String::new();
    let mut near = random.below(cells.min(65_535));
    for _ in 0..random.between(2, 4) {
        let (statement, length) = *random.pick(&STATEMENTS);
        let start = match random.below(4) {
            0 => cells.saturating_sub(length + random.below(2)) + random.below(2),
            1 => (near + random.below(4)).saturating_sub(length),
            _ => near + random.below(3),
        };
        near = start.min(65_535);
        text.push_str(&format!("ORG {}\n{}\n", near, statement));
        near += length;
    }
    text
}

/// Labels that wait over blank lines, ORG and comments until something binds them.
fn waiting(random: &mut Random, cells: usize) -> String {
    let mut text = String::new();
    for name in ["a", "b", "c"] {
        text.push_str(name);
        text.push(':');
        text.push_str(random.text(&[
            "\n",
            " ; c\n",
            " ORG 3\n",
            "\n\n",
            " EQU 9\n",
            " RES 2\n",
            " NOP\n",
            " DATA 5\n",
        ]));
    }
    let address = random.below(cells.min(60_000));
    text.push_str(&format!("ORG {}\n", address));
    text.push_str(random.text(&[
        "MOVE #a,/b\nPUSH #c\n",
        "BR $a\nBR $c\n",
        "PUSH #b[.SP]\nCALL /a\n",
    ]));
    text.push_str(random.text(&["", "d:", "d: END\n", "END\nd:", "\n;\n"]));
    text.push_str(random.text(&["", "", "", "\nBR /d", "\nPUSH #d\n"]));
    text
}

/// A `$label` just within or just out of reach, forward or back.
fn far(random: &mut Random, cells: usize) -> String {
    let start = match random.below(3) {
        0 => cells.saturating_sub(2),
        1 => random.below(cells),
        _ => random.below(cells.min(40)),
    };
    let after = start.min(65_535) + 2;
    let label = match random.below(3) {
        0 if after >= 32_770 => after - 32_770 + random.below(4),
        1 => random.below(65_536),
        _ => (after + 32_766 + random.below(4)).min(65_535),
    };
    let word = random.text(&["BR", "CALL", "BNZ", "bo"]);
    let lines =
        [format!("ORG {}\n{} $far", start.min(65_535), word), format!("far: EQU {}", label)];
    let other = random.text(&["", "", "BR /nosuch\n", "BR $far\n"]);
    if random.one_in(2) {
        format!("{}\n{}{}\n", lines[0], other, lines[1])
    } else {
        format!("{}\n{}\n{}", lines[1], lines[0], other)
    }
}

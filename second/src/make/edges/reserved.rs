//! RES claims its cells (document 02, K2): the readings' rows, RES over and under every other claim,
//! around the last cell, of no cells, with labels, side by side.

use super::addresses::ENDS;
use super::case;
use crate::case::Case;
use crate::make::random::Random;

pub fn add(random: &mut Random, cases: &mut Vec<Case>) {
    papers(random, cases);
    shared(random, cases);
    last_cells(random, cases);
    of_no_cells(random, cases);
    labelled(random, cases);
    in_order(random, cases);
    side_by_side(random, cases);
    whole(random, cases);
    at_the_top(random, cases);
}

fn push_all(random: &mut Random, cases: &mut Vec<Case>, cells: usize, sources: &[&str]) {
    for source in sources {
        cases.push(case(random, cells, source));
    }
}

/// The rows of the readings' table, and those of document 01's that hold at M 65536 only.
fn papers(random: &mut Random, cases: &mut Vec<Case>) {
    push_all(
        random,
        cases,
        16,
        &[
            "ORG 65535\nRES 2",
            "ORG 65535\nRES 1",
            "RES 17",
            "RES 16",
            "ORG 60000\nRES 0",
            "NOP\nORG 0\nRES 0",
            "HALT\nRES 2\nDATA 5",
            "RES 2\nMOVE #1,.SP",
            "RES 2\nRES 3",
        ],
    );
    push_all(random, cases, 4, &["NOP\nORG 0\nRES 5", "RES 4\nORG 3\nNOP"]);
    for rest in [
        "x: NOP",
        "NOP",
        "x: ORG 0\nHALT",
        "x: EQU 4",
        "x:\n\n",
        "x: RES 0",
        "RES 0",
        "END",
        "x: END\n\n",
    ] {
        for cells in [16, 65_536] {
            cases.push(case(random, cells, format!("ORG 65535\nRES 1\n{}", rest)));
        }
    }
    // the field's own story, and how it should have been
    for start in [40, 60] {
        let source = format!(
            "MOVE #0,/readings\nHALT\nORG 20\nreadings: RES 40\nORG {}\ntable: DATA 7,14,21,28",
            start
        );
        cases.push(case(random, 128, source));
    }
}

/// A statement of so many cells: an instruction or some, DATA, or RES.
fn statement(random: &mut Random, kind: usize, cells: usize) -> String {
    match (kind, cells) {
        (0, 1) => random.text(&["HALT", "RET", "NOP"]).to_string(),
        (0, 2) => random.text(&["PUSH #1", "BR $0", "INC .A"]).to_string(),
        (0, _) => "MOVE #1,.A\n".to_string() + &"NOP\n".repeat(cells - 3),
        (1, _) => format!("DATA 0{}", ",7".repeat(cells - 1)),
        _ => format!("RES {}", cells),
    }
}

/// Two blocks, one of them reserved, that touch, share a cell at either end, or lie over each other.
fn shared(random: &mut Random, cases: &mut Vec<Case>) {
    let first = 20;
    for (one_kind, other_kind) in [(2, 0), (2, 1), (2, 2), (0, 2), (1, 2)] {
        for (one, other) in [(1, 1), (2, 3), (3, 1), (4, 4)] {
            let starts = [
                first - other,     // ends where the first begins
                first - other + 1, // its last cell is the first's first
                first + one,       // begins where the first ends
                first + one - 1,   // its first cell is the first's last
                first,             // begins where the first begins
            ];
            for start in starts {
                let cells = *random.pick(&[24, 40, 16_384]);
                let source = format!(
                    "ORG {}\n{}\nORG {}\n{}",
                    first,
                    statement(random, one_kind, one),
                    start,
                    statement(random, other_kind, other)
                );
                cases.push(case(random, cells, source));
            }
        }
        // one cell within a long block, and a long block around one cell
        let (single, long) =
            (statement(random, other_kind, 1), statement(random, one_kind, 9).trim().to_string());
        cases.push(case(random, 40, format!("ORG 20\n{}\nORG 25\n{}", long, single)));
        cases.push(case(random, 40, format!("ORG 25\n{}\nORG 20\n{}", single, long)));
    }
}

/// RES that begins before, at and behind the end of memory, and ends there; the same with 0 cells.
fn last_cells(random: &mut Random, cases: &mut Vec<Case>) {
    for cells in [1, 2, 3, 16, 100, 16_384, 65_535, 65_536] {
        for start in [cells - 1, cells, cells + 1] {
            if start <= 65_535 {
                for reserved in [0, 1, 2] {
                    cases.push(case(random, cells, format!("ORG {}\nRES {}", start, reserved)));
                }
            }
        }
        for reserved in [3, 4] {
            let start = cells.saturating_sub(3);
            let source = format!("HALT\nORG {}\nRES {}\nHALT", start, reserved);
            cases.push(case(random, cells, source));
        }
        if cells <= 100 {
            for reserved in [cells - 1, cells, cells + 1] {
                cases.push(case(random, cells, format!("RES {}", reserved)));
            }
        }
    }
    push_all(random, cases, 65_535, &["RES 65535\nRES 1", "ORG 1\nRES 65535", "RES 65534\nRES 2"]);
    push_all(random, cases, 65_534, &["RES 65535", "RES 65534\nRES 2", "RES 65535\nRES 2"]);
}

/// `RES 0` over cells of every mark and at any address: never 11 or 12.
fn of_no_cells(random: &mut Random, cases: &mut Vec<Case>) {
    let claimed = "MOVE #1,.A\nDATA 1,2,3\nRES 3\n";
    for address in [0, 1, 2, 3, 5, 6, 8, 9, 15, 16, 17, 60_000, 65_535] {
        let label = random.text(&["", "", "x: ", "x:\ny: "]);
        let source = format!("{}ORG {}\n{}RES 0\n", claimed, address, label);
        let used = if label.is_empty() { "" } else { "ORG 9\nPUSH #x\nPUSH /x" };
        cases.push(case(random, 16, source + used));
    }
    push_all(
        random,
        cases,
        16,
        &[
            "RES 0\nRES 0\nHALT",
            "RES 16\nRES 0",
            "RES 16\nx: RES 0\n",
            "RES 16\nx: RES 0\nORG 0\nRES 0\nBR /x",
            "DATA 1\nORG 0\nRES 0\nRES 1",
            "RES 0\nORG 0\nDATA 1",
            "ORG 16\nRES 0\nRES 1",
            "ORG 65535\nx: RES 0\nORG 0\nPUSH #x",
            "RES 5-5\nRES (3-2)\nRES 0x2\nRES 007",
        ],
    );
    push_all(
        random,
        cases,
        65_536,
        &[
            "ORG 65535\nHALT\nRES 0",
            "ORG 65535\nHALT\nx: RES 0",
            "ORG 65535\nx: RES 0\nHALT\nORG 0\nPUSH #x",
            "ORG 65535\nRES 1\nRES 0\nRES 0\nORG 3\nx: RES 0\nPUSH #x",
        ],
    );
}

/// Labels at RES, in every kind of operand, forward and back.
fn labelled(random: &mut Random, cases: &mut Vec<Case>) {
    push_all(
        random,
        cases,
        40,
        &[
            "x: RES 3\nPUSH #x\nPUSH /x\nPUSH #x[.IX]\nBR $x",
            "PUSH #x\nPUSH /x\nPUSH #x[.SP]\nBR $x\nCALL /x\nx: RES 3",
            "x:\ny:\n\nz: RES 2\nMOVE #x,/y\nPUSH #z",
            "x: ORG 9\nRES 2\nPUSH #x",
            "x: RES 2\ny: RES 3\nz: RES 0\nw: MOVE #y,/z\nBR $w\nPUSH #x",
            "MOVE #first,/last\nORG 38\nfirst: RES 1\nlast: RES 1",
            "x: RES 2\nx: RES 2",
            "RES 2\nx: NOP\nORG 2\nx: RES 1",
            "x: RES 2\nORG 1\nx: HALT",
            "x: RES 40\ny:\nORG 0\nz: RES 0",
            "x: RES 3\nEND\nx: RES 3",
            "x: EQU 5\ny: RES 5\nPUSH #x\nPUSH #y",
            "BR $far\nRES 38\nfar: RES 0",
            "END: RES 4\nBR /END",
        ],
    );
    push_all(
        random,
        cases,
        65_536,
        &[
            "ORG 65535\nx: RES 1\nORG 0\nPUSH #x\nPUSH #x[.IY]",
            "BR $x\nORG 32769\nx: RES 2",
            "BR $x\nORG 32770\nx: RES 2",
            "x: RES 2\nORG 32766\nBR $x",
            "x: RES 2\nORG 32767\nBR $x",
            "ORG 65534\nx: RES 2\nORG 40000\nBR $x",
        ],
    );
}

/// Lines with RES that fail in several ways, and faults that come too late to be told.
fn in_order(random: &mut Random, cases: &mut Vec<Case>) {
    let long = "L".repeat(65);
    push_all(
        random,
        cases,
        16,
        &[
            "HALT\nORG 0\nRES 65536",
            "HALT\nORG 0\nRES 0-1",
            "HALT\nORG 0\nRES 1/0",
            "HALT\nORG 0\nRES",
            "HALT\nORG 0\nRES x",
            "HALT\nORG 0\nRES 1,1",
            "HALT\nORG 0\nRES \"a\"",
            "x: HALT\nORG 0\nx: RES 1",
            "HALT\nORG 0\nx: RES 16",
            "HALT\nORG 0\nx: RES 17",
            "HALT\nORG 65535\nRES 17",
            "ORG 15\nHALT\nORG 15\nRES 2",
            "ORG 15\nHALT\nORG 14\nRES 2",
            "BR /nosuch\nORG 15\nRES 2",
            "BR /nosuch\nORG 0\nRES 1",
            "RES 1\nORG 0\nBR /nosuch",
            "RES 1\nORG 0\nBR $nosuch,",
            "RES 1\nORG 0\nDATA 1,2,70000",
            "RES 1\nORG 0\nDATA \"a",
            "RES 1\nORG 0\nFOO",
            "RES 2\nORG 1\nDATA \"abcdefghijklmnop\"",
            "RES 2\nORG 1\nRES 1\nFOO",
            "RES 2\nORG 1\nEND\nRES 1",
            "RES 2\nEND\nORG 1\nRES 1",
            "RES 17\nRES 65535",
            "RES 2\nRES 65535",
            "RES 2\nORG 0\nEQU 5\nORG 2\nRES 14\n\n\n",
        ],
    );
    cases.push(case(random, 16, format!("RES 1\nORG 0\n{}: RES 1", long)));
    let deep = format!("RES 1\nORG 0\nRES {}1{}", "(".repeat(33), ")".repeat(33));
    cases.push(case(random, 16, deep));
    push_all(
        random,
        cases,
        65_536,
        &[
            "ORG 65535\nHALT\nORG 65535\nRES 2",
            "ORG 65535\nHALT\nORG 65535\nRES 1",
            "ORG 65534\nHALT\nORG 65534\nRES 2",
            "ORG 0\nBR /q\nORG 65535\nRES 1\nx:",
            "ORG 0\nBR /q\nORG 65535\nRES 1\n",
        ],
    );
}

/// Reserved cells beside each other and beside code and data, laid upward and downward.
fn side_by_side(random: &mut Random, cases: &mut Vec<Case>) {
    push_all(
        random,
        cases,
        16,
        &[
            "RES 1\nRES 2\nRES 3\nRES 4\nRES 6",
            "RES 1\nRES 2\nRES 3\nRES 4\nRES 7",
            "ORG 12\nRES 4\nORG 8\nRES 4\nORG 4\nRES 4\nORG 0\nRES 4",
            "ORG 12\nRES 4\nORG 8\nRES 5\nORG 4\nRES 4",
            "HALT\nRES 1\nHALT\nRES 1\nDATA 1\nRES 1\nDATA 2\nHALT",
            "RES 2\nPUSH #1\nRES 2\nDATA 0,0\nRES 2\nRES 2",
            "DATA 0,0\nRES 2\nDATA 0,0",
            "NOP\nRES 1\nNOP\nORG 8\nRES 1\nORG 10\nRES 1",
            "RES 4\nORG 5\nRES 4\nORG 4\nHALT",
            "RES 4\nORG 5\nRES 4\nORG 4\nPUSH #1",
        ],
    );
}

/// All cells of a memory reserved, and what is then claimed; all but one.
fn whole(random: &mut Random, cases: &mut Vec<Case>) {
    push_all(
        random,
        cases,
        4,
        &[
            "RES 4",
            "RES 1\nRES 2\nRES 1",
            "RES 4\nRES 0",
            "RES 4\nRES 1",
            "RES 4\nORG 0\nRES 1",
            "RES 4\nORG 3\nDATA 1",
            "RES 3\nHALT",
            "HALT\nRES 3",
            "ORG 1\nHALT\nORG 0\nRES 4",
        ],
    );
    for address in [0, 1, 32_768, 65_534, 65_535] {
        let later = random.text(&["HALT", "DATA 1", "RES 1", "x: RET"]);
        let all = "RES 65535\nRES 1\n";
        cases.push(case(random, 65_536, format!("{}ORG {}\n{}", all, address, later)));
        cases.push(case(random, 65_536, format!("ORG {}\n{}\nORG 0\n{}", address, later, all)));
    }
}

/// The address 65,536 behind RES, in the only memory that reaches so far.
fn at_the_top(random: &mut Random, cases: &mut Vec<Case>) {
    for end in ENDS {
        let way = random.text(&["ORG 65535\nRES 1\n", "ORG 65533\nRES 2\nRES 1\n"]);
        cases.push(case(random, 65_536, format!("{}{}", way, end)));
    }
}

//! 6, 9 and 10 on a line with END, RES, ORG, EQU, branches and lines that fail by themselves:
//! which of several refusals is told.

use super::case;
use crate::case::Case;
use crate::make::random::Random;

/// What a line may say after its label.
const STATEMENTS: [&str; 20] = [
    "END",
    "END \"",
    "RES 0",
    "RES 1",
    "RES 65536",
    "ORG 3",
    "ORG 65536",
    "ORG x",
    "EQU 5",
    "EQU 1/0",
    "BR $a",
    "BR /nosuch",
    "BR .A",
    "BR $40000",
    "CALL /70000",
    "DATA 1",
    "DATA \"a",
    "HALT",
    "FOO",
    "",
];

pub fn add(random: &mut Random, cases: &mut Vec<Case>) {
    let long = "L".repeat(65);
    let labels = ["", "a: ", "b: ", long.as_str()];
    for (cells, before) in [(16, "a: NOP\n"), (65_536, "a:\nORG 65535\nRES 1\n")] {
        for label in labels {
            let label = if label.len() == 65 { format!("{}: ", label) } else { label.to_string() };
            for statement in STATEMENTS {
                let after = random.text(&["", "\n", "\nFOO", "\nEND", "\nc: ORG 9\n", "\n\n\n"]);
                let source = format!("{}{}{}{}", before, label, statement, after);
                cases.push(case(random, cells, source));
            }
        }
    }
}

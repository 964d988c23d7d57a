//! Cases and replies for a person who settles a difference: sources as text, words as
//! instructions.

use crate::answer::answer;
use crate::case::{Case, LentImage, LentMachine};
use crate::isa::decode;
use crate::listing;
use crate::machine::{PC, REGISTER_NAMES};
use crate::text::lines;
use std::fmt::Write;

/// A case readably, with its reply. Writing to a String does not fail.
pub fn show(case: &Case) -> String {
    let mut text = String::new();
    match case {
        Case::Assemble(lent) => {
            let _ = writeln!(text, "assemble at M {} (map {})", lent.memory.cells, lent.map_length);
            for (at, line) in lines(&lent.source).enumerate() {
                let _ = writeln!(text, "  {:>3} | {}", at + 1, line.escape_ascii());
            }
        }
        Case::Line(line) => {
            let _ = writeln!(text, "line | {}", line.escape_ascii());
        }
        Case::Step(lent) => show_machine("step", lent, &mut text),
        Case::Run(budget, lent) => show_machine(&format!("run of {}", budget), lent, &mut text),
        Case::List(lent) => show_listing(lent, &mut text),
        Case::Encode { .. } | Case::Decode(_) | Case::Print(_) => {
            let _ = writeln!(text, "{}", case);
        }
    }
    let _ = writeln!(text, "  reply: {}", answer(case));
    text
}

/// The listing's text, whatever room was lent for it.
fn show_listing(lent: &LentImage, text: &mut String) {
    let (cells, map) = (lent.memory.cells, lent.map_length);
    let _ = writeln!(text, "list at M {} (map {}) into {} bytes", cells, map, lent.room);
    if let Ok(listed) = listing::text(&lent.memory.row(), &lent.map()) {
        listed.lines().for_each(|line| {
            let _ = writeln!(text, "  | {}", line);
        });
    }
    let _ = writeln!(text, "  overwritten {:?}", lent.memory.overwritten);
    let _ = writeln!(text, "  marks {} and {:?}", lent.map_fill, lent.marks);
}

fn show_machine(what: &str, lent: &LentMachine, text: &mut String) {
    let row = lent.memory.row();
    let pc = lent.registers[usize::from(PC)];
    let words: Vec<u16> = row.iter().skip(usize::from(pc)).take(3).copied().collect();
    let _ = writeln!(text, "{} at M {}, stop code {}", what, row.len(), lent.stop_code);
    for (name, value) in REGISTER_NAMES.iter().zip(&lent.registers) {
        let _ = write!(text, "  {}={}", name, value);
    }
    let _ = writeln!(text, "\n  at PC {:?}: {:?}", words, decode(&words));
    let _ = writeln!(text, "  overwritten {:?}", lent.memory.overwritten);
    let input = lent.input.escape_ascii();
    let _ = writeln!(text, "  input \"{}\" at {}", input, lent.input_position);
    let _ = writeln!(text, "  output {} at {}", lent.output_length, lent.output_position);
}

//! The sources by which the look-up of labels is measured (`bench/lookup`): all of one length,
//! however many labels they have, and each label used three times.

use super::bench::{self, COMMENTS};
use super::draw;
use super::random::Random;
use crate::isa::{opcode, Opcode, Place};

/// Bytes of each source, and how often it uses each of its labels.
pub const BYTES: usize = 31_000;
pub const USES: usize = 3;

const SEED: u64 = 2_025;

/// How a source's labels are named.
#[derive(Clone, Copy, Debug, PartialEq, Eq)]
pub enum Names {
    /// Of one length and one first letter, and alike up to their last three bytes.
    Alike,
    /// Of one length, first letter and ending, and alike but for three bytes in their middle.
    Middle,
    /// As `bench::source` draws them.
    Mixed,
}

impl Names {
    pub fn of_name(name: &str) -> Option<Names> {
        match name {
            "alike" => Some(Names::Alike),
            "middle" => Some(Names::Middle),
            "mixed" => Some(Names::Mixed),
            _ => None,
        }
    }

    fn drawn(self, random: &mut Random, count: usize) -> Vec<String> {
        match self {
            Names::Alike => (1..=count).map(|number| format!("sensor_{:03}", number)).collect(),
            Names::Middle => (1..=count).map(|number| format!("s{:03}ensor_", number)).collect(),
            Names::Mixed => bench::names(random, count),
        }
    }
}

/// A source with so many labels, 1 to 512.
pub fn source(names: Names, labels: usize) -> String {
    let mut random = Random::new(SEED);
    let names = names.drawn(&mut random, labels);
    let mut lines = lines_with_labels(&mut random, &names);
    let definitions: usize = names.iter().map(|name| name.len() + ": ".len()).sum();
    fill(&mut random, &mut lines, BYTES - definitions - "END\n".len());
    let mut lines = bench::in_drawn_order(&mut random, lines);
    // spread evenly, in the order of their names where these are alike
    for (number, name) in names.iter().enumerate() {
        let at = number * lines.len() / names.len();
        lines[at].insert_str(0, &format!("{}: ", name));
    }
    lines.push("END\n".to_string());
    lines.concat()
}

/// Instructions whose operands use every label so often as it is to be used.
fn lines_with_labels(random: &mut Random, names: &[String]) -> Vec<String> {
    let mut pool = bench::uses(random, names, USES);
    let mut lines = Vec::new();
    while !pool.is_empty() {
        lines.push(instruction(random, &mut pool) + "\n");
    }
    lines
}

/// An instruction with labels in all its operands, in most of them two, so that 512 fit.
fn instruction(random: &mut Random, pool: &mut Vec<String>) -> String {
    let opcode = match random.below(8) {
        0 => opcode::ALL[random.between(18, 31)],
        1 | 2 => Opcode::Move,
        3..=5 => opcode::ALL[random.between(5, 9)],
        _ => *random.pick(&[Opcode::Cmp, Opcode::And, Opcode::Or, Opcode::Xor]),
    };
    let (first, second) = opcode.places();
    let first = operand(random, first, pool);
    match second {
        Place::Empty => format!("{} {}", opcode.name(), first),
        _ => format!("{} {},{}", opcode.name(), first, operand(random, second, pool)),
    }
}

/// An operand with a label, seldom an indexed one: these are long.
fn operand(random: &mut Random, place: Place, pool: &mut Vec<String>) -> String {
    loop {
        let kind = draw::allowed_operand(random, place, 0);
        match bench::around_value(&kind) {
            Some((before, behind)) if behind.is_empty() || random.one_in(8) => {
                let value = pool.pop().unwrap_or_else(|| "0x7F".to_string());
                return format!("{}{}{}", before, value, behind);
            }
            _ => {}
        }
    }
}

/// Lines without labels until there are exactly so many bytes; what no drawn line fits is a comment.
fn fill(random: &mut Random, lines: &mut Vec<String>, bytes: usize) {
    let mut left = bytes - lines.iter().map(String::len).sum::<usize>();
    loop {
        let line = line_without_labels(random);
        // a comment takes two bytes
        if line.len() + 2 > left {
            break;
        }
        left -= line.len();
        lines.push(line);
    }
    lines.push(format!(";{}\n", "-".repeat(left - 2)));
}

fn line_without_labels(random: &mut Random) -> String {
    let statement = match random.below(12) {
        0 => String::new(),
        1 => format!("RES {} ", random.between(1, 6)),
        2 | 3 => bench::data(random) + " ",
        _ => bench::instruction(random, &mut Vec::new()) + " ",
    };
    format!("{}; {}\n", statement, random.text(&COMMENTS))
}

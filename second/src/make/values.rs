//! Sources about expressions: values at the ends of their ranges, zero divisors, depth, and what
//! becomes of them in a cell (document 01, "Rules of writing": "Expression").

use super::random::Random;

pub fn source(random: &mut Random) -> Vec<u8> {
    let mut text = String::new();
    for name in ["x", "y"] {
        let expression = expression(random, 3);
        let expression = match random.below(10) {
            0 | 1 => {
                let depth = random.between(27, 34);
                format!("{}{}{}", "(".repeat(depth), expression, ")".repeat(depth))
            }
            2 => format!("{}-{}", random.below(65_536), expression),
            _ => expression,
        };
        let line = match random.below(12) {
            0 => format!("ORG {}\n", expression),
            1 => format!("RES {}\n", expression),
            _ => format!("{}: EQU {}\n", name, expression),
        };
        text.push_str(&line);
        if random.one_in(2) {
            break;
        }
    }
    text.push_str(random.text(&["PUSH #x", "MOVE #x,/y\n", "y:\nPUSH #x[.IX]\n", "BR /x", ""]));
    text.into_bytes()
}

/// Numbers and operations; the ends of 16 and of 32 bits are near.
fn expression(random: &mut Random, depth: usize) -> String {
    let mut text = String::new();
    for at in 0..random.between(1, 4) {
        if at > 0 {
            text.push_str(random.text(&["+", "-", "*", "/", "%", " - ", "/ "]));
        }
        let part = match random.below(16) {
            0..=3 if depth > 0 => format!("({})", expression(random, depth - 1)),
            4 | 5 => random
                .text(&[
                    "32768*65535+32767",
                    "(0-32768*65535-32768)",
                    "65535*32768",
                    "32768*65536",
                    "(0-32768)",
                    "(0-1)",
                    "65535",
                    "65536",
                ])
                .to_string(),
            6 => random.text(&["0", "(1-1)", "0x0", "5%5"]).to_string(),
            7 => format!("0x{:x}", random.below(65_536)),
            8 => random.below(70_000).to_string(),
            _ => random.below(12).to_string(),
        };
        text.push_str(&part);
    }
    text
}

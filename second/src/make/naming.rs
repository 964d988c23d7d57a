//! Sources about 13 and 14: names with blanks behind their operand's mark, and two names in one line,
//! of which either may be the refused one (document 02, K4).

use super::random::Random;

/// Bound above to 3, to 40,000 and to 65,531; bound below; bound nowhere.
const NAMES: &[&str] = &["near", "near", "far", "top", "later", "later", "nosuch", "Near", "n"];

pub fn source(random: &mut Random) -> Vec<u8> {
    let mut text = String::from("near: EQU 3\nfar: EQU 40000\ntop: EQU 0-5\n");
    for at in 0..random.between(1, 4) {
        if random.one_in(4) {
            text.push_str(&format!("l{}:{}", at, blanks(random)));
        }
        text.push_str(&line(random));
        text.push_str(random.text(&["\n", "\n", "\r\n", " ; nosuch\n"]));
    }
    text.push_str(random.text(&["later:", "later: HALT\n", "later: EQU 7\nFOO", "END\nlater:"]));
    text.into_bytes()
}

/// An instruction with a name in one or both of its operands.
pub fn line(random: &mut Random) -> String {
    let (first, second) = (blanks(random), blanks(random));
    if random.one_in(2) {
        let word = random.text(&["MOVE", "ADD", "CMP", "sub"]);
        let one = operand(random, "#/i");
        let other = operand(random, "/ir");
        return format!("{}{} {}{},{}{}", second, word, first, one, second, other);
    }
    let (word, marks) = match random.below(3) {
        0 => ("PUSH", "#/i"),
        1 => ("CALL", "$/"),
        _ => (random.text(&["BR", "bz", "BNN"]), "$$$/"),
    };
    format!("{} {}{}{}", word, first, operand(random, marks), second)
}

/// An operand by one of these marks: `i` is `#name[.IX]` and `r` a register.
fn operand(random: &mut Random, marks: &str) -> String {
    let (blanks, name) = (blanks(random), random.text(NAMES));
    match *random.pick(marks.as_bytes()) {
        b'r' => format!(".{}A", blanks),
        b'i' => format!("#{}{}{}[.{}]", blanks, name, blanks, random.text(&["IX", "iy", "SP"])),
        mark => format!("{}{}{}", mark as char, blanks, name),
    }
}

fn blanks(random: &mut Random) -> &'static str {
    random.text(&["", "", "", " ", "  ", "\t", "\r", " \t \r"])
}

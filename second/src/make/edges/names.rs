//! Names of 63, 64 and 65 bytes as label, in every operand and as a statement's word, and names
//! that differ in one byte.

use super::case;
use crate::case::Case;
use crate::make::random::Random;

pub fn add(random: &mut Random, cases: &mut Vec<Case>) {
    for length in [1, 63, 64, 65] {
        for operand in ["PUSH #{}", "PUSH /{}", "BR ${}", "PUSH #{}[.IX]", "MOVE #{},/{}"] {
            let name = name(random, length);
            let used = operand.replace("{}", &name);
            cases.push(case(random, 16, format!("{}: HALT\n{}", name, used)));
            cases.push(case(random, 16, &used));
            // the label itself is refused before its use is looked at
            cases.push(case(random, 16, format!("{}\n{}:\n{}", used, name, used)));
        }
        let name = name(random, length);
        for rest in ["", ":", ": FOO", ": END\nFOO", ": ORG 70000", ": RES 65536", " :", ":\u{7f}"]
        {
            cases.push(case(random, 16, format!("NOP\n{}{}", name, rest)));
        }
    }
    for length in [2, 8, 63, 64] {
        let name = name(random, length);
        let mut other = name.clone();
        // the same but for the first, a middle or the last byte, or for case
        let at = *random.pick(&[0, length / 2, length - 1]);
        other.replace_range(at..=at, "Q");
        let lower = name.to_ascii_lowercase();
        let shorter = &name[..length - 1];
        for two in [other.as_str(), lower.as_str(), shorter] {
            let defined = format!("{}: EQU 7\n{}: EQU 9\n", name, two);
            cases.push(case(random, 16, format!("{}MOVE #{},/{}", defined, two, name)));
            cases.push(case(random, 16, format!("{}: EQU 7\nPUSH #{}", name, two)));
            cases.push(case(random, 16, format!("{}: EQU 7\nPUSH #{}", two, name)));
        }
    }
}

/// A name of so many bytes: letters of either case, digits and `_`.
fn name(random: &mut Random, length: usize) -> String {
    let first = *random.pick(b"abcxyzABCXYZ_");
    let mut name = String::from(first as char);
    while name.len() < length {
        name.push(
            *random.pick(b"abcdefghijklmnopqrstuvwxyzABCDEFGHIJKLMNOPRSTUVWXYZ0123456789_") as char
        );
    }
    name
}

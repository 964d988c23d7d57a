//! Sources that are large in something: names, labels, parentheses, digits, bytes.

use super::random::Random;

pub fn source(random: &mut Random) -> Vec<u8> {
    let text = match random.below(24) {
        0..=5 => deep(random),
        6..=12 => long_name(random),
        13..=16 => long_number(random),
        17 => very_deep(random),
        18 => many_labels(random),
        19 if random.one_in(2) => long_source(random),
        19 => many_operands(random),
        _ => edge_of_addresses(random),
    };
    text.into_bytes()
}

/// As above, for whole sources: what takes kilobytes is rare.
pub fn whole(random: &mut Random) -> Vec<u8> {
    let text = match random.below(200) {
        0..=1 => very_deep(random),
        2..=4 => many_labels(random),
        5 => long_source(random),
        6..=9 => many_operands(random),
        10..=59 => deep(random),
        60..=119 => long_name(random),
        120..=149 => long_number(random),
        _ => edge_of_addresses(random),
    };
    text.into_bytes()
}

/// 31 to 34 parentheses, closed or not, around something good or bad.
fn deep(random: &mut Random) -> String {
    let depth = random.between(31, 34);
    let closed = if random.one_in(6) { depth - 1 } else { depth };
    let inner = random.text(&["1", "1", "x", "1/0", "65536", "2+3*4", "", "1/(1-1)"]);
    let before = random.text(&["", "", "1/0+", "65536*", "1+", "(1)*"]);
    let word = random.text(&["EQU", "ORG", "RES"]);
    let brackets = (("(").repeat(depth), ")".repeat(closed));
    format!("{} {}{}{}{}\n", word, before, brackets.0, inner, brackets.1)
}

/// Thousands of parentheses: no depth may overflow the stack.
fn very_deep(random: &mut Random) -> String {
    let depth = random.between(1_000, 5_000);
    let closed = if random.one_in(2) { depth } else { 0 };
    format!("EQU {}1{}", "(".repeat(depth), ")".repeat(closed))
}

/// A name of 63 to 66 bytes as label, as statement and in operands.
fn long_name(random: &mut Random) -> String {
    let name = random.text(&["n", "_", "A", "z9"]).repeat(66)[..random.between(63, 66)].to_string();
    match random.below(7) {
        0 => format!("{}: NOP\n", name),
        1 => name,
        2 => format!("PUSH #{}\n", name),
        3 => format!("{}:\nBR /{}\n", name, name),
        4 => format!("BR /{}\n{}: EQU 5\n", name, name),
        5 => format!("{}: FOO\n", name),
        _ => format!("NOP\n{}:\n{}:\n", name, name),
    }
}

/// 510 to 514 labels, then perhaps the first again.
fn many_labels(random: &mut Random) -> String {
    let labels = random.between(510, 514);
    let mut text: String = (0..labels).map(|at| format!("l{}:\n", at)).collect();
    text.push_str(random.text(&[
        "",
        "l0:",
        "l0: NOP",
        "NOP",
        "PUSH #l511",
        "FOO",
        "END",
        "m: FOO",
    ]));
    text
}

/// Digits without end, in a form that is right or not.
fn long_number(random: &mut Random) -> String {
    let digits = match random.below(30) {
        0 => random.between(2_000, 4_000),
        _ => random.between(5, 40),
    };
    let digit = random.text(&["0", "9", "1"]);
    let end = random.text(&["", "", "5", "x", "_", "a"]);
    let start = random.text(&["", "", "-", "0x", "+"]);
    let statement = random.text(&["DATA ", "PUSH #", "EQU ", "BR $", "PUSH #1,/", "ORG ", "INC /"]);
    format!("{}{}{}{}\n", statement, start, digit.repeat(digits), end)
}

/// A source of 32,768 or 32,769 bytes.
fn long_source(random: &mut Random) -> String {
    let length = random.between(32_768, 32_769);
    let start = random.text(&["NOP ;", "END\n", "EQU 1 ", ";", "EQU ", "FOO\n;"]);
    let byte = random.text(&[" ", "(", "x", "\n", "\t"]);
    format!("{}{}", start, byte.repeat(length - start.len()))
}

/// More operands than any opcode has.
fn many_operands(random: &mut Random) -> String {
    let operands = vec![random.text(&[".A", "#1", "/x", "[.R1]"]); random.between(3, 60)];
    let end = random.text(&["", ",", ",.X", " ;", ",#70000"]);
    format!("MOVE {}{}\n", operands.join(","), end)
}

/// Addresses at 65,535 and 65,536, with labels that are or are not bound there, and far `$label`.
/// Memories of fewer cells refuse all but the last of these starts with 11 (document 02, K2).
fn edge_of_addresses(random: &mut Random) -> String {
    let start = random.text(&[
        "ORG 65535\nRES 1\n",
        "ORG 65534\nRES 2\n",
        "RES 65535\nRES 1\n",
        "ORG 65535\n",
    ]);
    format!("{}{}", start, behind_the_last_cell(random))
}

/// What may stand there.
pub fn behind_the_last_cell(random: &mut Random) -> &'static str {
    random.text(&[
        "x: NOP\n",
        "NOP\n",
        "x:\n\n",
        "x:",
        "x: ORG 0\nHALT\n",
        "x: EQU 4\nx: NOP\n",
        "RES 0\n",
        "x: RES 0\n",
        "END\n",
        "x: END\nFOO",
        "x:\ny: EQU 1\n",
        "BR /q\nx:\n",
        "DATA 1\n",
        "PUSH #1\n",
        "RES 1\n",
        "RES 2\n",
        "x: EQU 32768\nORG 65534\nBR $x\n",
        "ORG 0\nBR $x\nx: EQU 32769\n",
        "ORG 0\nBR $x\nx: EQU 32770\n",
        "ORG 1\nCALL $x\nORG 65535\nx:\n",
        "ORG 0\nBR $x\nBR /q\nx: EQU 0-5\n",
        "x: FOO\n",
        "ORG 65536\n",
        "ORG 40000\nx: BR $y\ny: EQU 1\n",
        "ORG 0\nMOVE #q,#x[.IX]\nx: EQU 40000\n",
        "DATA \"\"\nx:\n",
    ])
}

//! Lines that fail several checks at once, so that the order of the checks matters (document 01,
//! "Refusing a source").

use super::random::Random;

/// Operands; the first sixteen are drawn more often.
const OPERANDS: [&str; 24] = [
    "#1",
    ".A",
    "/a",
    "$a",
    "#a[.IX]",
    "[.R1]",
    "#1[.SP]",
    "/b",
    "$b",
    "#b",
    "/70000",
    "#70000",
    "$40000",
    "#40000[.IY]",
    "#-40000",
    ".X",
    "#",
    "5",
    "x",
    "[.A",
    "#1[.R1]",
    "$-9",
    "#nosuch",
    "/0x1G",
];

/// Parts of expressions; the first twelve are drawn more often.
const PARTS: [&str; 16] = [
    "1",
    "2",
    "0",
    "65535",
    "65536",
    "1/0",
    "5%0",
    "(1-1)",
    "32768*65535",
    "99999999999",
    "(0-1)",
    "3/2",
    "x",
    "(1",
    "0x10",
    "7",
];

/// Items of DATA.
const ITEMS: [&str; 12] = [
    "1",
    "-1",
    "\"ab\"",
    "65536",
    "-32769",
    "0x1F",
    "\"\"",
    "x",
    "\"a",
    "5-3",
    "1,2,3,4,5,6,7,8",
    "\"\\n\"",
];

pub fn source(random: &mut Random) -> Vec<u8> {
    let mut text =
        String::from(random.text(&["", "a: NOP\n", "a:\n", "a: EQU 40000\n", "ORG 3\na: HALT\n"]));
    for _ in 0..random.between(1, 2) {
        text.push_str(&label(random));
        text.push_str(&statement(random));
        text.push('\n');
    }
    text.push_str(random.text(&[
        "",
        "",
        "FOO\n",
        "END\nFOO\n",
        "b: EQU 5\n",
        "b:\n",
        "ORG 3\nDATA 1\n",
    ]));
    let mut source = text.into_bytes();
    if random.one_in(8) {
        let at = random.below(source.len() + 1);
        source.insert(at, *random.pick(&[1, 127, 128, 255, b'"']));
    }
    source
}

/// No label, a good one, one again, one too long.
fn label(random: &mut Random) -> String {
    match random.below(8) {
        0 | 1 => "a: ".to_string(),
        2 => format!("{}: ", "L".repeat(random.between(64, 65))),
        3 => "b: ".to_string(),
        4 => "c:".to_string(),
        _ => String::new(),
    }
}

fn statement(random: &mut Random) -> String {
    match random.below(10) {
        0 => format!("FOO {}", operands(random)),
        1 => format!("5 {}", operands(random)),
        2 => format!("{} {}", random.text(&["ORG", "EQU", "RES"]), expression(random)),
        3 => format!("DATA {}", data(random)),
        4 => format!(
            "ORG {}\n{} {}",
            random.text(&["14", "15", "16", "65534", "65535"]),
            opcode(random),
            operands(random)
        ),
        _ => format!("{} {}", opcode(random), operands(random)),
    }
}

fn opcode(random: &mut Random) -> &'static str {
    random.text(&["MOVE", "ADD", "INC", "BR", "CALL", "NOP", "PUSH", "WRSTR", "BZ", "POP", "CMP"])
}

/// Good operands, and such as are wrong in form, kind, size or label.
fn operands(random: &mut Random) -> String {
    let count = match random.below(8) {
        0 => 0,
        1..=3 => 1,
        4 => 3,
        _ => 2,
    };
    let drawn: Vec<&str> = (0..count)
        .map(|_| match random.below(3) {
            0 => random.text(&OPERANDS),
            _ => random.text(&OPERANDS[..16]),
        })
        .collect();
    let parted = if random.one_in(16) { " " } else { "," };
    drawn.join(parted)
}

fn expression(random: &mut Random) -> String {
    let mut text = String::new();
    for at in 0..random.between(1, 4) {
        if at > 0 {
            text.push_str(random.text(&["+", "-", "*", "/", "%"]));
        }
        let part = match random.below(4) {
            0 => random.text(&PARTS),
            _ => random.text(&PARTS[..12]),
        };
        text.push_str(part);
    }
    match random.below(8) {
        0 => format!("{}{}{}", "(".repeat(33), text, ")".repeat(33)),
        1 => format!("{}{}{}+1", "(".repeat(32), text, ")".repeat(32)),
        _ => text,
    }
}

fn data(random: &mut Random) -> String {
    let drawn: Vec<&str> = (0..random.between(1, 3)).map(|_| random.text(&ITEMS)).collect();
    drawn.join(",")
}

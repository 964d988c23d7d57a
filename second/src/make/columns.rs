//! Sources and lines for document 02's K4: what the readings' two tables name, and right lines with
//! one byte changed, dropped or doubled.

use super::random::Random;
use super::{faulty, lines, mutate, naming, source, whole};
use crate::text;

/// Form, at M 16.
const FORM: &[&str] = &[
    "ORG ;c",
    "DATA 1, ;c",
    "PUSH # ; comment",
    "EQU 5-;c",
    "ORG",
    "ORG  ",
    "MOVE #1,\r\n",
    "PUSH #-x",
    "PUSH #- 5",
    "PUSH #--5",
    "PUSH #-;c",
    "PUSH #-",
    "PUSH #- ;c",
    "DATA -\r",
    "DATA 1,-",
    "NOP -",
    "EQU -5",
    "EQU -",
    "EQU 5--5",
    "DATA 5-3",
    "-5",
    "DATA 0x",
    "DATA 0xG",
    "DATA 0x 1",
    "DATA 0x,1",
    "DATA 0x;c",
    "DATA 5a",
    "DATA 0X5",
    "DATA -0x5",
    "DATA 00x5",
    "DATA 0x1G",
    "DATA 99999x",
    "DATA 5_",
    "DATA \"\\q\"",
    "DATA \"\\",
    "DATA \"a",
    "DATA \"ab\r",
    "DATA \"a;b",
    "DATA \"a\tb\"",
    "NOP 5x",
    "NOP 0x",
    "NOP \"a",
    "5x",
    "12x: NOP",
    "PUSH .R10",
    "PUSH .Q",
    "PUSH #5[.R1]",
    "PUSH #5[.R1",
    "PUSH [.FOO]",
    "PUSH [.A",
    "NOP .A,",
    "NOP .A,.A,.X",
    "BR .A .A",
    "ORG #5",
    "ORG x",
    "ORG 1,2",
    "DATA x",
    "DATA (5)",
    "EQU (1))",
    "EQU ()",
    ":",
    "x: 5",
    "a::",
    "a: NOP: HALT",
    "NOP :",
    "PUSH #x\u{1}",
    "NOP\u{7f}",
    "\u{7f}NOP",
];

/// All other refusals, at M 16.
const OTHERS: &[&str] = &[
    "\tFOO",
    "NOP\n FOO",
    "x:\n x: FOO",
    "MOVE .A, / zz",
    "PUSH #zz[.IX]",
    "BR $zz",
    "MOVE /a,/b\na:",
    "MOVE /b,/a\na:",
    "MOVE /a, /\ta",
    "ADD #b,# a [.IX]\nb:",
    "MOVE /a,/b\nBR $a\na: EQU 40000\nb: EQU 1",
    "BR $\t a\na: EQU 40000\nBR / b",
    "BR $a\nMOVE #a,/ b\na:",
    "x: EQU 0-5\nBR $ x",
    "x: EQU 40000\n CALL  $x",
    "MOVE $1,#2",
    "MOVE #1,#2",
    "INC  #70000",
    " NOP $1",
    "NOP .A,.A",
    "MOVE $1,#2,.A",
    "BZ .R3",
    "PUSH # 70000",
    "PUSH #-32769",
    "RES 65536",
    "DATA 70000,80000",
    "MOVE #70000,/80000",
    "MOVE #x,/80000",
    "EQU 65535*65535+70000",
    "EQU 1/0+70000",
    "EQU 65535*65535",
    "EQU 1/0",
    "EQU 5 %  0",
    "ORG 65535+1",
    " RES 0-1",
    "ORG 65535\n RES 2",
    "ORG 16\na: NOP",
    "ORG 15\n DATA 1,2",
    "ORG 16\na: data \"\"",
    "NOP\nORG 0\n  DATA 1",
    "NOP\nORG 0\nx: RES 1",
];

/// Behind a last cell of 65,536 that is claimed.
const AT_THE_TOP: &[&str] = &[
    "x: END",
    "x:\n\n",
    "x:",
    " x:\r",
    "x: ;c\n;c",
    "x:\n y: \n\n",
    "x:\n NOP",
    "x:\n y: END\n\n",
    "x:\nBR /nosuch",
    " DATA 1",
    "x: RES 0",
    "RES 1",
];

/// Each edge that the readings name, with its M.
pub fn edges() -> Vec<(usize, Vec<u8>)> {
    let long = long().into_iter().map(|text| (16, text.into_bytes()));
    short_edges().into_iter().chain(long).collect()
}

/// Those that take few bytes.
pub fn short_edges() -> Vec<(usize, Vec<u8>)> {
    let at_16 = |text: &&str| (16, text.as_bytes().to_vec());
    let at_the_top = |text: &&str| (65_536, format!("ORG 65535\nNOP\n{}", text).into_bytes());
    let mut edges: Vec<(usize, Vec<u8>)> = FORM.iter().chain(OTHERS).map(at_16).collect();
    edges.extend(AT_THE_TOP.iter().map(at_the_top));
    edges.push((16, b"NOP\x80".to_vec()));
    edges.push((16, b"\x80NOP".to_vec()));
    edges.push((0, b"FOO".to_vec()));
    edges
}

/// Deep parentheses, long names, many labels, long lines, a source too long.
fn long() -> Vec<String> {
    let nested = |depth: usize| format!("{}1{}", "(".repeat(depth), ")".repeat(depth));
    let labels: String = (0..512).map(|at| format!("l{}:\n", at)).collect();
    vec![
        format!("EQU {}", "(".repeat(40)),
        format!("EQU {}", nested(33)),
        format!("EQU {}+ {}+{}", nested(32), nested(33), nested(34)),
        format!(" {}: FOO", "n".repeat(65)),
        format!("BR / {}", "n".repeat(65)),
        format!("{}  l0:", labels),
        format!("ORG{}", " ".repeat(32_765)),
    ]
}

/// The lines of all edges but for those of kilobytes, each once.
pub fn edge_lines() -> Vec<Vec<u8>> {
    let mut all: Vec<Vec<u8>> = Vec::new();
    for (_, source) in edges().into_iter().filter(|(_, source)| source.len() < 1_000) {
        for line in text::lines(&source).map(|line| line.to_vec()) {
            if !all.contains(&line) {
                all.push(line);
            }
        }
    }
    all
}

/// The source below a few right lines, which refer to nothing in it.
pub fn below_others(random: &mut Random, source: &[u8]) -> Vec<u8> {
    let mut text = String::new();
    for at in 0..random.between(1, 6) {
        match random.below(6) {
            0 => text.push_str(&format!("above{}:", at)),
            1 => text.push_str(&format!("  above{}: HALT ; (", at)),
            other => text.push_str(["DATA 1", "\t;\"", "", "INC /1\r"][other - 2]),
        }
        text.push('\n');
    }
    [text.as_bytes(), source].concat()
}

/// A source and its M: an edge, a line or a source spoiled by one byte, names in operands, or a line
/// that fails in several ways.
pub fn drawn(random: &mut Random) -> (usize, Vec<u8>) {
    match random.below(10) {
        0 | 1 => edge(random),
        2..=4 => {
            let line = spoiled_line(random);
            (16, if random.one_in(2) { below_others(random, &line) } else { line })
        }
        5 | 6 => (16, spoiled_source(random)),
        7 | 8 => (16, naming::source(random)),
        _ => (16, faulty::source(random)),
    }
}

/// A line: an edge's, a right one with one byte wrong, or one with names in its operands.
pub fn drawn_line(random: &mut Random) -> Vec<u8> {
    match random.below(8) {
        0 => random.pick(&edge_lines()).clone(),
        1 => naming::line(random).into_bytes(),
        _ => spoiled_line(random),
    }
}

/// One of the edges, moved to the right or down now and then, with something behind it; a long one
/// seldom.
fn edge(random: &mut Random) -> (usize, Vec<u8>) {
    let edges = if random.one_in(40) { edges() } else { short_edges() };
    let (cells, text) = random.pick(&edges);
    let before = random.text(&["", "", "", " ", "\t", "y:", "y: ", "\n", "; c\n", "HALT\r\n"]);
    let behind = random.text(&["", "", "", " ", "\r", " ;c", ";", "\n", "\nFOO", "\nEND"]);
    (*cells, [before.as_bytes(), text, behind.as_bytes()].concat())
}

/// A right line with one byte wrong: the longer of two, for many lines are all but empty.
fn spoiled_line(random: &mut Random) -> Vec<u8> {
    let text = source::source(random, 16);
    let (one, other) = (lines::one_of(random, &text), lines::one_of(random, &text));
    let mut line = if one.len() < other.len() { other } else { one };
    spoil_one_byte(random, &mut line);
    line
}

/// A right source with one byte wrong.
fn spoiled_source(random: &mut Random) -> Vec<u8> {
    let mut text = whole::source(random, 16);
    spoil_one_byte(random, &mut text);
    text
}

/// One byte changed, dropped or doubled.
fn spoil_one_byte(random: &mut Random, text: &mut Vec<u8>) {
    let at = random.below(text.len());
    match (random.below(3), text.get(at).copied()) {
        (_, None) => {}
        (0, Some(_)) => text[at] = mutate::drawn_byte(random),
        (1, Some(_)) => {
            text.remove(at);
        }
        (_, Some(byte)) => text.insert(at, byte),
    }
}

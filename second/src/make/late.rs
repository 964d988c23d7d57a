//! Sources whose interesting lines stand below the hundredth: a refusal names its line by number.

use super::random::Random;

/// Lines that claim no cell and define no label, 95 to 140 of them.
fn idle_lines(random: &mut Random) -> Vec<u8> {
    let mut lines = Vec::new();
    for _ in 0..random.between(95, 140) {
        let line = match random.below(30) {
            0 => random.text(&[" ", ";", "\t;\u{7f}", "\r", "EQU 1", "RES 0", "ORG 0", "org 0x0"]),
            _ => "",
        };
        lines.extend_from_slice(line.as_bytes());
        lines.push(b'\n');
    }
    lines
}

/// The source with such lines above it, or in its midst.
pub fn late(random: &mut Random, source: &[u8]) -> Vec<u8> {
    let ends: Vec<usize> = source
        .iter()
        .enumerate()
        .filter(|(_, byte)| **byte == b'\n')
        .map(|(at, _)| at + 1)
        .collect();
    let at = if ends.is_empty() || random.one_in(2) { 0 } else { *random.pick(&ends) };
    let mut text = source[..at].to_vec();
    // in the midst ORG would move what follows: only empty lines stand there
    if at == 0 {
        text.extend(idle_lines(random));
    } else {
        text.resize(at + random.between(95, 140), b'\n');
    }
    text.extend_from_slice(&source[at..]);
    if random.one_in(8) {
        text.resize(text.len() + random.between(1, 30), b'\n');
    }
    text
}

/// What is told only after every line has passed, or at the source's end.
pub fn told_late(random: &mut Random) -> Vec<u8> {
    let source = random.text(&[
        "BR /nosuch\n",
        "MOVE #a,/nosuch\na:\n",
        "a: EQU 40000\nBR $a\n",
        "a:\nMOVE #a,#b[.IX]\nBR $c\nc: EQU 0-1\n",
        "a:\na:\n",
        "a: HALT\nORG 0\nHALT\n",
        "a: RES 2\nORG 1\nHALT\n",
        "HALT\nORG 0\nRES 1\n",
        "RES 4\nBR /nosuch\nORG 3\nRES 2\n",
        "ORG 0\na: RES 65535\nRES 2\n",
        "ORG 65535\nRES 1\na:\n",
        "ORG 65535\nRES 1\na:\nb: NOP\n",
        "ORG 65535\nRES 1\nEND\na:\n",
        "DATA 1,2,3,4\nORG 15\nPUSH #1\n",
        "a: HALT\nBR $a\nBR /a\nCALL $b\nb: RET\n",
        "FOO\n",
        "END\nFOO\n",
        "EQU 5%0\n",
        "RES (((((((((((((((((((((((((((((((((1)))))))))))))))))))))))))))))))))\n",
        "ORG 3\nORG 65536\n",
        "INC #1\n",
        "DATA \"a\n",
    ]);
    source.as_bytes().to_vec()
}

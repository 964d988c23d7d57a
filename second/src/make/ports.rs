//! Input lines and output room for machines.

use super::random::Random;

/// Lines that are numbers, and lines that nearly are.
const LINES: [&[u8]; 40] = [
    b"",
    b"0",
    b"1",
    b"7",
    b"42",
    b"-1",
    b"-0",
    b"007",
    b"65535",
    b"65536",
    b"32767",
    b"32768",
    b"-32768",
    b"-32769",
    b"0x1f",
    b"0x1F",
    b"0xFFFF",
    b"0x10000",
    b"0x",
    b"0X1f",
    b"-0x1",
    b"+1",
    b" 1",
    b"1 ",
    b"1\r",
    b"\r",
    b"1a",
    b"1_",
    b"--1",
    b"-",
    b"99999999999999999999",
    b"12,3",
    b"abc",
    b"hola mundo",
    b"\t",
    b"0x0000000000000000000000000001",
    b"4294967297",
    b"\x00",
    b"\xff\x80",
    b"1\x00",
];

/// A line of input, without its LF.
pub fn line(random: &mut Random) -> Vec<u8> {
    if random.one_in(60) {
        return long_line(random);
    }
    match random.below(8) {
        0 => (0..random.below(9)).map(|_| random.byte()).filter(|byte| *byte != b'\n').collect(),
        1 => random.word().to_string().into_bytes(),
        2 => (random.word() as i16).to_string().into_bytes(),
        _ => random.pick(&LINES).to_vec(),
    }
}

/// A line of so many bytes, or a few more, that is a number or nearly is.
pub fn long_number(random: &mut Random, length: usize) -> Vec<u8> {
    let start = random.text(&["", "", "-", "0x"]);
    let digit = random.text(&["0", "0", "0", "9"]);
    let end = random.text(&["7", "32768", "65535", "65536", "x", " ", "0", "\r"]);
    format!("{}{}{}", start, digit.repeat(length), end).into_bytes()
}

/// A line of 101 to 200 bytes: a number or any text.
fn long_line(random: &mut Random) -> Vec<u8> {
    let length = random.between(101, 200);
    match random.below(2) {
        0 => long_number(random, length),
        _ => (0..length).map(|_| random.between(32, 126) as u8).collect(),
    }
}

/// A few lines, the last with or without its LF.
pub fn input(random: &mut Random) -> Vec<u8> {
    let mut input = Vec::new();
    for _ in 0..random.below(4) {
        input.extend(line(random));
        input.push(b'\n');
    }
    if random.one_in(2) {
        input.extend(line(random));
    }
    input
}

/// A position in a row of so many bytes: at its start, its end, one past it, or far off.
pub fn position(random: &mut Random, length: usize) -> u64 {
    let length = length as u64;
    match random.below(120) {
        0 => length + 1,
        1 => *random.pick(&[u64::MAX, 1 << 32, 1 << 63, length + 2]),
        2..=14 => length,
        15..=25 => length.saturating_sub(1),
        26..=45 => random.below(length as usize + 1) as u64,
        _ => 0,
    }
}

/// How many bytes of output there are room for.
pub fn room(random: &mut Random) -> usize {
    if random.one_in(16) {
        return random.between(101, 400);
    }
    match random.below(8) {
        0 => 0,
        1 => 1,
        2 => 2,
        3 => random.between(3, 8),
        _ => random.between(8, 40),
    }
}

/// What the room holds before: now and then a byte that the machine will write again.
pub fn fill(random: &mut Random) -> u8 {
    *random.pick(&[0, 0, 46, 46, 255, 48, 49, 45, 10, 97])
}

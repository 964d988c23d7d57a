//! Sources with something changed: bytes, tokens or lines.

use super::random::Random;

/// Bytes that mean something, and some that stray.
const BYTES: &[u8] = b" \t\r\n\n;:,,\"\"\\#./$[]()+-*%_0x9aZ\x00\x01\x1f\x7f\x80\xff";

/// One to three changes.
pub fn mutate(random: &mut Random, source: &mut Vec<u8>) {
    for _ in 0..random.between(1, 3) {
        match random.below(10) {
            0..=2 => replace_byte(random, source),
            3 => insert_byte(random, source),
            4 => {
                if !source.is_empty() {
                    source.remove(random.below(source.len()));
                }
            }
            5 => change_lines(random, source),
            6 => swap_tokens(random, source),
            7 => source.truncate(random.below(source.len() + 1)),
            8 => double_slice(random, source),
            _ => change_lines(random, source),
        }
    }
}

pub fn drawn_byte(random: &mut Random) -> u8 {
    match random.below(4) {
        0 => random.byte(),
        1 => random.between(32, 126) as u8,
        _ => *random.pick(BYTES),
    }
}

fn replace_byte(random: &mut Random, source: &mut [u8]) {
    let at = random.below(source.len());
    if let Some(byte) = source.get_mut(at) {
        *byte = drawn_byte(random);
    }
}

fn insert_byte(random: &mut Random, source: &mut Vec<u8>) {
    let byte = drawn_byte(random);
    source.insert(random.below(source.len() + 1), byte);
}

/// A line doubled, removed, or changed with another.
fn change_lines(random: &mut Random, source: &mut Vec<u8>) {
    let mut lines: Vec<Vec<u8>> = source.split(|byte| *byte == b'\n').map(<[u8]>::to_vec).collect();
    let (one, other) = (random.below(lines.len()), random.below(lines.len()));
    match random.below(3) {
        0 => lines.insert(other, lines[one].clone()),
        1 => {
            lines.remove(one);
        }
        _ => lines.swap(one, other),
    }
    *source = lines.join(&b'\n');
}

/// The tokens of a source, roughly: runs of word bytes, and single bytes.
fn tokens(source: &[u8]) -> Vec<Vec<u8>> {
    let mut tokens: Vec<Vec<u8>> = Vec::new();
    let mut in_word = false;
    for byte in source {
        let of_word = byte.is_ascii_alphanumeric() || *byte == b'_';
        match tokens.last_mut() {
            Some(last) if in_word && of_word => last.push(*byte),
            _ => tokens.push(vec![*byte]),
        }
        in_word = of_word;
    }
    tokens
}

fn swap_tokens(random: &mut Random, source: &mut Vec<u8>) {
    let mut tokens = tokens(source);
    if tokens.is_empty() {
        return;
    }
    let one = random.below(tokens.len());
    let other = (one + random.between(1, 4)).min(tokens.len() - 1);
    tokens.swap(one, other);
    *source = tokens.concat();
}

fn double_slice(random: &mut Random, source: &mut Vec<u8>) {
    let start = random.below(source.len() + 1);
    let end = (start + random.below(8)).min(source.len());
    let slice = source[start..end].to_vec();
    let at = random.below(source.len() + 1);
    source.splice(at..at, slice);
}

//! Numbers as they are written (document 01, "Rules of writing"). The source's text and the
//! machine's ININT read the same numbers, so the rule stands here, once.

/// A number read, before anybody judged its range: a number's form comes before its size.
#[derive(Clone, Copy, Debug, PartialEq, Eq)]
pub struct Number {
    /// The digits' value. It stops growing once it is above 65,535, where every range has ended.
    pub magnitude: u32,
    pub negative: bool,
    pub hex: bool,
}

impl Number {
    /// "Range -32768..65535, kept modulo 65536."
    pub fn value(&self) -> Option<u16> {
        match (self.negative, self.magnitude) {
            (false, magnitude @ 0..=65_535) => Some(magnitude as u16),
            (true, magnitude @ 0..=32_768) => Some((magnitude as u16).wrapping_neg()),
            _ => None,
        }
    }

    /// "A decimal displacement lies in -32768..32767; a hex one is a bit pattern."
    pub fn displacement(&self) -> Option<u16> {
        if !self.hex && !self.negative && self.magnitude > 32_767 {
            return None;
        }
        self.value()
    }

    /// In an expression "numbers are 0..65535".
    pub fn in_expression(&self) -> Option<i64> {
        if self.negative || self.magnitude > 65_535 {
            return None;
        }
        Some(i64::from(self.magnitude))
    }
}

/// A letter, digit or `_`: what a word is made of, and what may not follow a number.
pub fn is_word_byte(byte: u8) -> bool {
    byte.is_ascii_alphanumeric() || byte == b'_'
}

/// Whether an expression's number or any other is wanted: only the latter may carry a `-`.
#[derive(Clone, Copy, Debug, PartialEq, Eq)]
pub enum Sign {
    Allowed,
    IsOperation,
}

/// Reads a number that starts at `at`; gives it and the position after it, or the position of the
/// first byte that no number has there: `at` itself if none begins there.
pub fn read(bytes: &[u8], at: usize, sign: Sign) -> Result<(Number, usize), usize> {
    let rest = bytes.get(at..).ok_or(at)?;
    let negative = sign == Sign::Allowed && rest.first() == Some(&b'-');
    let hex = rest.starts_with(b"0x");
    let before_digits = if hex { 2 } else { usize::from(negative) };
    let radix = if hex { 16 } else { 10 };
    let mut magnitude = 0u32;
    let mut end = before_digits;
    while let Some(digit) = rest.get(end).and_then(|byte| (*byte as char).to_digit(radix)) {
        if magnitude <= 65_535 {
            magnitude = magnitude * radix + digit;
        }
        end += 1;
    }
    let followed = rest.get(end).map_or(false, |byte| is_word_byte(*byte));
    if end == before_digits || followed {
        return Err(at + end);
    }
    Ok((Number { magnitude, negative, hex }, at + end))
}

/// "A line that isn't wholly a number as above reads 0" (What a step does).
pub fn of_line(line: &[u8]) -> u16 {
    match read(line, 0, Sign::Allowed) {
        Ok((number, end)) if end == line.len() => number.value().unwrap_or(0),
        _ => 0,
    }
}

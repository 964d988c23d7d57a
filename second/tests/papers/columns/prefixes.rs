//! "in 3 the first token or stray byte, or inside a number or string the first byte, that no line
//! of right form has there": found by trying, for all short lines over a small alphabet.

use super::right::{is_of_word, judged, Judged};
use second::text::{read_line, Why};
use std::collections::HashMap;

/// What lines are made of: enough to reach every form.
const ALPHABET: [&[u8]; 27] = [
    b"0", b"1", b"x", b"-", b"\"", b"\\", b"n", b",", b"#", b".", b"[", b"]", b"$", b"/", b"(",
    b")", b"+", b" ", b";", b"A", b"IX", b"NOP", b"ORG", b"DATA", b":", b"\r", b"\x80",
];

/// What a line is continued by, one or two of them, and then closing parentheses.
const CONTINUED: [&[u8]; 8] = [b"1", b" 1", b".IX", b"IX", b"]", b"\"", b"n", b":"];

/// A line cut into pieces: "a word is one token", all else is tried byte by byte.
fn cut(line: &[u8]) -> Vec<&[u8]> {
    let mut pieces = Vec::new();
    let mut rest = line;
    while let Some(first) = rest.first() {
        let run = rest.iter().take_while(|byte| is_of_word(**byte)).count().max(1);
        let (piece, behind) = rest.split_at(run);
        if first.is_ascii_digit() {
            pieces.extend(piece.chunks(1));
        } else {
            pieces.push(piece);
        }
        rest = behind;
    }
    pieces
}

/// Whether the last piece is a word, so that no letter or digit may be added to it.
fn ends_in_word(line: &[u8]) -> bool {
    let run = line.iter().rev().take_while(|byte| is_of_word(**byte)).count();
    run > 0 && !line[line.len() - run].is_ascii_digit()
}

/// None of them, one or two.
fn continuations() -> Vec<Vec<u8>> {
    let one = CONTINUED.iter().map(|piece| piece.to_vec());
    let two = CONTINUED.iter().flat_map(|first| CONTINUED.map(|second| [*first, second].concat()));
    [Vec::new()].into_iter().chain(one).chain(two).collect()
}

/// Whether a continuation makes this beginning a line of right form, parentheses closed.
fn completes(beginning: &[u8], added: &[u8]) -> bool {
    if ends_in_word(beginning) && added.first().map_or(false, |byte| is_of_word(*byte)) {
        return false;
    }
    let mut line = [beginning, added].concat();
    let opened = beginning.iter().filter(|byte| **byte == b'(').count();
    (0..=opened).any(|_| {
        let right = judged(&line) == Judged::RightForm;
        line.push(b')');
        right
    })
}

/// What is known of the beginnings tried so far, and how many lines of wrong form there were: with
/// the fault within the line, and with something missing at its end.
struct Tried {
    continuations: Vec<Vec<u8>>,
    completed: HashMap<Vec<u8>, bool>,
    within: u64,
    missing: u64,
}

impl Tried {
    fn goes_on(&mut self, beginning: &[u8]) -> bool {
        if let Some(known) = self.completed.get(beginning) {
            return *known;
        }
        let found = self.continuations.iter().any(|added| completes(beginning, added));
        self.completed.insert(beginning.to_vec(), found);
        found
    }

    /// The first piece that no line of right form has there, its first byte; none if the line could
    /// go on. A comment begins where a blank may stand: it is no token, and nothing is wrong with it.
    fn first_wrong(&mut self, line: &[u8]) -> Option<usize> {
        let mut start = 0;
        for piece in cut(line) {
            let end = start + piece.len();
            if !self.goes_on(&line[..end]) {
                let is_comment = piece == b";" && self.goes_on(&[&line[..start], b" "].concat());
                return if is_comment { None } else { Some(start) };
            }
            start = end;
        }
        None
    }

    /// The program's answer to a line beside the one found by trying. Tells whether the line is
    /// wrong already, so that more of it changes nothing.
    fn compare(&mut self, line: &[u8]) -> bool {
        let answer = read_line(line).statement.map(|_| ());
        let fault = answer.err().map(|fault| (fault.why, fault.column.0 as usize));
        let shown = line.escape_ascii();
        match judged(line) {
            Judged::WordUnknown => {
                assert!(matches!(fault, Some((Why::WordUnknown, _))), "{} {:?}", shown, fault);
                true
            }
            Judged::RightForm => {
                let told = matches!(fault, Some((Why::Form | Why::WordUnknown, _)));
                assert!(!told, "{} {:?}", shown, fault);
                false
            }
            Judged::WrongForm => {
                let wrong = self.first_wrong(line);
                let column = wrong.unwrap_or(line.len()) + 1;
                assert_eq!(fault, Some((Why::Form, column)), "{}", shown);
                *(if wrong.is_some() { &mut self.within } else { &mut self.missing }) += 1;
                wrong.is_some()
            }
        }
    }

    /// All lines that add so many pieces of the alphabet; to a wrong one only one more.
    fn walk(&mut self, line: &mut Vec<u8>, pieces: usize) {
        let is_wrong = self.compare(line);
        let pieces = if is_wrong { pieces.min(1) } else { pieces };
        if pieces == 0 {
            return;
        }
        for piece in ALPHABET {
            let length = line.len();
            line.extend_from_slice(piece);
            self.walk(line, pieces - 1);
            line.truncate(length);
        }
    }
}

/// From the beginning, and from where each form has begun.
#[test]
fn the_column_of_3_is_found_by_trying_continuations() {
    let mut tried =
        Tried { continuations: continuations(), completed: HashMap::new(), within: 0, missing: 0 };
    for (beginning, pieces) in [
        ("", 3),
        ("x:", 3),
        ("NOP ", 4),
        ("ORG ", 4),
        ("DATA ", 3),
        ("NOP #", 3),
        ("NOP .A,", 3),
        ("NOP #1[", 3),
        ("NOP [.", 2),
        ("NOP $-", 2),
        ("ORG (1", 3),
        ("ORG 0x", 2),
        ("DATA \"", 2),
        ("DATA \"n\",", 3),
    ] {
        tried.walk(&mut beginning.as_bytes().to_vec(), pieces);
    }
    let found = (tried.within, tried.missing);
    assert!(found.0 > 50_000 && found.1 > 5_000, "{:?}", found);
}

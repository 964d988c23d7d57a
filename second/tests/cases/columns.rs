//! The generator for K4: what it reaches, and that each column stands where document 02 says.

use crate::committed::committed;
use second::assembler::{assemble, Refused};
use second::case::Case;
use second::make::columns::{drawn, edges};
use second::make::random::Random;
use second::text::{lines, read_line, Column, Statement};
use std::collections::{BTreeMap, BTreeSet};

/// How a source at M is refused.
fn refused(cells: usize, source: &[u8]) -> Option<Refused> {
    assemble(source, &mut vec![0; cells], &mut vec![0; cells]).err()
}

/// The byte at a column, if there is one; the column lies in its line or one behind it.
fn byte_at(source: &[u8], refused: &Refused) -> Option<u8> {
    let line = lines(source).nth(refused.line.0 as usize - 1).expect("a line of the source");
    let column = refused.column.0 as usize;
    assert!((1..=line.len() + 1).contains(&column), "{:?}", refused);
    line.get(column - 1).copied()
}

/// Whether the fault may start with this byte: "the label in 9, 10, 13; the word in 4; .. the
/// operand in 14, 16; the number or the operation's mark in 6, 7; the parenthesis .. in 8; the
/// statement's word in 11, 12, 15 and for a result or label address in 6".
fn may_start(number: u8, byte: Option<u8>) -> bool {
    let byte = match byte {
        Some(byte) => byte,
        None => return number == 3,
    };
    let of_word = byte.is_ascii_alphabetic() || byte == b'_';
    match number {
        3 => true,
        4 | 9..=13 | 15 => of_word,
        6 => of_word || byte.is_ascii_digit() || b"+-*/%".contains(&byte),
        7 => b"/%".contains(&byte),
        8 => byte == b'(',
        14 => byte == b'$',
        16 => b"#./[$".contains(&byte),
        _ => false,
    }
}

/// Sees that the column is in range and stands at what it should; counts by number and place.
fn count(source: &[u8], refused: Refused, counts: &mut BTreeMap<(u8, u8), u64>) {
    let (number, place) = (refused.refusal.number(), refused.refusal.place());
    *counts.entry((number, place)).or_default() += 1;
    let shown = source.escape_ascii();
    match (number, refused.line.0, refused.column.0) {
        (1 | 2, line, column) => assert_eq!((line, column), (0, 0), "{}", shown),
        // a label bound at the source's end
        (6, line, 0) => assert_eq!(line as usize, lines(source).count(), "{}", shown),
        _ => assert!(may_start(number, byte_at(source, &refused)), "{} {:?}", shown, refused),
    }
}

#[test]
fn some_thousands_reach_every_refusal_and_both_places() {
    let mut random = Random::new(4);
    let mut counts = BTreeMap::new();
    for _ in 0..6_000 {
        let (cells, source) = drawn(&mut random);
        if let Some(refused) = refused(cells, &source) {
            count(&source, refused, &mut counts);
        }
    }
    // a source too long is drawn seldom here, and stands among the committed ones
    counts.remove(&(2, 0));
    let reached: Vec<(u8, u8)> = counts.keys().copied().collect();
    let alone = (1..=15).filter(|number| ![2, 5].contains(number)).map(|number| (number, 0));
    let expected: Vec<(u8, u8)> = alone.chain([(16, 1), (16, 2)]).collect();
    assert_eq!(reached, expected, "{:?}", counts);
}

#[test]
fn every_edge_is_refused() {
    let mut counts = BTreeMap::new();
    for (cells, source) in edges() {
        let refused = refused(cells, &source);
        count(&source, refused.expect("an edge is refused"), &mut counts);
    }
    assert_eq!(counts.len(), 15, "{:?}", counts);
}

/// The committed sources that are refused, at M that fits.
fn refused_sources() -> Vec<(Vec<u8>, Refused)> {
    let mut all = Vec::new();
    for case in committed("assemble") {
        if let Case::Assemble(lent) = case {
            let mut map = vec![lent.map_fill; lent.map_length];
            let refused = assemble(&lent.source, &mut lent.memory.row(), &mut map).err();
            all.extend(refused.map(|refused| (lent.source, refused)));
        }
    }
    all
}

/// How the names of a refused line's operands stand to the column: whether it is that of the second
/// of two, and whether a blank stands between its operand's mark and it.
fn named(line: &[u8], column: Column) -> Option<(bool, bool)> {
    let written = match read_line(line).says() {
        Ok(Some(Statement::Instruction(written))) => written,
        _ => return None,
    };
    let columns = written.labels.map(|awaited| awaited.map(|awaited| awaited.name.column));
    let at = column.0 as usize;
    let is_blank = |at: usize| line.get(at).map_or(false, |byte| b" \t\r".contains(byte));
    match columns {
        [Some(_), Some(second)] if second == column => Some((true, is_blank(at - 2))),
        [Some(name), _] | [None, Some(name)] if name == column => Some((false, is_blank(at - 2))),
        // 14 is told by its operand's first byte
        _ => Some((false, is_blank(at))),
    }
}

#[test]
fn the_committed_sources_have_every_refusal_away_from_its_lines_and_its_sources_start() {
    let mut counts = BTreeMap::new();
    let mut within = BTreeSet::new();
    for (source, refused) in refused_sources() {
        count(&source, refused, &mut counts);
        if refused.line.0 > 1 && refused.column.0 > 1 {
            within.insert((refused.refusal.number(), refused.refusal.place()));
        }
    }
    let alone = (3..=15).filter(|number| *number != 5).map(|number| (number, 0));
    assert_eq!(within, alone.chain([(16, 1), (16, 2)]).collect::<BTreeSet<_>>());
}

#[test]
fn the_committed_sources_have_names_behind_blanks_second_names_and_the_sources_end() {
    let mut names = BTreeSet::new();
    let mut at_the_end = 0;
    for (source, refused) in refused_sources() {
        let number = refused.refusal.number();
        if number == 13 || number == 14 {
            let line = lines(&source).nth(refused.line.0 as usize - 1).expect("a line");
            let (second, blank) = named(line, refused.column).expect("an instruction");
            names.insert((number, second, blank));
        }
        at_the_end += usize::from(number == 6 && refused.column == Column::NONE);
    }
    let of_13 = [(false, false), (false, true), (true, false), (true, true)];
    let expected = of_13.iter().map(|(second, blank)| (13, *second, *blank));
    let expected = expected.chain([(14, false, false), (14, false, true)]);
    assert_eq!(names, expected.collect::<BTreeSet<_>>());
    assert!(at_the_end >= 20, "{}", at_the_end);
}

/// Each line that fails by itself is pointed at within itself, or directly behind.
#[test]
fn the_committed_lines_reach_both_ends() {
    let mut behind = 0;
    let mut counts = BTreeMap::new();
    for case in committed("line") {
        if let Case::Line(line) = case {
            if let Err(fault) = read_line(&line).statement {
                let at = fault.column.0 as usize;
                assert!(may_start(fault.why.number(), line.get(at - 1).copied()));
                behind += usize::from(at == line.len() + 1);
                *counts.entry((fault.why.number(), fault.why.place())).or_insert(0) += 1;
            }
        }
    }
    assert_eq!(counts.len(), 8, "{:?}", counts);
    assert!(counts.values().all(|count| *count >= 5) && behind >= 50, "{:?} {}", counts, behind);
}

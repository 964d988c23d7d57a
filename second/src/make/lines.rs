//! Single lines: those of made sources, the same spoiled, those for columns, and any bytes.

use super::random::Random;
use super::{blocks, columns, faulty, large, mutate, nasty, source};
use crate::case::Case;
use crate::text::lines;

pub fn line_case(random: &mut Random) -> Case {
    let text = match random.below(20) {
        0..=3 => source::source(random, 100),
        4..=6 => {
            let mut text = source::source(random, 100);
            mutate::mutate(random, &mut text);
            text
        }
        7..=9 => nasty::source(random),
        10..=12 => faulty::source(random),
        13 => blocks::source(random, 100),
        14 if random.one_in(4) => large::source(random),
        15..=18 => return Case::Line(columns::drawn_line(random)),
        _ => return Case::Line(nasty::bytes(random)),
    };
    let mut line = one_of(random, &text);
    if random.one_in(4) {
        spoil(random, &mut line);
    }
    Case::Line(line)
}

/// One line of a source; an empty one if it has none.
pub fn one_of(random: &mut Random, text: &[u8]) -> Vec<u8> {
    let all: Vec<&[u8]> = lines(text).collect();
    match all.len() {
        0 => Vec::new(),
        count => all[random.below(count)].to_vec(),
    }
}

/// A byte more, less or other, or the line's end cut off.
fn spoil(random: &mut Random, line: &mut Vec<u8>) {
    let at = random.below(line.len());
    match random.below(5) {
        0 => line.insert(at, random.byte()),
        1 => line.insert(at, *random.pick(b" #.,:[]$/-+*%()\"0x9aR;\t\r")),
        2 if !line.is_empty() => {
            line.remove(at);
        }
        3 if !line.is_empty() => line[at] = *random.pick(b" #.,:[]$/-+*%()\"0x9aR;\t\r"),
        _ => line.truncate(at),
    }
}

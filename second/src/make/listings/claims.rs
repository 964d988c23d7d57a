//! An image by its claimed cells, before it is lent.

use crate::case::{LentImage, LentMemory};
use crate::image::{CODE, FREE, RESERVED};
use crate::isa::{encode, Instruction};
use crate::make::draw;
use crate::make::random::Random;
use std::collections::BTreeMap;

/// Above so many cells of code and data a case says one value for all and names the others.
const MANY: usize = 1_000;

/// M, and each claimed cell's value and mark by its address. A reserved cell's value is not kept.
#[derive(Clone, Debug)]
pub struct Claims {
    pub cells: usize,
    pub claimed: BTreeMap<usize, (u16, u8)>,
}

impl Claims {
    pub fn none(cells: usize) -> Claims {
        Claims { cells, claimed: BTreeMap::new() }
    }

    pub fn of(memory: &[u16], map: &[u8]) -> Claims {
        let cells = memory.iter().copied().zip(map.iter().copied()).enumerate();
        let claimed = cells.filter(|(_, (_, mark))| *mark != FREE);
        Claims { cells: memory.len(), claimed: claimed.collect() }
    }

    /// Words from an address on, all with one mark. What would lie past M-1 is left out.
    pub fn lay(&mut self, start: usize, words: &[u16], mark: u8) {
        let places = (start..self.cells).zip(words);
        self.claimed.extend(places.map(|(at, word)| (at, (*word, mark))));
    }

    /// The address after the last claimed cell.
    pub fn top(&self) -> usize {
        self.claimed.keys().next_back().map_or(0, |last| last + 1)
    }

    /// The same in the largest memory, moved up so far that the last cell of all is claimed.
    pub fn at_the_top(&self) -> Claims {
        let up = 65_536 - self.top();
        let claimed = self.claimed.iter().map(|(at, cell)| (at + up, *cell));
        Claims { cells: 65_536, claimed: claimed.collect() }
    }

    /// As a loan without room yet. Free and reserved cells hold anything.
    pub fn lent(&self, random: &mut Random) -> LentImage {
        let mut memory = draw::memory(random, self.cells);
        let kept = self.claimed.iter().filter(|(_, (_, mark))| *mark != RESERVED);
        if kept.clone().count() > MANY {
            let fill = commonest(kept.clone().map(|(_, (value, _))| *value));
            memory = LentMemory { fill, step: 0, ..memory };
        }
        let held = memory.row();
        let others = kept.filter(|(at, (value, _))| held[**at] != *value);
        memory.overwritten = others.map(|(at, (value, _))| (*at, *value)).collect();
        let (map_fill, marks) = self.marks();
        LentImage {
            memory,
            map_length: self.cells,
            map_fill,
            marks,
            room: 0,
            room_fill: *random.pick(&[0, 10, 32, 46, 48, 65, 68, 255]),
        }
    }

    /// The mark that most cells have, and the cells that have another.
    fn marks(&self) -> (u8, Vec<(usize, u8)>) {
        let all = (0..self.cells).map(|at| self.claimed.get(&at).map_or(FREE, |cell| cell.1));
        let fill = commonest(all.clone());
        (fill, all.enumerate().filter(|(_, mark)| *mark != fill).collect())
    }
}

/// The value that occurs most often, the lowest of several; 0 if there is none.
fn commonest<T: Copy + Ord + Default>(values: impl Iterator<Item = T>) -> T {
    let mut counts: BTreeMap<T, usize> = BTreeMap::new();
    values.for_each(|value| *counts.entry(value).or_default() += 1);
    let most = counts.values().max().copied();
    counts.into_iter().find(|(_, count)| Some(*count) == most).unwrap_or_default().0
}

/// An instruction's words; none if it is not allowed.
pub fn words_of(instruction: &Instruction) -> Vec<u16> {
    encode(instruction).map(|words| words.as_slice().to_vec()).unwrap_or_default()
}

/// M cells, all code: exactly these words.
pub fn all_code(words: &[u16]) -> Claims {
    let mut claims = Claims::none(words.len());
    claims.lay(0, words, CODE);
    claims
}

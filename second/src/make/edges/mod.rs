//! Sources that no draw may leave out: every set of assemble cases begins with them (document 01,
//! "What is lent", "Rules of writing" and "Refusing a source"; document 02, K2 and K4).

pub mod addresses;
mod blocks;
mod columns;
mod ends;
pub mod kinds;
mod limits;
mod loans;
mod names;
mod reserved;
mod together;

use super::draw;
use super::random::Random;
use crate::case::{Case, LentMemory, LentSource};

/// The memory sizes at which something may change.
const SIZES: [usize; 6] = [1, 2, 16, 16_384, 65_535, 65_536];

/// All of them; what memory and map held before is drawn.
pub fn all(random: &mut Random) -> Vec<Case> {
    let mut cases = Vec::new();
    loans::add(random, &mut cases);
    addresses::add(random, &mut cases);
    blocks::add(random, &mut cases);
    ends::add(random, &mut cases);
    names::add(random, &mut cases);
    together::add(random, &mut cases);
    kinds::add(random, &mut cases);
    limits::add(random, &mut cases);
    reserved::add(random, &mut cases);
    columns::add(random, &mut cases);
    cases
}

/// A source at M, the map as long as the memory.
fn case(random: &mut Random, cells: usize, source: impl AsRef<[u8]>) -> Case {
    with_map(random, cells, cells, source)
}

fn with_map(
    random: &mut Random,
    cells: usize,
    map_length: usize,
    source: impl AsRef<[u8]>,
) -> Case {
    let memory = draw::memory(random, cells);
    Case::Assemble(LentSource {
        memory: LentMemory { overwritten: Vec::new(), ..memory },
        map_length,
        map_fill: *random.pick(&[0, 0, 1, 2, 3, 255]),
        source: source.as_ref().to_vec(),
    })
}

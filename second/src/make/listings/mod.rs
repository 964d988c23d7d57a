//! Cases for listing an image as source (document 02, K1 and K2).

pub mod claims;
mod edges;
mod long;
mod reserved;

use super::random::Random;
use super::{assemble, draw, images, source, whole, words};
use crate::assembler;
use crate::case::{Case, LentImage, CELLS_LIMIT, ROOM_LIMIT};
use crate::image::{CODE, DATA, FREE, RESERVED};
use crate::isa::{opcode, Instruction, Operand, Place};
use crate::listing;
use claims::{words_of, Claims};

pub use edges::edges;

pub fn list_case(random: &mut Random) -> Case {
    let lent = match random.below(48) {
        0..=9 => assembled(random).lent(random),
        10..=17 => spoiled(random, assembled).lent(random),
        18..=27 => laid(random).lent(random),
        28..=35 => spoiled(random, laid).lent(random),
        36..=41 => images::loan(random),
        42..=46 => badly_lent(random),
        _ if random.one_in(2) => long::near_the_limit(random).lent(random),
        _ => laid(random).lent(random),
    };
    with_room(random, lent)
}

/// Room exactly enough mostly; one short, none, one more than enough or ample.
fn with_room(random: &mut Random, mut lent: LentImage) -> Case {
    let length = length(&lent);
    lent.room = match random.below(20) {
        0 => 0,
        1 | 2 => length - 1,
        3 => random.below(length),
        4..=11 => length,
        12 | 13 => length + 1,
        14 => length + random.below(2_000),
        _ => length + random.below(50),
    }
    .min(ROOM_LIMIT);
    Case::List(lent)
}

/// The text's length; where there is none, that of a short one.
fn length(lent: &LentImage) -> usize {
    listing::text(&lent.memory.row(), &lent.map()).map_or(30, |text| text.len())
}

/// Small as a rule, large once in ten.
fn image_cells(random: &mut Random) -> usize {
    match random.below(30) {
        0 | 1 => 65_536,
        2 => *random.pick(&[16_384, 65_535]),
        3 | 4 => random.between(1, 4),
        5..=8 => 100,
        9 | 10 => random.between(101, 3_000),
        11..=18 => random.between(5, 40),
        _ => 16,
    }
}

/// What an accepted source gives; nothing claimed if none of several is accepted.
fn assembled(random: &mut Random) -> Claims {
    let cells = image_cells(random);
    let (mut memory, mut map) = (vec![0; cells], vec![0; cells]);
    for _ in 0..8 {
        let text = match random.below(6) {
            0 => assemble::drawn(random, cells),
            1 | 2 => source::source(random, cells),
            _ => whole::source(random, cells),
        };
        if assembler::assemble(&text, &mut memory, &mut map).is_ok() {
            break;
        }
    }
    Claims::of(&memory, &map)
}

/// Blocks of code, of data and of reserved cells, following on or parted by free cells, the last
/// often at M-1.
fn laid(random: &mut Random) -> Claims {
    let mut claims = Claims::none(image_cells(random));
    let mut address = if random.one_in(3) { random.below(claims.cells) } else { 0 };
    for _ in 0..random.between(1, 6) {
        let (words, mark) = block(random);
        let fits = address + words.len() <= claims.cells;
        let at_the_end = claims.cells.saturating_sub(words.len()).max(claims.top());
        if random.one_in(12) && at_the_end + words.len() <= claims.cells {
            address = at_the_end;
        } else if !fits && !random.one_in(6) {
            continue;
        }
        claims.lay(address, &words, mark);
        address = (address + words.len() + gap(random)).min(claims.cells);
    }
    claims
}

/// Free cells between two blocks: none as a rule.
fn gap(random: &mut Random) -> usize {
    match random.below(12) {
        0 | 1 => 1,
        2 | 3 => random.between(2, 12),
        4 => random.between(13, 12_000),
        _ => 0,
    }
}

/// Words of one mark.
fn block(random: &mut Random) -> (Vec<u16>, u8) {
    let count = random.between(1, 4);
    if random.one_in(4) {
        let many = *random.pick(&[5, 9, 10, 99, 100, 101, 250]);
        return (vec![0; if random.one_in(8) { many } else { count }], RESERVED);
    }
    if random.one_in(3) {
        return ((0..count).map(|_| draw::word(random)).collect(), DATA);
    }
    let mut words: Vec<u16> = (0..count).flat_map(|_| instruction(random)).collect();
    if random.one_in(16) {
        // cut, with an opcode, a mode or a register that is none, or good
        words.extend(words::drawn(random));
    }
    (words, CODE)
}

/// The words of an allowed instruction.
fn instruction(random: &mut Random) -> Vec<u16> {
    let opcode = *random.pick(&opcode::ALL);
    let (first, second) = opcode.places();
    words_of(&Instruction {
        opcode,
        first: operand(random, first),
        second: operand(random, second),
    })
}

fn operand(random: &mut Random, place: Place) -> Operand {
    let (word, code) = (draw::word(random), random.below(16) as u16);
    match draw::allowed_operand(random, place, word) {
        Operand::Register(_) => Operand::Register(code),
        Operand::Indirect(_) => Operand::Indirect(code),
        other => other,
    }
}

/// An image with one to three cells or marks changed.
fn spoiled(random: &mut Random, drawn: fn(&mut Random) -> Claims) -> Claims {
    let mut claims = drawn(random);
    for _ in 0..random.between(1, 3) {
        let at = place(random, &claims);
        spoil(random, &mut claims, at);
    }
    claims
}

/// An address to change: mostly a claimed cell's, else one beside it, else any.
fn place(random: &mut Random, claims: &Claims) -> usize {
    let known: Vec<usize> = claims.claimed.keys().copied().collect();
    if known.is_empty() || random.one_in(20) {
        return random.below(claims.cells);
    }
    let at = *random.pick(&known);
    match random.below(8) {
        0 => at.saturating_sub(1),
        1 => (at + 1).min(claims.cells - 1),
        _ => at,
    }
}

fn spoil(random: &mut Random, claims: &mut Claims, at: usize) {
    let (value, mark) = claims.claimed.get(&at).copied().unwrap_or((0, FREE));
    let other_mark = *random.pick(&[CODE, DATA, DATA, RESERVED, RESERVED]);
    let changed = match random.below(12) {
        0..=3 => (value, other_mark),
        4 | 5 => (draw::word(random), mark.max(CODE)),
        6 => (*random.pick(&[1, 7, 65, 144, 2_495, 2_496, 2_559, 65_535]), mark.max(CODE)),
        7 => (*random.pick(&[16, 17, 255, 65_535]), mark.max(CODE)),
        8 => (*random.pick(&[0, 64, 2_048]), CODE),
        9 if random.one_in(4) => (value, images::bad_mark(random)),
        _ => {
            claims.claimed.remove(&at);
            return;
        }
    };
    claims.claimed.insert(at, changed);
}

/// Lengths that do not fit each other or document 01, or a mark above 3, over any image.
fn badly_lent(random: &mut Random) -> LentImage {
    let mut lent = match random.below(2) {
        0 => laid(random).lent(random),
        _ => spoiled(random, assembled).lent(random),
    };
    match random.below(8) {
        0 => lent.map_length += 1,
        1 => lent.map_length -= 1,
        2 => lent.memory.cells += 1,
        3 => {
            let cells = *random.pick(&[0, 65_537, 65_537, CELLS_LIMIT]);
            (lent.memory.cells, lent.map_length) = (cells, cells);
        }
        4 => lent.map_fill = images::bad_mark(random),
        _ => {
            let at = random.below(lent.map_length);
            lent.marks.push((at, images::bad_mark(random)));
        }
    }
    images::drop_past_the_end(&mut lent);
    lent
}

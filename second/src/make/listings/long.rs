//! Images whose text is about 32,768 bytes long.

use super::claims::Claims;
use super::{assembled, laid};
use crate::assembler::SOURCE_LIMIT;
use crate::image::{CODE, DATA};
use crate::listing;
use crate::make::random::Random;

/// The longest text that NOP and HALT may have to make up.
const MADE_UP: usize = 15;

/// Any image that can be listed, and behind it what makes its text 2 bytes shorter than the limit
/// up to 2 longer.
pub fn near_the_limit(random: &mut Random) -> Claims {
    let length = SOURCE_LIMIT + 2 - *random.pick(&[0, 1, 1, 2, 2, 2, 3, 4]);
    let data = *random.pick(&[None, Some(0), Some(7), Some(65_535), Some(1_000)]);
    let mut claims = if random.one_in(2) { laid(random) } else { assembled(random) };
    let short = text_of(&claims).map_or(false, |text| text.len() < SOURCE_LIMIT / 2);
    if !short || claims.top() > 20_000 {
        claims = Claims::none(1);
    }
    lengthen(&mut claims, data, length);
    claims.cells = claims.top() + random.below(4);
    claims
}

/// An image of one kind of line, NOP or DATA, whose text is so long.
pub fn of_length(data: Option<u16>, length: usize) -> Claims {
    let mut claims = Claims::none(1);
    lengthen(&mut claims, data, length);
    claims.cells = claims.top();
    claims
}

/// Lays NOPs or data cells of one value behind the last claimed cell, and then as many NOPs (4
/// bytes of text) and HALTs (5) as it takes to have exactly the length. They follow on.
fn lengthen(claims: &mut Claims, data: Option<u16>, length: usize) {
    claims.cells = 65_536;
    let missing = length - text_of(claims).map_or(0, |text| text.len());
    let (value, mark, bytes) = match data {
        Some(value) => (value, DATA, format!("DATA {}\n", value).len()),
        None => (0, CODE, "NOP\n".len()),
    };
    let filled = (missing - MADE_UP) / bytes;
    claims.lay(claims.top(), &vec![value; filled], mark);
    let rest = missing - filled * bytes;
    let halts = rest % 4;
    claims.lay(claims.top(), &vec![64; halts], CODE);
    claims.lay(claims.top(), &vec![0; (rest - 5 * halts) / 4], CODE);
}

/// The listing's text, free cells holding 0.
fn text_of(claims: &Claims) -> Option<String> {
    let (mut memory, mut map) = (vec![0; claims.cells], vec![0; claims.cells]);
    for (at, (value, mark)) in &claims.claimed {
        (memory[*at], map[*at]) = (*value, *mark);
    }
    listing::text(&memory, &map).ok()
}

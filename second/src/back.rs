//! There and back: "Where a listing is given, assembling it at the same M must give the same memory
//! and map, provided that free cells hold 0" (document 02, K1); K2 "also wants reserved cells to
//! hold 0".

use crate::assembler::{assemble, Accepted, SOURCE_LIMIT};
use crate::case::{Case, LentImage, LentSource};
use crate::image::{CODE, DATA, FREE, RESERVED};
use crate::listing::{list, NotListed};
use std::fmt::{self, Display, Formatter};

/// What is not as it should be.
pub type Difference = &'static str;

/// What an image or a source came to.
#[derive(Clone, Copy, Debug, PartialEq, Eq)]
pub enum Came {
    /// The source is refused, so that there is no image.
    NotAccepted,
    /// No listing is given.
    NotListed(NotListed),
    /// Listed, assembled to the same image and listed to the same text.
    Back,
}

/// A source that is accepted: its image always decodes, and comes back if its text is not too long.
pub fn source(lent: &LentSource) -> Result<Came, Difference> {
    let mut memory = lent.memory.row();
    let mut map = vec![lent.map_fill; lent.map_length];
    let accepted = match assemble(&lent.source, &mut memory, &mut map) {
        Ok(accepted) => accepted,
        Err(_) => return Ok(Came::NotAccepted),
    };
    if counts(&map) != accepted {
        return Err("the source's counts are not its map's");
    }
    match image(&memory, &map)? {
        Came::NotListed(NotListed::BadLoan | NotListed::NotDecoded(_)) => {
            Err("what was assembled is refused with 1 or 2")
        }
        came => Ok(came),
    }
}

/// Any image: if it is listed, it comes back.
pub fn image(memory: &[u16], map: &[u8]) -> Result<Came, Difference> {
    let text = match listed(memory, map)? {
        Ok(text) => text,
        Err(refused) => return Ok(Came::NotListed(refused)),
    };
    let mut again = (vec![0xabcd; memory.len()], vec![7; map.len()]);
    match assemble(&text, &mut again.0, &mut again.1) {
        Err(_) => return Err("the listing is refused"),
        Ok(accepted) if accepted != counts(map) => return Err("the listing's counts differ"),
        Ok(_) => {}
    }
    if again != (with_proviso(memory, map), map.to_vec()) {
        return Err("the listing's image differs");
    }
    match listed(&again.0, &again.1)? {
        Ok(same) if same == text => Ok(Came::Back),
        _ => Err("the image that came back is listed otherwise"),
    }
}

/// Lists into the largest room that can be of use; what is behind the text must stay.
fn listed(memory: &[u16], map: &[u8]) -> Result<Result<Vec<u8>, NotListed>, Difference> {
    let mut room = vec![0xff; SOURCE_LIMIT];
    let listed = list(memory, map, &mut room);
    let behind = room.split_off(*listed.as_ref().unwrap_or(&0));
    if behind.iter().any(|byte| *byte != 0xff) {
        return Err("bytes behind the text are written");
    }
    Ok(listed.map(|_| room))
}

fn counts(map: &[u8]) -> Accepted {
    let marked = |wanted: u8| map.iter().filter(|mark| **mark == wanted).count() as u32;
    Accepted { code: marked(CODE), data: marked(DATA), reserved: marked(RESERVED) }
}

/// The proviso made true: free and reserved cells hold 0.
fn with_proviso(memory: &[u16], map: &[u8]) -> Vec<u16> {
    let cells = memory.iter().zip(map);
    cells.map(|(cell, mark)| if matches!(*mark, FREE | RESERVED) { 0 } else { *cell }).collect()
}

/// How many of each there were.
#[derive(Debug, Default, PartialEq, Eq)]
pub struct Tally {
    pub made: u64,
    /// Sources that gave no image.
    pub not_accepted: u64,
    pub back: u64,
    /// Images that are not listed, by refusal, 1 to 3.
    pub refused: [u64; 4],
    pub differ: u64,
}

impl Tally {
    /// How many sources gave an image.
    pub fn accepted(&self) -> u64 {
        self.made - self.not_accepted
    }

    /// Tries a case that has a source or an image to list, and gives the difference if it has one.
    pub fn add(&mut self, case: &Case) -> Result<(), Difference> {
        let came = match case {
            Case::Assemble(lent) => source(lent),
            Case::List(lent) | Case::Print(lent) => lent_image(lent),
            _ => return Ok(()),
        };
        self.made += 1;
        match came {
            Ok(Came::NotAccepted) => self.not_accepted += 1,
            Ok(Came::NotListed(refused)) => self.refused[usize::from(refused.number())] += 1,
            Ok(Came::Back) => self.back += 1,
            Err(_) => self.differ += 1,
        }
        came.map(|_| ())
    }
}

fn lent_image(lent: &LentImage) -> Result<Came, Difference> {
    image(&lent.memory.row(), &lent.map())
}

/// What became of the images.
impl Display for Tally {
    fn fmt(&self, out: &mut Formatter) -> fmt::Result {
        let [_, badly_lent, not_decoded, too_long] = self.refused;
        write!(out, "{} listed, {} too long, ", self.back, too_long)?;
        write!(out, "{} not decoded, {} badly lent, ", not_decoded, badly_lent)?;
        write!(out, "{} differ", self.differ)
    }
}

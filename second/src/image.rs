//! The printed image (document 01, "The printed image"; document 02, K2: reserved cells).

use crate::machine::is_memory_size;
use std::fmt::Write;

/// What a cell is, in the map: "0 free, 1 code, 2 data", and by K2 3 reserved.
pub const FREE: u8 = 0;
pub const CODE: u8 = 1;
pub const DATA: u8 = 2;
pub const RESERVED: u8 = 3;

/// Library printing refuses, nothing written: 1 bad lengths or a mark above 3; 2 room short.
#[derive(Clone, Copy, Debug, PartialEq, Eq)]
#[repr(u8)]
pub enum NotPrinted {
    BadLoan = 1,
    RoomShort = 2,
}

/// Whether memory and map are an image's: lengths that fit, and no other mark than these. Printing
/// and listing refuse any other with 1.
pub fn is_image(memory: &[u16], map: &[u8]) -> bool {
    let lengths_fit = is_memory_size(memory.len()) && map.len() == memory.len();
    lengths_fit && map.iter().all(|mark| *mark <= RESERVED)
}

/// The image's text, or nothing for bad lengths or a mark above 3. The values of free and reserved
/// cells are not looked at; only marks count in `claimed`.
pub fn text(memory: &[u16], map: &[u8]) -> Option<String> {
    if !is_image(memory, map) {
        return None;
    }
    let claimed = map.iter().filter(|mark| **mark != FREE).count();
    let mut text = format!("version=1\nsize={}\nclaimed={}\n", memory.len(), claimed);
    for (address, (cell, mark)) in memory.iter().zip(map).enumerate() {
        let (name, value) = match *mark {
            CODE => ("code", *cell),
            DATA => ("data", *cell),
            // "printed as `cell=ADDR,reserved,0`"
            RESERVED => ("reserved", 0),
            _ => continue,
        };
        // Writing to a String does not fail.
        let _ = writeln!(text, "cell={},{},{}", address, name, value);
    }
    Some(text)
}

/// Prints into the room lent and gives the text's length. Room equal to the length is enough.
pub fn print(memory: &[u16], map: &[u8], room: &mut [u8]) -> Result<usize, NotPrinted> {
    let text = text(memory, map).ok_or(NotPrinted::BadLoan)?;
    let place = room.get_mut(..text.len()).ok_or(NotPrinted::RoomShort)?;
    place.copy_from_slice(text.as_bytes());
    Ok(text.len())
}

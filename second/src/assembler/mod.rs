//! The assembler: a source to memory and map, or the first refusal (document 01, "Refusing a
//! source").

pub mod labels;
pub mod placing;
pub mod settling;

use crate::machine::is_memory_size;
use crate::text::{lines, read_line, Column, Why};
use placing::Placing;

/// "Source is at most 32,768 bytes".
pub const SOURCE_LIMIT: usize = 32_768;

/// A line number, counted from 1; 0 where no line is to blame. Never a cell's address.
#[derive(Clone, Copy, Debug, PartialEq, Eq, PartialOrd, Ord)]
pub struct Line(pub u32);

/// A cell's address, 0..65,536: the last is no cell's, but the address after the last cell.
#[derive(Clone, Copy, Debug, PartialEq, Eq, PartialOrd, Ord)]
pub struct Address(pub u32);

/// Why a source is refused, by the papers' numbers.
#[derive(Clone, Copy, Debug, PartialEq, Eq)]
pub enum Refusal {
    BadLoan,
    SourceTooLong,
    OfLine(Why),
    LabelAgain,
    LabelNotKept,
    PastMemory,
    ClaimedTwice,
    LabelUnknown,
    TooFar,
}

impl Refusal {
    pub fn number(self) -> u8 {
        match self {
            Refusal::BadLoan => 1,
            Refusal::SourceTooLong => 2,
            Refusal::OfLine(why) => why.number(),
            Refusal::LabelAgain => 9,
            Refusal::LabelNotKept => 10,
            Refusal::PastMemory => 11,
            Refusal::ClaimedTwice => 12,
            Refusal::LabelUnknown => 13,
            Refusal::TooFar => 14,
        }
    }

    /// The operand's place in 16, 1 or 2, else 0.
    pub fn place(self) -> u8 {
        match self {
            Refusal::OfLine(why) => why.place(),
            _ => 0,
        }
    }
}

/// A refusal, the line it names, and the column "where the fault starts".
#[derive(Clone, Copy, Debug, PartialEq, Eq)]
pub struct Refused {
    pub refusal: Refusal,
    pub line: Line,
    pub column: Column,
}

impl Refused {
    /// A refusal that no line is to blame for: "1 and 2 have column 0".
    pub fn of_no_line(refusal: Refusal) -> Refused {
        Refused { refusal, line: Line(0), column: Column::NONE }
    }
}

/// "acceptance returns 0, line 0 and the numbers of code and data cells", and by document 02, K2,
/// that of reserved cells "as a third count".
#[derive(Clone, Copy, Debug, PartialEq, Eq)]
pub struct Accepted {
    pub code: u32,
    pub data: u32,
    pub reserved: u32,
}

/// Assembles. Acceptance rewrites the whole memory and the whole map; a refusal touches neither.
pub fn assemble(source: &[u8], memory: &mut [u16], map: &mut [u8]) -> Result<Accepted, Refused> {
    if !is_memory_size(memory.len()) || map.len() != memory.len() {
        return Err(Refused::of_no_line(Refusal::BadLoan));
    }
    if source.len() > SOURCE_LIMIT {
        return Err(Refused::of_no_line(Refusal::SourceTooLong));
    }
    let mut placing = Placing::new(memory.len());
    place_lines(source, &mut placing)?;
    let placed = placing.finish()?;
    let image = settling::settle(placed)?;
    memory.copy_from_slice(&image.cells);
    map.copy_from_slice(&image.marks);
    Ok(image.counts())
}

/// "line by line up to END": what stands below it is not even read.
fn place_lines<'s>(source: &'s [u8], placing: &mut Placing<'s>) -> Result<(), Refused> {
    for line in lines(source) {
        placing.next_line();
        let read = read_line(line);
        if let Some(name) = read.label {
            placing.label(name)?;
        }
        match read.statement {
            Err(fault) => {
                return Err(placing.refused(Refusal::OfLine(fault.why), fault.column));
            }
            Ok(None) => {}
            Ok(Some(statement)) => {
                placing.place(statement)?;
                if placing.has_ended() {
                    break;
                }
            }
        }
    }
    Ok(())
}

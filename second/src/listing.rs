//! Memory and map given back as source (document 02, K1; K2: reserved cells).

use crate::assembler::{Address, SOURCE_LIMIT};
use crate::image::{is_image, CODE, FREE, RESERVED};
use crate::isa::{decode, Instruction, Operand};
use crate::machine::REGISTER_NAMES;
use std::fmt::{self, Display, Formatter, Write};

/// "1 bad lengths or a map mark outside" 0..3 (K2); "2 a code run that doesn't decode within itself,
/// with the address of the first instruction that fails; 3 text above the room lent or 32,768
/// bytes".
#[derive(Clone, Copy, Debug, PartialEq, Eq)]
pub enum NotListed {
    BadLoan,
    NotDecoded(Address),
    TooLong,
}

impl NotListed {
    pub fn number(self) -> u8 {
        match self {
            NotListed::BadLoan => 1,
            NotListed::NotDecoded(_) => 2,
            NotListed::TooLong => 3,
        }
    }

    /// The address that 2 has with it; 0 for the others.
    pub fn address(self) -> u32 {
        match self {
            NotListed::NotDecoded(Address(address)) => address,
            NotListed::BadLoan | NotListed::TooLong => 0,
        }
    }
}

/// Lists into the room lent and gives the text's length. Room equal to the length is enough, and
/// bytes behind the text stay as they were.
pub fn list(memory: &[u16], map: &[u8], room: &mut [u8]) -> Result<usize, NotListed> {
    let text = text(memory, map)?;
    if text.len() > SOURCE_LIMIT {
        return Err(NotListed::TooLong);
    }
    let place = room.get_mut(..text.len()).ok_or(NotListed::TooLong)?;
    place.copy_from_slice(text.as_bytes());
    Ok(text.len())
}

/// The whole text, however long: all of the map is decoded before the text's length counts.
pub fn text(memory: &[u16], map: &[u8]) -> Result<String, NotListed> {
    if !is_image(memory, map) {
        return Err(NotListed::BadLoan);
    }
    let mut text = String::new();
    let mut follows_on = 0;
    for run in runs(map) {
        if run.start != follows_on {
            line(&mut text, format_args!("ORG {}", run.start));
        }
        let cells = &memory[run.start..run.end];
        match run.mark {
            CODE => list_code(&mut text, run.start, cells)?,
            RESERVED => list_reserved(&mut text, cells),
            _ => cells.iter().for_each(|cell| line(&mut text, format_args!("DATA {}", cell))),
        }
        follows_on = run.end;
    }
    line(&mut text, format_args!("END"));
    Ok(text)
}

/// A longest row of cells of one mark that is not 0.
struct Run {
    mark: u8,
    start: usize,
    end: usize,
}

fn runs(map: &[u8]) -> Vec<Run> {
    let mut runs: Vec<Run> = Vec::new();
    for (at, mark) in map.iter().copied().enumerate().filter(|(_, mark)| *mark != FREE) {
        match runs.last_mut() {
            Some(run) if run.end == at && run.mark == mark => run.end += 1,
            _ => runs.push(Run { mark, start: at, end: at + 1 }),
        }
    }
    runs
}

/// One instruction a line. Only the run's own cells are there to be decoded, so that an
/// instruction whose words lie partly behind them fails.
fn list_code(text: &mut String, start: usize, cells: &[u16]) -> Result<(), NotListed> {
    let mut at = 0;
    while at < cells.len() {
        let failed = NotListed::NotDecoded(Address((start + at) as u32));
        let instruction = decode(&cells[at..]).map_err(|_| failed)?;
        line(text, format_args!("{}", Written(&instruction)));
        at += usize::from(instruction.length());
    }
    Ok(())
}

/// The most cells that one RES can take.
const MOST_RESERVED: usize = 65_535;

/// "K1 lists a run as `RES n` (a run of 65,536 as `RES 65535`, `RES 1`)". What its cells hold is not
/// looked at.
fn list_reserved(text: &mut String, cells: &[u16]) {
    cells.chunks(MOST_RESERVED).for_each(|part| line(text, format_args!("RES {}", part.len())));
}

/// "LF after each". Writing to a String does not fail.
fn line(text: &mut String, written: fmt::Arguments) {
    let _ = writeln!(text, "{}", written);
}

/// An instruction as it is written: "one space behind the opcode, none behind a comma or
/// elsewhere".
struct Written<'i>(&'i Instruction);

impl Display for Written<'_> {
    fn fmt(&self, out: &mut Formatter) -> fmt::Result {
        let Instruction { opcode, first, second } = self.0;
        out.write_str(opcode.name())?;
        for (before, operand) in [(' ', first), (',', second)] {
            if *operand != Operand::Absent {
                out.write_char(before)?;
                write_operand(operand, out)?;
            }
        }
        Ok(())
    }
}

/// "decimals, displacements signed": immediates and addresses are 0..65535.
fn write_operand(operand: &Operand, out: &mut Formatter) -> fmt::Result {
    let register = |code: u16| REGISTER_NAMES[usize::from(code)];
    match *operand {
        Operand::Absent => Ok(()),
        Operand::Immediate(value) => write!(out, "#{}", value),
        Operand::Register(code) => write!(out, ".{}", register(code)),
        Operand::Memory(address) => write!(out, "/{}", address),
        Operand::Indirect(code) => write!(out, "[.{}]", register(code)),
        Operand::IndexedIx(displacement) => write!(out, "#{}[.IX]", displacement as i16),
        Operand::IndexedIy(displacement) => write!(out, "#{}[.IY]", displacement as i16),
        Operand::IndexedSp(displacement) => write!(out, "#{}[.SP]", displacement as i16),
        Operand::Relative(displacement) => write!(out, "${}", displacement as i16),
    }
}

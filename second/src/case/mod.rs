//! Cases: what is asked, one a line (docs/COMPARED.md has the format).

pub mod read;
pub mod write;

pub use read::read;

/// No memory or map in a case is larger: enough to pass every limit of the papers.
pub const CELLS_LIMIT: usize = 65_600;

/// No output room is larger: enough for the longest image, 65,536 cell lines.
pub const ROOM_LIMIT: usize = 2_000_000;

/// A lent memory: cell i holds (fill + i*step) modulo 65536, then some cells are overwritten.
#[derive(Clone, Debug, PartialEq, Eq)]
pub struct LentMemory {
    pub cells: usize,
    pub fill: u16,
    pub step: u16,
    pub overwritten: Vec<(usize, u16)>,
}

impl LentMemory {
    pub fn row(&self) -> Vec<u16> {
        let filled = |at: usize| self.fill.wrapping_add((at as u16).wrapping_mul(self.step));
        let mut row: Vec<u16> = (0..self.cells).map(filled).collect();
        for (address, value) in &self.overwritten {
            if let Some(cell) = row.get_mut(*address) {
                *cell = *value;
            }
        }
        row
    }
}

/// A machine's record with everything lent to it.
#[derive(Clone, Debug, PartialEq, Eq)]
pub struct LentMachine {
    pub memory: LentMemory,
    pub registers: [u16; 16],
    pub stop_code: u8,
    pub input: Vec<u8>,
    pub input_position: u64,
    pub output_length: usize,
    pub output_fill: u8,
    pub output_position: u64,
}

/// What library printing is lent, and listing too.
#[derive(Clone, Debug, PartialEq, Eq)]
pub struct LentImage {
    pub memory: LentMemory,
    pub map_length: usize,
    pub map_fill: u8,
    pub marks: Vec<(usize, u8)>,
    pub room: usize,
    pub room_fill: u8,
}

impl LentImage {
    pub fn map(&self) -> Vec<u8> {
        let mut map = vec![self.map_fill; self.map_length];
        for (address, mark) in &self.marks {
            if let Some(byte) = map.get_mut(*address) {
                *byte = *mark;
            }
        }
        map
    }
}

/// A source with the memory and the map it is to be assembled into.
#[derive(Clone, Debug, PartialEq, Eq)]
pub struct LentSource {
    /// Without overwritten cells: what memory held before plays no part.
    pub memory: LentMemory,
    pub map_length: usize,
    pub map_fill: u8,
    pub source: Vec<u8>,
}

#[derive(Clone, Debug, PartialEq, Eq)]
pub enum Case {
    Assemble(LentSource),
    Encode {
        opcode: u8,
        operands: [(u8, u16); 2],
    },
    Decode(Vec<u16>),
    Step(LentMachine),
    Run(u32, LentMachine),
    Print(LentImage),
    List(LentImage),
    /// A single line, without an LF at its end.
    Line(Vec<u8>),
}

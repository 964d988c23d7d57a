//! Sources in which RES meets other claims, the last cell and the end of addresses (document 02,
//! K2, refusals 6, 11 and 12).

use super::large;
use super::random::Random;

/// Names for labels at RES and others; operands take them, known or not.
const NAMES: [&str; 6] = ["buf", "tab", "x", "END", "Tab", "r_1"];

/// Statements in the making, with the cells that they claim, from and to.
struct Blocks<'r> {
    random: &'r mut Random,
    text: String,
    cells: usize,
    address: usize,
    claimed: Vec<(usize, usize)>,
    named: Vec<&'static str>,
}

/// A source for a memory of so many cells: blocks beside each other as a rule, now and then one over
/// another or past the end.
pub fn source(random: &mut Random, cells: usize) -> Vec<u8> {
    let cells = cells.clamp(1, 65_536);
    let (text, claimed, named) = (String::new(), Vec::new(), Vec::new());
    let mut blocks = Blocks { random, text, cells, address: 0, claimed, named };
    for _ in 0..blocks.random.between(2, 7) {
        blocks.block();
    }
    blocks.finish();
    blocks.text.into_bytes()
}

/// A source for the largest memory, about the address 65,536 behind RES.
pub fn at_the_top(random: &mut Random) -> Vec<u8> {
    let start = match random.below(120) {
        0 => random.text(&["RES 65535\nRES 1\n", "RES 65535\n"]).to_string(),
        1..=20 => {
            let cells = random.between(1, 40);
            format!("ORG {}\nRES {}\n", 65_536 - cells, cells + random.below(2))
        }
        21..=30 => "ORG 65535\nHALT\n".to_string(),
        31..=40 => "ORG 65533\nRES 1\nRES 0\nRES 2\n".to_string(),
        41..=50 => "ORG 65535\nx: RES 1\n".to_string(),
        51..=60 => "HALT\nORG 65534\nRES 2\n".to_string(),
        _ => random.text(&["ORG 65535\nRES 1\n", "ORG 65534\nRES 2\n"]).to_string(),
    };
    format!("{}{}", start, large::behind_the_last_cell(random)).into_bytes()
}

impl Blocks<'_> {
    fn put(&mut self, text: &str) {
        self.text.push_str(text);
    }

    fn block(&mut self) {
        let (statement, cells) = self.statement();
        let start = self.start(cells);
        if start != self.address || self.random.one_in(6) {
            self.put(&format!("ORG {}\n", start));
        }
        self.label();
        self.put(&statement);
        self.put("\n");
        self.address = start + cells;
        if cells > 0 {
            self.claimed.push((start, start + cells));
        }
    }

    /// A statement with how many cells it claims, RES every other time.
    fn statement(&mut self) -> (String, usize) {
        match self.random.below(10) {
            0..=4 => self.reserve(),
            5 => (self.random.text(&["NOP", "HALT", "RET"]).to_string(), 1),
            6 => (format!("{}{}", self.random.text(&["PUSH #", "BR $", "CALL /"]), self.name()), 2),
            7 => (format!("MOVE #{},#{}[.IX]", self.name(), self.name()), 3),
            8 => (self.random.text(&["DATA \"ab\"", "DATA 1,-1,0x1F"]).to_string(), 3),
            _ => (self.random.text(&["DATA 0", "DATA \"\""]).to_string(), 1),
        }
    }

    fn reserve(&mut self) -> (String, usize) {
        let cells = match self.random.below(12) {
            0 | 1 => 0,
            2 => self.random.between(5, 60),
            3 => self.room(),
            _ => self.random.between(1, 4),
        };
        let written = match self.random.below(10) {
            0 => format!("res 0x{:x}", cells),
            1 => format!("RES ({}+3)-3", cells),
            2 => format!("Res\t{}", cells),
            _ => format!("RES {}", cells),
        };
        (written, cells)
    }

    /// The cells from the current address up to the last, if they are few; one more now and then.
    fn room(&mut self) -> usize {
        let room = self.cells.saturating_sub(self.address) + usize::from(self.random.one_in(4));
        if room <= 300 {
            room
        } else {
            self.random.between(1, 300)
        }
    }

    fn name(&mut self) -> &'static str {
        self.random.text(&NAMES)
    }

    fn label(&mut self) {
        let name = self.name();
        if self.random.one_in(3) && (!self.named.contains(&name) || self.random.one_in(30)) {
            self.named.push(name);
            let parted = self.random.text(&[": ", ":", ":\n", ": ; c\n"]);
            self.put(name);
            self.put(parted);
        }
    }

    /// Where so many cells are put: seldom over others or past the end, RES 0 anywhere.
    fn start(&mut self, cells: usize) -> usize {
        let end = self.cells.saturating_sub(cells);
        let start = match self.random.below(20) {
            0 => self.over(cells),
            1 => end + self.random.below(3),
            2 if cells == 0 => self.random.below(65_536),
            2..=4 => end,
            5..=10 => self.beside(cells),
            _ => self.address,
        };
        let start = start.min(65_535);
        if self.is_free(start, cells) || self.random.one_in(8) {
            start
        } else {
            self.beside(cells).min(65_535)
        }
    }

    fn is_free(&self, start: usize, cells: usize) -> bool {
        let shares = |(from, to): &(usize, usize)| start < *to && *from < start + cells;
        cells == 0 || (start + cells <= self.cells && !self.claimed.iter().any(shares))
    }

    /// Directly below or above a block, where it is free if it is so anywhere.
    fn beside(&mut self, cells: usize) -> usize {
        let mut places: Vec<usize> = Vec::new();
        for (from, to) in &self.claimed {
            places.extend([from.saturating_sub(cells), *to]);
        }
        places.push(self.address);
        let free: Vec<usize> =
            places.iter().copied().filter(|start| self.is_free(*start, cells)).collect();
        *self.random.pick(if free.is_empty() { &places } else { &free })
    }

    /// At a block's first or last cell, or sharing one cell with it.
    fn over(&mut self, cells: usize) -> usize {
        if self.claimed.is_empty() {
            return self.address;
        }
        let (from, to) = *self.random.pick(&self.claimed);
        match self.random.below(4) {
            0 => from,
            1 => to - 1,
            2 => (from + 1).saturating_sub(cells),
            _ => self.random.between(from, to - 1),
        }
    }

    /// The names that are not yet labels, mostly; then END or not.
    fn finish(&mut self) {
        for name in NAMES {
            if self.named.contains(&name) || self.random.one_in(40) {
                continue;
            }
            let bound = self.random.text(&[": EQU 3\n", ": RES 0\n", ":\n", ": EQU 0-2\n"]);
            self.put(name);
            self.put(bound);
        }
        let end = self.random.text(&["", "", "END\n", "END\nRES 1\nORG 0\nRES 1", "RES 0"]);
        self.put(end);
    }
}

//! Sources made by the grammar: every statement, operand kind and label use (document 01,
//! "Rules of writing"). Most of them are accepted.

use super::draw;
use super::random::Random;
use crate::isa::{opcode, Operand, Place};
use crate::machine::REGISTER_NAMES;

/// Names for labels: some look like other words.
const NAMES: [&str; 20] = [
    "x", "y", "z", "loop", "Loop", "END", "A", "R1", "_", "_1", "a", "dato", "Seguir", "NOP",
    "ORG", "x1", "bucle_2", "SP", "data", "L0",
];

/// A source in the making.
pub struct Author<'r> {
    pub random: &'r mut Random,
    pub text: Vec<u8>,
    cells: usize,
    /// The current address, as far as the author keeps count.
    address: usize,
    defined: Vec<&'static str>,
    used: Vec<&'static str>,
}

/// A source for a memory of so many cells.
pub fn source(random: &mut Random, cells: usize) -> Vec<u8> {
    let mut author = Author {
        random,
        text: Vec::new(),
        cells,
        address: 0,
        defined: Vec::new(),
        used: Vec::new(),
    };
    for _ in 0..author.random.between(1, 9) {
        author.line();
    }
    if author.random.below(12) != 0 {
        author.define_used();
    }
    author.finish();
    author.text
}

impl Author<'_> {
    fn put(&mut self, text: &str) {
        self.text.extend_from_slice(text.as_bytes());
    }

    /// Blanks that may stand between two tokens: none, as a rule.
    fn blanks(&mut self) {
        let blanks = match self.random.below(12) {
            0 => " ",
            1 => "\t",
            2 => self.random.text(&["\r", "  ", " \t \r", "\r\t"]),
            _ => "",
        };
        self.put(blanks);
    }

    /// A word that does not keep case.
    fn word(&mut self, word: &str) {
        match self.random.below(6) {
            0 => self.put(&word.to_ascii_lowercase()),
            1 => {
                for byte in word.bytes() {
                    let low = self.random.one_in(2);
                    self.text.push(if low { byte.to_ascii_lowercase() } else { byte });
                }
            }
            _ => self.put(word),
        }
    }

    fn line(&mut self) {
        self.blanks();
        if self.random.one_in(4) {
            self.label();
        }
        match self.random.below(20) {
            0 => {}
            1 => self.org(),
            2 | 3 => self.equ(),
            4 => self.res(),
            5..=8 => self.data(),
            _ => self.instruction(),
        }
        self.end_line();
    }

    /// Blanks, a comment with any bytes now and then, and LF.
    fn end_line(&mut self) {
        self.blanks();
        if self.random.one_in(10) {
            self.put(";");
            for _ in 0..self.random.below(6) {
                let byte = self.random.byte();
                self.text.push(if byte == b'\n' { b'"' } else { byte });
            }
        }
        self.put("\n");
    }

    fn label(&mut self) {
        let name = self.random.text(&NAMES);
        if !self.defined.contains(&name) || self.random.one_in(40) {
            self.defined.push(name);
            self.put(name);
            self.put(":");
            self.blanks();
        }
    }

    /// Goes on where there is room, now and then to an edge or back onto what is claimed.
    fn org(&mut self) {
        let address = match self.random.below(12) {
            0 => usize::from(draw::address(self.random, self.cells)),
            1 | 2 => self.random.below(self.address + 1),
            _ => self.address + self.random.below(self.cells.saturating_sub(self.address) / 2 + 1),
        };
        let address = address.min(65_535);
        self.word("ORG");
        self.put(" ");
        self.valued(address as i64);
        self.address = address;
    }

    fn equ(&mut self) {
        self.word("EQU");
        self.put(" ");
        if self.random.below(3) == 0 {
            self.expression(3);
        } else {
            let value = i64::from(draw::word(self.random));
            self.valued(value);
        }
    }

    fn res(&mut self) {
        let cells = match self.random.below(16) {
            0 => usize::from(draw::word(self.random)),
            1 => 65_536usize.saturating_sub(self.address).min(65_535),
            _ => self.random.below(4),
        };
        self.word("RES");
        self.put(" ");
        self.valued(cells as i64);
        self.address += cells;
    }

    /// An expression that has this value.
    fn valued(&mut self, value: i64) {
        let text = match self.random.below(10) {
            0 => format!("0x{:x}", value),
            1 => format!("({})", value),
            2 if value >= 2 => format!("{}+{}", value - 2, 2),
            3 => format!("2*({}/2)+{}%2", value, value),
            4 => format!("( {} + 7 ) - 7", value),
            5 => format!("0-(0-{})", value),
            _ => value.to_string(),
        };
        self.put(&text);
    }

    /// Any expression; its value may be anything, or none.
    fn expression(&mut self, depth: usize) {
        for at in 0..self.random.between(1, 3) {
            if at > 0 {
                let mark = self.random.text(&["+", "-", "*", "/", "%"]);
                self.put(mark);
                self.blanks();
            }
            if depth > 0 && self.random.below(3) == 0 {
                self.put("(");
                self.expression(depth - 1);
                self.put(")");
            } else {
                let number = match self.random.below(4) {
                    0 => draw::word(self.random).to_string(),
                    1 => format!("0x{:X}", self.random.below(300)),
                    _ => self.random.below(12).to_string(),
                };
                self.put(&number);
            }
            self.blanks();
        }
    }

    fn data(&mut self) {
        self.word("DATA");
        self.put(" ");
        let items = self.random.between(1, 3);
        for at in 0..items {
            if at > 0 {
                self.put(",");
                self.blanks();
            }
            if self.random.one_in(3) {
                self.string();
            } else {
                self.number();
                self.address += 1;
            }
            self.blanks();
        }
    }

    fn string(&mut self) {
        self.put("\"");
        for _ in 0..self.random.below(5) {
            match self.random.between(31, 126) as u8 {
                31 | b'\\' | b'"' => self.put("\\n"),
                byte => self.text.push(byte),
            }
            self.address += 1;
        }
        self.put("\"");
        self.address += 1;
    }

    fn number(&mut self) {
        let word = draw::word(self.random);
        let text = match self.random.below(8) {
            0 => format!("0x{:x}", word),
            1 => format!("0x00{:X}", word),
            2 => format!("00{}", word),
            3 | 4 => (word as i16).to_string(),
            5 if self.random.one_in(20) => (u32::from(word) * 3).to_string(),
            _ => word.to_string(),
        };
        self.put(&text);
    }

    /// A number or a label after its mark; decimals of displacements are signed.
    fn value(&mut self, displacement: bool) {
        self.blanks();
        if self.random.one_in(3) {
            let name = self.random.text(&NAMES);
            self.used.push(name);
            self.put(name);
        } else if displacement {
            let word = draw::word(self.random) as i16;
            self.put(&word.to_string());
        } else {
            self.number();
        }
        self.blanks();
    }

    fn instruction(&mut self) {
        let opcode = *self.random.pick(&opcode::ALL);
        let places = opcode.places();
        self.word(opcode.name());
        self.blanks();
        self.operand(places.0);
        if places.1 != Place::Empty {
            self.put(",");
            self.blanks();
            self.operand(places.1);
        }
        self.address +=
            1 + usize::from(places.0 != Place::Empty) + usize::from(places.1 != Place::Empty);
    }

    fn operand(&mut self, place: Place) {
        let kind = match self.random.below(50) {
            0 => Operand::Relative(0),
            _ => draw::allowed_operand(self.random, place, 0),
        };
        match kind {
            Operand::Absent => {}
            Operand::Immediate(_) => {
                self.put("#");
                self.value(false);
            }
            Operand::Register(_) => self.register(),
            Operand::Memory(_) => {
                self.put("/");
                self.value(false);
            }
            Operand::Relative(_) => {
                self.put("$");
                self.value(true);
            }
            Operand::Indirect(_) => self.bracketed(None),
            Operand::IndexedIx(_) => self.indexed("IX"),
            Operand::IndexedIy(_) => self.indexed("IY"),
            Operand::IndexedSp(_) => self.indexed("SP"),
        }
    }

    fn indexed(&mut self, register: &str) {
        self.put("#");
        self.value(true);
        self.bracketed(Some(register));
    }

    fn bracketed(&mut self, register: Option<&str>) {
        self.put("[");
        self.blanks();
        match register {
            Some(name) => {
                self.put(".");
                self.word(name);
            }
            None => self.register(),
        }
        self.blanks();
        self.put("]");
    }

    fn register(&mut self) {
        self.put(".");
        self.blanks();
        let name = self.random.text(&REGISTER_NAMES);
        self.word(name);
    }

    /// Lines for the labels that were used but not defined.
    fn define_used(&mut self) {
        for name in std::mem::take(&mut self.used) {
            if self.defined.contains(&name) {
                continue;
            }
            self.defined.push(name);
            self.put(name);
            self.put(":");
            match self.random.below(4) {
                0 => {}
                1 => self.equ(),
                2 => self.put(" RES 0"),
                _ => {
                    let near = self.random.below(self.address + 2);
                    self.put(&format!(" EQU {}", near));
                }
            }
            self.end_line();
        }
    }

    /// END with anything below it, no last LF, or nothing more.
    fn finish(&mut self) {
        match self.random.below(8) {
            0 => {
                self.word("END");
                let below =
                    self.random.text(&["", "\n", "\nFOO", " junk \"\n\u{1}", "\nx: NOP\nx:\n"]);
                self.put(below);
            }
            1 => {
                self.text.pop();
            }
            _ => {}
        }
    }
}

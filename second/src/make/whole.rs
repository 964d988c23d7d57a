//! Whole programs: nearly all are accepted. Labels stand in every kind of operand, forward and
//! back, two in one instruction; several wait for one statement; blocks are laid back and forth.

use super::draw;
use super::random::Random;
use crate::isa::{opcode, Operand, Place};
use crate::machine::REGISTER_NAMES;

/// Names of all lengths; some look like other words, some differ little.
const NAMES: [&str; 32] = [
    "x",
    "X",
    "y",
    "END",
    "loop",
    "Loop",
    "loop1",
    "loop_1",
    "_",
    "__",
    "_0",
    "a",
    "A",
    "R1",
    "SP",
    "dato",
    "datos",
    "Seguir",
    "NOP",
    "DATA",
    "ORG",
    "tabla",
    "Tabla2",
    "cuenta",
    "fin",
    "i",
    "j",
    "k",
    "n0",
    "bucle_principal",
    "siguiente",
    "PC",
];

/// A program in the making. It keeps count of addresses, so that nothing is claimed twice.
struct Program<'r> {
    random: &'r mut Random,
    text: String,
    cells: usize,
    /// The current address, and the first one above all blocks.
    address: usize,
    top: usize,
    /// Cells that ORG left free below the top: start and length.
    holes: Vec<(usize, usize)>,
    /// All labels, and how many of them have been written.
    names: Vec<String>,
    written: usize,
}

/// A source for a memory of so many cells.
pub fn source(random: &mut Random, cells: usize) -> Vec<u8> {
    let names = names(random);
    let mut program = Program {
        random,
        text: String::new(),
        cells: cells.clamp(1, 65_536),
        address: 0,
        top: 0,
        holes: Vec::new(),
        names,
        written: 0,
    };
    for _ in 0..program.random.between(2, 14) {
        program.line();
    }
    program.finish();
    program.text.into_bytes()
}

/// Up to eight labels, seldom one of 63 or 64 bytes.
fn names(random: &mut Random) -> Vec<String> {
    let mut names: Vec<String> = Vec::new();
    for _ in 0..random.between(1, 8) {
        let name = match random.below(60) {
            0 => "n".repeat(random.between(63, 64)),
            _ => random.text(&NAMES).to_string(),
        };
        if !names.contains(&name) {
            names.push(name);
        }
    }
    names
}

impl Program<'_> {
    fn put(&mut self, text: &str) {
        self.text.push_str(text);
    }

    fn blank(&mut self) {
        let blank = match self.random.below(14) {
            0 => " ",
            1 => self.random.text(&["\t", "\r", "  "]),
            _ => "",
        };
        self.put(blank);
    }

    fn end_line(&mut self) {
        let end = match self.random.below(16) {
            0 => " ; x: \"\n",
            1 => ";\n",
            2 => "\r\n",
            3 => "\n\n",
            _ => "\n",
        };
        self.put(end);
    }

    /// How many cells are free from the current address on.
    fn room(&self) -> usize {
        self.cells.saturating_sub(self.address)
    }

    /// The next label that is not yet written, if there is one.
    fn label(&mut self) {
        if let Some(name) = self.names.get(self.written).cloned() {
            self.written += 1;
            self.put(&name);
            self.put(":");
            self.blank();
        }
    }

    fn line(&mut self) {
        self.blank();
        // labels that wait on lines of their own
        while self.random.one_in(6) && self.written + 1 < self.names.len() {
            self.label();
            self.end_line();
        }
        if self.random.below(5) < 2 {
            self.label();
        }
        match self.random.below(24) {
            0 | 1 => self.equ(),
            2 | 3 => self.reserve(),
            4 => self.go_up(),
            5 if !self.holes.is_empty() => self.fill_a_hole(),
            6..=9 if self.room() > 0 => self.data(),
            _ => self.instruction(),
        }
        self.end_line();
    }

    fn equ(&mut self) {
        let value = match self.random.below(4) {
            0 => draw::word(self.random).to_string(),
            1 => format!("0x{:X}", self.random.below(256)),
            2 => format!("{}*({}+2)", self.random.below(9), self.random.below(9)),
            _ => self.random.below(100).to_string(),
        };
        let word = self.random.text(&["EQU ", "equ ", "Equ\t"]);
        self.put(word);
        self.put(&value);
    }

    /// RES within the room that is left, seldom of many cells.
    fn reserve(&mut self) {
        let most = if self.random.one_in(12) { 120 } else { 4 };
        let cells = self.random.below(most.min(self.room()) + 1);
        let word = self.random.text(&["RES ", "RES ", "res\t"]);
        self.put(word);
        self.put(&cells.to_string());
        self.claim(cells);
    }

    /// ORG to a place above all blocks.
    fn go_up(&mut self) {
        let far = match self.random.below(8) {
            0 => self.cells.saturating_sub(self.top + 6),
            _ => self.random.below(6),
        };
        let free = self.cells.saturating_sub(self.top);
        self.address = self.top;
        self.leave(far.min(free).min(65_535 - self.top.min(65_535)));
        self.put(&format!("ORG {}", self.address));
    }

    fn leave(&mut self, cells: usize) {
        if cells > 0 && self.address >= self.top {
            self.holes.push((self.address, cells));
        }
        self.address += cells;
        self.top = self.top.max(self.address);
    }

    /// ORG back into a hole, cells that end just where it does or before, and ORG up again.
    fn fill_a_hole(&mut self) {
        let at = self.random.below(self.holes.len());
        let (start, length) = self.holes.swap_remove(at);
        let cells = match self.random.below(12) {
            0 => length.min(12) + 1,
            1 => length.min(12),
            _ => self.random.between(1, length.min(12)),
        };
        let start =
            if self.random.one_in(2) { start } else { start + length.saturating_sub(cells) };
        self.put(&format!("ORG {}\n", start));
        let filled = if self.random.one_in(3) {
            format!("RES {}", cells)
        } else {
            let values: Vec<String> =
                (0..cells).map(|_| (draw::word(self.random) as i16).to_string()).collect();
            format!("DATA {}", values.join(","))
        };
        self.put(&format!("{}\nORG {}", filled, self.top.min(65_535)));
        self.address = self.top.min(65_535);
    }

    fn claim(&mut self, cells: usize) {
        self.address += cells;
        self.top = self.top.max(self.address);
    }

    fn data(&mut self) {
        let mut items = Vec::new();
        for _ in 0..self.random.between(1, 4) {
            let room = self.room();
            if room == 0 {
                break;
            }
            match self.random.below(4) {
                0 if room >= 8 => {
                    let text = self.random.text(&["", "a", "hola\\n", "A;B", "~ #"]);
                    self.claim(text.len() + 1 - text.matches('\\').count());
                    items.push(format!("\"{}\"", text));
                }
                1 => {
                    self.claim(1);
                    items.push(format!("0x{:x}", self.random.word()));
                }
                _ => {
                    self.claim(1);
                    items.push((draw::word(self.random) as i16).to_string());
                }
            }
        }
        let word = self.random.text(&["DATA ", "data\t", "DATA "]);
        self.put(word);
        self.put(&items.join(","));
    }

    /// Any opcode whose cells still fit, its operands mostly labels.
    fn instruction(&mut self) {
        let length = |opcode: &opcode::Opcode| {
            let places = opcode.places();
            1 + usize::from(places.0 != Place::Empty) + usize::from(places.1 != Place::Empty)
        };
        let fitting: Vec<opcode::Opcode> =
            opcode::ALL.iter().filter(|opcode| length(opcode) <= self.room()).copied().collect();
        if fitting.is_empty() {
            return self.equ();
        }
        let opcode = *self.random.pick(&fitting);
        let places = opcode.places();
        let name = if self.random.one_in(6) {
            opcode.name().to_ascii_lowercase()
        } else {
            opcode.name().to_string()
        };
        self.put(&name);
        self.claim(length(&opcode));
        if places.0 != Place::Empty {
            self.put(" ");
            self.operand(places.0);
        }
        if places.1 != Place::Empty {
            self.put(",");
            self.blank();
            self.operand(places.1);
        }
    }

    fn operand(&mut self, place: Place) {
        let kind = draw::allowed_operand(self.random, place, 0);
        // three in four name a label where the kind can
        let named = self.random.below(4) != 0;
        let register = self.random.text(&REGISTER_NAMES);
        match kind {
            Operand::Absent => {}
            Operand::Immediate(_) => self.value("#", named),
            Operand::Memory(_) => self.value("/", named),
            Operand::Relative(_) => self.value("$", named),
            Operand::Register(_) => self.put(&format!(".{}", register)),
            Operand::Indirect(_) => self.put(&format!("[.{}]", register)),
            Operand::IndexedIx(_) => self.indexed("[.IX]", named),
            Operand::IndexedIy(_) => self.indexed("[.IY]", named),
            Operand::IndexedSp(_) => self.indexed("[.SP]", named),
        }
        self.blank();
    }

    fn indexed(&mut self, register: &str, named: bool) {
        self.value("#", named);
        self.blank();
        self.put(register);
    }

    /// A mark, then a label or a number that suits every kind.
    fn value(&mut self, mark: &str, named: bool) {
        self.put(mark);
        self.blank();
        let value = if named && self.random.one_in(150) {
            self.nearly_known()
        } else if named {
            self.random.pick(&self.names).clone()
        } else {
            match self.random.below(4) {
                0 => format!("0x{:x}", draw::word(self.random)),
                _ => (draw::word(self.random) as i16).to_string(),
            }
        };
        self.put(&value);
    }

    /// A label's name in other letters, with a byte less or more: mostly no label's.
    fn nearly_known(&mut self) -> String {
        let name = self.random.pick(&self.names).clone();
        match self.random.below(4) {
            0 => name.to_ascii_lowercase(),
            1 => name.to_ascii_uppercase(),
            2 if name.len() > 1 => name[..name.len() - 1].to_string(),
            _ => name + "_",
        }
    }

    /// The labels that are left, by EQU, by a statement or waiting for the end; then END or not.
    fn finish(&mut self) {
        while self.written < self.names.len() {
            self.label();
            match self.random.below(4) {
                0 => self.equ(),
                1 => self.put("RES 0"),
                _ => {}
            }
            self.end_line();
        }
        let end = self.random.text(&[
            "",
            "",
            "",
            "END",
            "end\n",
            "END\nFOO \"\n",
            "END\nx: NOP\nx:",
            "END: ; c",
            "last: END",
        ]);
        if !(end == "END: ; c" && self.names.iter().any(|name| name == "END")) {
            self.put(end);
        }
    }
}

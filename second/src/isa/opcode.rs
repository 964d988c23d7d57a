//! The opcodes, in one table that everything else cites (document 01, "Layout").

use super::Operand;

/// What an operand is for. Each place has its own list of modes.
#[derive(Clone, Copy, Debug, PartialEq, Eq)]
pub enum Place {
    /// No operand stands here.
    Empty,
    /// "Modes 1-7 are allowed for sources".
    Source,
    /// "2-7 for MOVE's second, POP, INC, DEC, NEG, NOT, INCHAR, ININT".
    Destination,
    /// "3-7 for INSTR, WRSTR".
    Text,
    /// "3, 4, 7 for branches and CALL".
    Target,
}

impl Place {
    /// Whether an operand of this kind may stand here. `INC $3` is no SP-indexed operand, though
    /// both have mode 7 (document 01, "Easy slips").
    pub fn allows(self, operand: &Operand) -> bool {
        match self {
            Place::Empty => matches!(operand, Operand::Absent),
            Place::Source => !matches!(operand, Operand::Absent | Operand::Relative(_)),
            Place::Destination => {
                Place::Source.allows(operand) && !matches!(operand, Operand::Immediate(_))
            }
            Place::Text => {
                Place::Destination.allows(operand) && !matches!(operand, Operand::Register(_))
            }
            Place::Target => {
                matches!(operand, Operand::Memory(_) | Operand::Indirect(_) | Operand::Relative(_))
            }
        }
    }

    /// The same list by mode, as decoding meets it.
    #[inline]
    pub fn allows_mode(self, mode: u16) -> bool {
        let modes: u8 = match self {
            Place::Empty => 0b0000_0001,
            Place::Source => 0b1111_1110,
            Place::Destination => 0b1111_1100,
            Place::Text => 0b1111_1000,
            Place::Target => 0b1001_1000,
        };
        modes >> (mode & 7) & 1 == 1
    }
}

macro_rules! opcodes {
    ($($opcode:ident $name:literal $first:ident $second:ident,)*) => {
        /// The 39 opcodes; the number of each is its place in this list.
        #[derive(Clone, Copy, Debug, PartialEq, Eq)]
        #[repr(u8)]
        pub enum Opcode { $($opcode,)* }

        /// All opcodes by number.
        pub static ALL: [Opcode; 39] = [$(Opcode::$opcode,)*];

        static NAMES: [&str; 39] = [$($name,)*];

        static PLACES: [(Place, Place); 39] = [$((Place::$first, Place::$second),)*];
    };
}

opcodes! {
    // number, word, first operand, second operand
    Nop "NOP" Empty Empty,                  // 0: nothing
    Halt "HALT" Empty Empty,                // 1: H := 1, stop 1
    Move "MOVE" Source Destination,         // 2: op2 := op1
    Push "PUSH" Source Empty,               // 3: [SP] := op1, SP := SP - 1
    Pop "POP" Destination Empty,            // 4: SP := SP + 1, op1 := [SP]
    Add "ADD" Source Source,                // 5: A := op1 + op2
    Sub "SUB" Source Source,                // 6: A := op1 - op2
    Mul "MUL" Source Source,                // 7: A := op1 * op2
    Div "DIV" Source Source,                // 8: A := op1 / op2, signed
    Mod "MOD" Source Source,                // 9: A := op1 % op2, signed
    Inc "INC" Destination Empty,            // 10: op1 := op1 + 1
    Dec "DEC" Destination Empty,            // 11: op1 := op1 - 1
    Neg "NEG" Destination Empty,            // 12: op1 := 0 - op1
    Cmp "CMP" Source Source,                // 13: flags of op1 - op2
    And "AND" Source Source,                // 14: A := op1 & op2
    Or "OR" Source Source,                  // 15: A := op1 | op2
    Xor "XOR" Source Source,                // 16: A := op1 ^ op2
    Not "NOT" Destination Empty,            // 17: op1 := !op1
    Br "BR" Target Empty,                   // 18: PC := op1
    Bz "BZ" Target Empty,                   // 19: if Z = 1
    Bnz "BNZ" Target Empty,                 // 20: if Z = 0
    Bp "BP" Target Empty,                   // 21: if S = 0
    Bnp "BNP" Target Empty,                 // 22: if S = 1 or Z = 1
    Bn "BN" Target Empty,                   // 23: if S = 1
    Bnn "BNN" Target Empty,                 // 24: if S = 0 or Z = 1
    Bv "BV" Target Empty,                   // 25: if V = 1
    Bnv "BNV" Target Empty,                 // 26: if V = 0
    Bc "BC" Target Empty,                   // 27: if C = 1
    Bnc "BNC" Target Empty,                 // 28: if C = 0
    Be "BE" Target Empty,                   // 29: if P = 0
    Bo "BO" Target Empty,                   // 30: if P = 1
    Call "CALL" Target Empty,               // 31: [SP] := PC, SP := SP - 1, PC := op1
    Ret "RET" Empty Empty,                  // 32: SP := SP + 1, PC := [SP]
    Inchar "INCHAR" Destination Empty,      // 33: op1 := a byte of input
    Inint "ININT" Destination Empty,        // 34: op1 := a line's number
    Instr "INSTR" Text Empty,               // 35: cells from op1 := a line and a 0
    Wrchar "WRCHAR" Source Empty,           // 36: writes op1's low byte
    Wrint "WRINT" Source Empty,             // 37: writes op1 as signed decimal
    Wrstr "WRSTR" Text Empty,               // 38: writes cells' low bytes up to a 0
}

impl Opcode {
    pub fn number(self) -> u16 {
        self as u16
    }

    pub fn from_number(number: u16) -> Option<Opcode> {
        ALL.get(usize::from(number)).copied()
    }

    /// The opcode of a statement's word; words but labels don't keep case.
    pub fn from_word(word: &[u8]) -> Option<Opcode> {
        let place = NAMES.iter().position(|name| name.as_bytes().eq_ignore_ascii_case(word))?;
        ALL.get(place).copied()
    }

    pub fn name(self) -> &'static str {
        NAMES[self as usize]
    }

    /// What its two operands are for.
    #[inline]
    pub fn places(self) -> (Place, Place) {
        PLACES[self as usize]
    }

    /// What each operand that it takes is for: as many as it takes.
    pub fn operands(self) -> Vec<Place> {
        let (first, second) = self.places();
        [first, second].into_iter().filter(|place| *place != Place::Empty).collect()
    }
}

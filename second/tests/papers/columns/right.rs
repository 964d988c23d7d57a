//! Lines of right form, told apart from the program's reading: the readings' "What may stand in a
//! line of right form", each rule taking the places where it may begin to those where it may end.

/// Places in a line of fewer than 64 bytes, a bit for each.
type Places = u64;

const OPCODES: &str = "NOP HALT MOVE PUSH POP ADD SUB MUL DIV MOD INC DEC NEG CMP AND OR XOR NOT \
    BR BZ BNZ BP BNP BN BNN BV BNV BC BNC BE BO CALL RET INCHAR ININT INSTR WRCHAR WRINT WRSTR";
const REGISTERS: &str = "R0 R1 R2 R3 R4 R5 R6 R7 R8 R9 A SR IX IY SP PC";

/// Whether a word is one of these; only labels keep case.
fn is_among(word: &[u8], names: &str) -> bool {
    names.split(' ').any(|name| name.as_bytes().eq_ignore_ascii_case(word))
}

pub fn is_of_word(byte: u8) -> bool {
    byte.is_ascii_alphanumeric() || byte == b'_'
}

/// What a line comes to before any value is looked at.
#[derive(Clone, Copy, Debug, PartialEq, Eq)]
pub enum Judged {
    WordUnknown,
    WrongForm,
    RightForm,
}

pub fn judged(line: &[u8]) -> Judged {
    assert!(line.len() < 63);
    let line = Line(line);
    let start = line.statement_start();
    if line.has_end(start) {
        return Judged::RightForm;
    }
    let behind = line.word(start, |_| true);
    if behind == 0 {
        return Judged::WrongForm;
    }
    let word = &line.0[last(start)..last(behind)];
    match line.is_right_behind(word, behind) {
        None => Judged::WordUnknown,
        Some(true) => Judged::RightForm,
        Some(false) => Judged::WrongForm,
    }
}

/// The last of some places; there must be one.
fn last(places: Places) -> usize {
    63 - places.leading_zeros() as usize
}

struct Line<'l>(&'l [u8]);

impl Line<'_> {
    /// Behind any label, "a label with its `:`", and blanks: the last of the places.
    fn statement_start(&self) -> Places {
        let first = self.blanks(1);
        match self.byte(self.word(first, |_| true), b":") {
            0 => first,
            labelled => self.blanks(labelled),
        }
    }

    /// Whether what a statement's word has to have stands behind it; nothing for an unknown word.
    fn is_right_behind(&self, word: &[u8], at: Places) -> Option<bool> {
        let item = |line: &Self, at| line.number(at, b"-") | line.string(at);
        if is_among(word, "END") {
            Some(true)
        } else if is_among(word, "ORG EQU RES") {
            Some(self.has_end(self.expression(at)))
        } else if is_among(word, "DATA") {
            Some(self.has_end(self.by_commas(at, item)))
        } else if is_among(word, OPCODES) {
            Some(self.has_end(at) || self.has_end(self.by_commas(at, Line::operand)))
        } else {
            None
        }
    }

    /// One of these bytes.
    fn byte(&self, at: Places, among: &[u8]) -> Places {
        self.byte_where(at, |byte| among.contains(&byte))
    }

    fn byte_where(&self, at: Places, allowed: impl Fn(u8) -> bool) -> Places {
        let places = self.0.iter().enumerate();
        let found = places.filter(|(place, byte)| at >> place & 1 == 1 && allowed(**byte));
        found.fold(0, |ends, (place, _)| ends | 2 << place)
    }

    /// None or more of a rule.
    fn many(&self, at: Places, one: impl Fn(&Self, Places) -> Places) -> Places {
        let mut all = at;
        loop {
            let more = all | one(self, all);
            if more == all {
                return all;
            }
            all = more;
        }
    }

    fn blanks(&self, at: Places) -> Places {
        self.many(at, |line, at| line.byte(at, b" \t\r"))
    }

    /// Nothing more but blanks and a comment.
    fn has_end(&self, at: Places) -> bool {
        let at = self.blanks(at);
        at >> self.0.len() & 1 == 1 || self.byte(at, b";") != 0
    }

    /// The longest run that begins at each place, where such a word may stand.
    fn word(&self, at: Places, allowed: impl Fn(&[u8]) -> bool) -> Places {
        let mut ends = 0;
        for place in (0..self.0.len()).filter(|place| at >> place & 1 == 1) {
            let rest = &self.0[place..];
            let length = rest.iter().take_while(|byte| is_of_word(**byte)).count();
            if length > 0 && !rest[0].is_ascii_digit() && allowed(&rest[..length]) {
                ends |= 1 << (place + length);
            }
        }
        ends
    }

    /// A number that one of these signs may precede, if it is decimal.
    fn number(&self, at: Places, sign: &[u8]) -> Places {
        let at = self.blanks(at);
        let first = self.byte_where(at | self.byte(at, sign), |byte| byte.is_ascii_digit());
        let decimal =
            self.many(first, |line, at| line.byte_where(at, |byte| byte.is_ascii_digit()));
        let prefix = self.byte(self.byte(at, b"0"), b"x");
        let first = self.byte_where(prefix, |byte| byte.is_ascii_hexdigit());
        let hex = self.many(first, |line, at| line.byte_where(at, |byte| byte.is_ascii_hexdigit()));
        let ends = decimal | hex;
        ends & !(self.byte_where(ends, is_of_word) >> 1)
    }

    fn string(&self, at: Places) -> Places {
        let inside = self.byte(self.blanks(at), b"\"");
        let plain = |byte: u8| (32..=126).contains(&byte) && byte != b'"' && byte != b'\\';
        let all = self.many(inside, |line, at| {
            line.byte_where(at, plain) | line.byte(line.byte(at, b"\\"), b"n")
        });
        self.byte(all, b"\"")
    }

    /// "one expression of any depth".
    fn expression(&self, at: Places) -> Places {
        if at == 0 {
            return 0;
        }
        let mark = |line: &Self, at| line.byte(line.blanks(at), b"+-*/%");
        self.many(self.factor(at), |line, at| line.factor(mark(line, at)))
    }

    fn factor(&self, at: Places) -> Places {
        let inside = self.expression(self.byte(self.blanks(at), b"("));
        self.number(at, b"") | self.byte(self.blanks(inside), b")")
    }

    /// "one or more .. by commas".
    fn by_commas(&self, at: Places, one: impl Fn(&Self, Places) -> Places) -> Places {
        self.many(one(self, at), |line, at| one(line, line.byte(line.blanks(at), b",")))
    }

    /// "each of the eight shapes, with any register in `.reg` and `[.reg]` and IX, IY or SP behind
    /// `#v[.`".
    fn operand(&self, at: Places) -> Places {
        let at = self.blanks(at);
        let valued = self.value(self.byte(at, b"#/$"));
        let immediate = self.value(self.byte(at, b"#"));
        valued
            | self.register(at, REGISTERS)
            | self.bracketed(at, REGISTERS)
            | self.bracketed(immediate, "IX IY SP")
    }

    fn value(&self, at: Places) -> Places {
        self.word(self.blanks(at), |_| true) | self.number(at, b"-")
    }

    fn register(&self, at: Places, names: &str) -> Places {
        let named = self.blanks(self.byte(self.blanks(at), b"."));
        self.word(named, |word| is_among(word, names))
    }

    fn bracketed(&self, at: Places, names: &str) -> Places {
        let inside = self.byte(self.blanks(at), b"[");
        self.byte(self.blanks(self.register(inside, names)), b"]")
    }
}

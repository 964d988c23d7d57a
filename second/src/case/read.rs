//! Reading case lines. The reader is strict: a line it takes is the line that is written back.

use super::{Case, LentImage, LentMachine, LentMemory, LentSource, CELLS_LIMIT, ROOM_LIMIT};

/// What is wrong with a case line.
pub type Malformed = &'static str;

/// The fields of a line, parted by exactly one space.
struct Fields<'l> {
    fields: std::str::Split<'l, char>,
}

impl<'l> Fields<'l> {
    fn next(&mut self) -> Result<&'l str, Malformed> {
        self.fields.next().ok_or("a field is missing")
    }

    /// A plain decimal number without leading zeros, at most `highest`.
    fn number(&mut self, highest: u64) -> Result<u64, Malformed> {
        let field = self.next()?;
        let plain = !field.is_empty() && field.bytes().all(|byte| byte.is_ascii_digit());
        if !plain || (field.len() > 1 && field.starts_with('0')) {
            return Err("not a plain decimal number");
        }
        match field.parse::<u64>() {
            Ok(number) if number <= highest => Ok(number),
            _ => Err("a number is too large"),
        }
    }

    fn length(&mut self, highest: usize) -> Result<usize, Malformed> {
        self.number(highest as u64).map(|number| number as usize)
    }

    fn word(&mut self) -> Result<u16, Malformed> {
        self.number(65_535).map(|number| number as u16)
    }

    fn byte(&mut self) -> Result<u8, Malformed> {
        self.number(255).map(|number| number as u8)
    }

    /// Bytes in lower-case hex, or `-` for none.
    fn bytes(&mut self) -> Result<Vec<u8>, Malformed> {
        let field = self.next()?.as_bytes();
        if field == b"-" {
            return Ok(Vec::new());
        }
        if field.is_empty() || field.len() % 2 != 0 {
            return Err("not a row of hex bytes");
        }
        field.chunks(2).map(|pair| Ok(hex(pair[0])? << 4 | hex(pair[1])?)).collect()
    }

    /// A count and so many pairs of an address below `end` and a number.
    fn pairs(&mut self, end: usize, highest: u64) -> Result<Vec<(usize, u64)>, Malformed> {
        let count = self.length(CELLS_LIMIT)?;
        let mut pairs = Vec::new();
        for _ in 0..count {
            let address = self.length(CELLS_LIMIT)?;
            if address >= end {
                return Err("an address is not below the length");
            }
            pairs.push((address, self.number(highest)?));
        }
        Ok(pairs)
    }

    fn overwritten(&mut self, mut memory: LentMemory) -> Result<LentMemory, Malformed> {
        let pairs = self.pairs(memory.cells, 65_535)?;
        memory.overwritten = pairs.iter().map(|(at, value)| (*at, *value as u16)).collect();
        Ok(memory)
    }
}

fn hex(digit: u8) -> Result<u8, Malformed> {
    match digit {
        b'0'..=b'9' => Ok(digit - b'0'),
        b'a'..=b'f' => Ok(digit - b'a' + 10),
        _ => Err("not a lower-case hex digit"),
    }
}

/// Reads a case line, given without its LF.
pub fn read(line: &str) -> Result<Case, Malformed> {
    let mut fields = Fields { fields: line.split(' ') };
    let case = match fields.next()? {
        "A" => Case::Assemble(source(&mut fields)?),
        "E" => encode(&mut fields)?,
        "D" => decode(&mut fields)?,
        "S" => Case::Step(machine(&mut fields)?),
        "R" => {
            let budget = fields.number(u64::from(u32::MAX))? as u32;
            Case::Run(budget, machine(&mut fields)?)
        }
        "P" => Case::Print(image(&mut fields)?),
        "G" => Case::List(image(&mut fields)?),
        "L" => Case::Line(fields.bytes()?),
        _ => return Err("unknown kind of case"),
    };
    match fields.next() {
        Ok(_) => Err("a field too many"),
        Err(_) => Ok(case),
    }
}

fn source(fields: &mut Fields) -> Result<LentSource, Malformed> {
    let cells = fields.length(CELLS_LIMIT)?;
    let map_length = fields.length(CELLS_LIMIT)?;
    let (fill, step) = (fields.word()?, fields.word()?);
    Ok(LentSource {
        memory: LentMemory { cells, fill, step, overwritten: Vec::new() },
        map_length,
        map_fill: fields.byte()?,
        source: fields.bytes()?,
    })
}

fn encode(fields: &mut Fields) -> Result<Case, Malformed> {
    let opcode = fields.byte()?;
    let first = (fields.number(8)? as u8, fields.word()?);
    let second = (fields.number(8)? as u8, fields.word()?);
    Ok(Case::Encode { opcode, operands: [first, second] })
}

fn decode(fields: &mut Fields) -> Result<Case, Malformed> {
    let count = fields.number(5)?;
    let words: Result<Vec<u16>, Malformed> = (0..count).map(|_| fields.word()).collect();
    Ok(Case::Decode(words?))
}

fn machine(fields: &mut Fields) -> Result<LentMachine, Malformed> {
    let cells = fields.length(CELLS_LIMIT)?;
    let (fill, step) = (fields.word()?, fields.word()?);
    let memory = fields.overwritten(LentMemory { cells, fill, step, overwritten: Vec::new() })?;
    let mut registers = [0; 16];
    for register in &mut registers {
        *register = fields.word()?;
    }
    Ok(LentMachine {
        memory,
        registers,
        stop_code: fields.byte()?,
        input: fields.bytes()?,
        input_position: fields.number(u64::MAX)?,
        output_length: fields.length(ROOM_LIMIT)?,
        output_fill: fields.byte()?,
        output_position: fields.number(u64::MAX)?,
    })
}

fn image(fields: &mut Fields) -> Result<LentImage, Malformed> {
    let cells = fields.length(CELLS_LIMIT)?;
    let map_length = fields.length(CELLS_LIMIT)?;
    let (fill, step) = (fields.word()?, fields.word()?);
    let memory = fields.overwritten(LentMemory { cells, fill, step, overwritten: Vec::new() })?;
    let map_fill = fields.byte()?;
    let marks = fields.pairs(map_length, 255)?;
    Ok(LentImage {
        memory,
        map_length,
        map_fill,
        marks: marks.iter().map(|(at, mark)| (*at, *mark as u8)).collect(),
        room: fields.length(ROOM_LIMIT)?,
        room_fill: fields.byte()?,
    })
}

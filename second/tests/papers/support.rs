//! What the tests share: assembling a text, and a machine that owns what it is lent.

use second::assembler::assemble;
use second::machine::{run, step, Machine, Ran, Registers, Stepped, PC};

/// The reply to a source at M: refusal and line, (0, 0) if accepted. Whatever was lent stays as it
/// was on a refusal. Columns are seen in `columns`.
pub fn reply(cells: usize, source: impl AsRef<[u8]>) -> (u8, u32) {
    let mut memory = vec![0xabcd; cells];
    let mut map = vec![7; cells];
    match assemble(source.as_ref(), &mut memory, &mut map) {
        Ok(_) => (0, 0),
        Err(refused) => {
            assert!(memory.iter().all(|cell| *cell == 0xabcd) && map.iter().all(|mark| *mark == 7));
            (refused.refusal.number(), refused.line.0)
        }
    }
}

/// The refusal at M 16.
pub fn refusal(source: impl AsRef<[u8]>) -> u8 {
    reply(16, source).0
}

/// The memory and the map of an accepted source, over whatever was there before.
pub fn assembled(cells: usize, source: impl AsRef<[u8]>) -> (Vec<u16>, Vec<u8>) {
    let mut memory = vec![0xabcd; cells];
    let mut map = vec![7; cells];
    let accepted = assemble(source.as_ref(), &mut memory, &mut map).expect("accepted");
    let marked = |wanted: u8| map.iter().filter(|mark| **mark == wanted).count() as u32;
    let counts = (accepted.code, accepted.data, accepted.reserved);
    assert_eq!(counts, (marked(1), marked(2), marked(3)));
    (memory, map)
}

/// The claimed cells' values, in order, at M 64.
pub fn claimed(source: impl AsRef<[u8]>) -> Vec<u16> {
    let (memory, map) = assembled(64, source);
    memory.into_iter().zip(map).filter(|(_, mark)| *mark != 0).map(|(cell, _)| cell).collect()
}

/// A source with stray bytes: text before and after one byte.
pub fn with_byte(before: &str, byte: u8, after: &str) -> Vec<u8> {
    let mut source = before.as_bytes().to_vec();
    source.push(byte);
    source.extend_from_slice(after.as_bytes());
    source
}

/// A machine that owns what it is lent.
#[derive(Clone, Debug, PartialEq, Eq)]
pub struct Owned {
    pub registers: [u16; 16],
    pub stop_code: u8,
    pub memory: Vec<u16>,
    pub input: Vec<u8>,
    pub input_position: u64,
    pub output: Vec<u8>,
    pub output_position: u64,
}

impl Owned {
    /// M cells, all 0, with words from an address on; PC there.
    pub fn with_words(cells: usize, at: u16, words: &[u16]) -> Owned {
        let mut memory = vec![0; cells];
        memory[usize::from(at)..usize::from(at) + words.len()].copy_from_slice(words);
        let mut registers = [0; 16];
        registers[usize::from(PC)] = at;
        Owned {
            registers,
            stop_code: 0,
            memory,
            input: Vec::new(),
            input_position: 0,
            output: vec![b'.'; 16],
            output_position: 0,
        }
    }

    /// An assembled source at M cells, PC at `at`.
    pub fn with_source(cells: usize, at: u16, source: &str) -> Owned {
        let (memory, _) = assembled(cells, source);
        let mut machine = Owned::with_words(cells, at, &[]);
        machine.memory = memory;
        machine
    }

    /// One statement at `at`, the rest 0.
    pub fn at(cells: usize, at: u16, statement: &str) -> Owned {
        Owned::with_source(cells, at, &format!("ORG {}\n{}", at, statement))
    }

    pub fn register(mut self, code: u16, value: u16) -> Owned {
        self.registers[usize::from(code)] = value;
        self
    }

    pub fn cell(mut self, address: u16, value: u16) -> Owned {
        self.memory[usize::from(address)] = value;
        self
    }

    pub fn input(mut self, input: &[u8]) -> Owned {
        self.input = input.to_vec();
        self
    }

    pub fn room(mut self, bytes: usize) -> Owned {
        self.output = vec![b'.'; bytes];
        self
    }

    pub fn get(&self, code: u16) -> u16 {
        self.registers[usize::from(code)]
    }

    fn lent<T>(&mut self, operation: impl FnOnce(&mut Machine) -> T) -> T {
        let mut machine = Machine {
            registers: Registers(self.registers),
            stop_code: self.stop_code,
            memory: &mut self.memory,
            input: &self.input,
            input_position: self.input_position,
            output: &mut self.output,
            output_position: self.output_position,
        };
        let reply = operation(&mut machine);
        self.registers = machine.registers.0;
        self.stop_code = machine.stop_code;
        self.input_position = machine.input_position;
        self.output_position = machine.output_position;
        reply
    }

    pub fn step(&mut self) -> Stepped {
        self.lent(step)
    }

    pub fn run(&mut self, budget: u32) -> Ran {
        self.lent(|machine| run(machine, budget))
    }

    /// A step that completes and does not stop.
    pub fn stepped(mut self) -> Owned {
        let stepped = self.step();
        assert_eq!((stepped.stop.number(), stepped.completed), (0, true));
        self
    }

    /// The stop of a step that refuses; only the stop code may have changed.
    pub fn refused(&self) -> u8 {
        let mut after = self.clone();
        let stepped = after.step();
        assert!(!stepped.completed);
        let number = stepped.stop.number();
        let mut expected = self.clone();
        if (2..=6).contains(&number) {
            expected.stop_code = number;
        }
        assert_eq!(after, expected, "a refused step changes nothing but the stop code");
        number
    }

    /// The stop of a step that completes, and what it left.
    pub fn completed(mut self) -> (u8, Owned) {
        let stepped = self.step();
        assert!(stepped.completed);
        (stepped.stop.number(), self)
    }
}

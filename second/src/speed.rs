//! Fixed work, to be timed beside the proved programs (docs/COMPARED.md, "Speed"): three programs
//! without an end, so many steps of each, and two sources, assembled so many times; or any source.

use crate::assembler::{assemble, Accepted};
use crate::machine::{run, Machine, Ran, Registers, Stop};

/// What each program is lent: memory cells, and bytes of output room.
pub const CELLS: usize = 1_024;
pub const ROOM: usize = 65_536;

/// A program, and how often it is run with what budget. Each run writes the room from its start.
#[derive(Clone, Copy, Debug, PartialEq, Eq)]
pub struct Work {
    pub name: &'static str,
    pub source: &'static str,
    pub budget: u32,
    pub runs: u32,
}

/// Registers alone, memory, and text; 8,000,000 steps each.
pub const WORKS: [Work; 3] = [
    Work {
        name: "arithmetic",
        source: include_str!("../../bench/arithmetic.ens"),
        budget: 1_000_000,
        runs: 8,
    },
    Work {
        name: "table",
        source: include_str!("../../bench/table.ens"),
        budget: 1_000_000,
        runs: 8,
    },
    Work { name: "text", source: include_str!("../../bench/text.ens"), budget: 8_000, runs: 1_000 },
];

/// What a work came to: steps in all, the last run's stop, and a sum over everything it left.
#[derive(Clone, Copy, Debug, PartialEq, Eq)]
pub struct Done {
    pub steps: u64,
    pub stop: Stop,
    pub checksum: u32,
}

impl Work {
    /// Runs the program from zero registers.
    pub fn perform(&self) -> Done {
        let mut memory = vec![0; CELLS];
        let mut map = vec![0; CELLS];
        assemble(self.source.as_bytes(), &mut memory, &mut map).expect("the source is accepted");
        let mut machine = Machine {
            registers: Registers([0; 16]),
            stop_code: 0,
            memory: &mut memory,
            input: &[],
            input_position: 0,
            output: &mut vec![0; ROOM],
            output_position: 0,
        };
        let mut steps = 0;
        let mut last = Stop::None;
        for _ in 0..self.runs {
            machine.output_position = 0;
            let Ran { stop, count } = run(&mut machine, self.budget);
            steps += u64::from(count);
            last = stop;
        }
        Done { steps, stop: last, checksum: checksum(&machine) }
    }

    /// The line that tells what the work came to.
    pub fn line(&self) -> String {
        let Done { steps, stop, checksum } = self.perform();
        format!("{}: {} steps, stop {}, checksum {}", self.name, steps, stop.number(), checksum)
    }
}

/// What each source is lent: memory cells, and as many bytes of map.
pub const SOURCE_CELLS: usize = 16_384;

/// How often each source is assembled.
pub const SOURCE_TIMES: u32 = 100;

/// A source, and how often it is assembled.
#[derive(Clone, Copy, Debug, PartialEq, Eq)]
pub struct SourceWork<'s> {
    pub name: &'s str,
    pub source: &'s [u8],
    pub times: u32,
}

/// Few labels that are used often, and many; 1,500 lines and about 30,000 bytes each.
pub const SOURCES: [SourceWork; 2] = [
    SourceWork {
        name: "labels_20",
        source: include_bytes!("../../bench/labels_20.ens"),
        times: SOURCE_TIMES,
    },
    SourceWork {
        name: "labels_500",
        source: include_bytes!("../../bench/labels_500.ens"),
        times: SOURCE_TIMES,
    },
];

/// What assembling came to: how often it was accepted, the cells that it claimed the last time,
/// and a sum over memory and map after that.
#[derive(Clone, Copy, Debug, PartialEq, Eq)]
pub struct Assembled {
    pub times: u32,
    pub code: u32,
    pub data: u32,
    pub checksum: u32,
}

impl SourceWork<'_> {
    /// Assembles into the same memory and map again and again, as a host would lend them.
    pub fn perform(&self) -> Assembled {
        let mut memory = vec![0; SOURCE_CELLS];
        let mut map = vec![0; SOURCE_CELLS];
        let mut done = Assembled { times: 0, code: 0, data: 0, checksum: 0 };
        for _ in 0..self.times {
            if let Ok(accepted) = assemble(self.source, &mut memory, &mut map) {
                let Accepted { code, data, .. } = accepted;
                done = Assembled { times: done.times + 1, code, data, ..done };
            }
        }
        let bytes = map.iter().copied().map(u16::from);
        Assembled { checksum: sum(memory.iter().copied().chain(bytes)), ..done }
    }

    /// The line that tells what the work came to.
    pub fn line(&self) -> String {
        let Assembled { times, code, data, checksum } = self.perform();
        let name = self.name;
        format!("{}: {} times, code {}, data {}, checksum {}", name, times, code, data, checksum)
    }
}

/// Registers, then cells, then the room's bytes.
fn checksum(machine: &Machine) -> u32 {
    let words = machine.registers.0.iter().chain(machine.memory.iter()).copied();
    let bytes = machine.output.iter().copied().map(u16::from);
    sum(words.chain(bytes))
}

/// Each is added to 31 times the sum before it, modulo 1,000,003.
fn sum(words: impl Iterator<Item = u16>) -> u32 {
    words.fold(0, |sum, word| (31 * sum + u32::from(word)) % 1_000_003)
}

//! Document 01's program: "assembles a file at an M of 1 to 16,384 (any other prints refusal 1,
//! line 0) and prints the image".

use crate::assembler::{assemble, Refusal, Refused};
use crate::image;
use crate::machine::{self, Machine, Ran, Registers, Stop, REGISTER_NAMES};

/// The program's own limit; the library goes up to 65,536.
pub const PROGRAM_CELLS: u32 = 16_384;

/// A run's budget where none is named.
pub const USUAL_BUDGET: u32 = 10_000;

/// The most bytes of input that a run is given, and its room for output.
pub const RUN_BYTES: usize = 65_536;

/// The number that an argument wholly is, where it is decimal and at most so large. As with every
/// number the value counts, so leading zeros do no harm.
fn decimal(argument: &str, most: u32) -> Option<u32> {
    if argument.is_empty() || !argument.bytes().all(|byte| byte.is_ascii_digit()) {
        return None;
    }
    let digits = argument.trim_start_matches('0');
    let number = if digits.is_empty() { 0 } else { digits.parse::<u32>().ok()? };
    Some(number).filter(|number| *number <= most)
}

/// The M that an argument names: "a decimal number in 1..16384".
pub fn memory_size(argument: &str) -> Option<usize> {
    decimal(argument, PROGRAM_CELLS).filter(|cells| *cells > 0).map(|cells| cells as usize)
}

/// The budget that an argument names, "0..1,000,000".
pub fn budget(argument: &str) -> Option<u32> {
    decimal(argument, machine::BUDGET_LIMIT)
}

/// "A refusal prints `refused=` and `line=`, one line each", and by document 02, K4, "a third line
/// `column=`". 16's place has no line.
pub fn refusal_text(refused: &Refused) -> String {
    let (number, line, column) = (refused.refusal.number(), refused.line.0, refused.column.0);
    format!("refused={}\nline={}\ncolumn={}\n", number, line, column)
}

/// What the program prints for an M argument that is none.
pub fn bad_size_text() -> String {
    refusal_text(&Refused::of_no_line(Refusal::BadLoan))
}

/// Assembles at M cells: the image's text, or the refusal's.
pub fn assemble_text(cells: usize, source: &[u8]) -> Result<String, String> {
    let mut memory = vec![0; cells];
    let mut map = vec![0; cells];
    match assemble(source, &mut memory, &mut map) {
        Ok(_) => image::text(&memory, &map).ok_or_else(bad_size_text),
        Err(refused) => Err(refusal_text(&refused)),
    }
}

/// A rule that was run: what it wrote, the record, and whether it halted.
pub struct RunRule {
    pub output: Vec<u8>,
    pub record: String,
    pub halted: bool,
}

/// The record: stop and steps, A, the other registers by code, how much was taken and written.
fn record_text(ran: &Ran, machine: &Machine) -> String {
    let mut lines = vec![
        format!("stop={}\n", ran.stop.number()),
        format!("steps={}\n", ran.count),
        format!("A={}\n", machine.registers.get(machine::A)),
    ];
    for (name, value) in REGISTER_NAMES.iter().zip(machine.registers.0) {
        if *name != "A" {
            lines.push(format!("{}={}\n", name, value));
        }
    }
    lines.push(format!("taken={}\n", machine.input_position));
    lines.push(format!("written={}\n", machine.output_position));
    lines.concat()
}

/// Assembles at M cells and runs from registers of zero: what came of it, or the refusal's text.
pub fn run_rule(cells: usize, source: &[u8], input: &[u8], steps: u32) -> Result<RunRule, String> {
    let mut memory = vec![0; cells];
    let mut map = vec![0; cells];
    assemble(source, &mut memory, &mut map).map_err(|refused| refusal_text(&refused))?;
    let mut output = vec![0; RUN_BYTES];
    let mut machine = Machine {
        registers: Registers([0; 16]),
        stop_code: 0,
        memory: &mut memory,
        input,
        input_position: 0,
        output: &mut output,
        output_position: 0,
    };
    let ran = machine::run(&mut machine, steps);
    let record = record_text(&ran, &machine);
    let written = machine.output_position as usize;
    output.truncate(written);
    Ok(RunRule { output, record, halted: ran.stop == Stop::Halt })
}

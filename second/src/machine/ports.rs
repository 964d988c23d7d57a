//! Input and output of a step (document 01, "What a step does"). Each function only looks, or
//! writes what was judged to fit: a step that refuses changes nothing.

use super::{Machine, Stop};

/// A line of input: its bytes without the LF, and the position after what it takes.
#[derive(Clone, Copy, Debug, PartialEq, Eq)]
pub struct InputLine<'i> {
    pub bytes: &'i [u8],
    pub position_after: u64,
}

/// What is left of the input, or stop 8: "only a position at the end is 8".
fn remaining(input: &[u8], position: u64) -> Result<&[u8], Stop> {
    match input.get(position as usize..) {
        Some(rest) if !rest.is_empty() => Ok(rest),
        _ => Err(Stop::InputEnd),
    }
}

/// "INCHAR takes a byte".
pub fn byte(input: &[u8], position: u64) -> Result<u8, Stop> {
    remaining(input, position).map(|rest| rest[0])
}

/// "ININT and INSTR take a line, its LF taken, not kept". A last line without LF is a line.
pub fn line(input: &[u8], position: u64) -> Result<InputLine<'_>, Stop> {
    let rest = remaining(input, position)?;
    let length = rest.iter().position(|byte| *byte == b'\n');
    let bytes = &rest[..length.unwrap_or(rest.len())];
    let taken = bytes.len() + usize::from(length.is_some());
    Ok(InputLine { bytes, position_after: position + taken as u64 })
}

/// The cells of the string at an address, without its 0. "A string passing M is 5".
pub fn string(memory: &[u16], address: usize) -> Result<&[u16], Stop> {
    let rest = &memory[address..];
    match rest.iter().position(|cell| *cell == 0) {
        Some(length) => Ok(&rest[..length]),
        None => Err(Stop::MemoryEnd),
    }
}

/// The room for so many bytes, or stop 9.
fn room(output: &mut [u8], position: u64, bytes: usize) -> Result<&mut [u8], Stop> {
    let rest = output.get_mut(position as usize..).ok_or(Stop::OutputShort)?;
    rest.get_mut(..bytes).ok_or(Stop::OutputShort)
}

/// Writes bytes and moves the position, or writes nothing (stop 9).
pub fn write(machine: &mut Machine, bytes: &[u8]) -> Result<(), Stop> {
    room(machine.output, machine.output_position, bytes.len())?.copy_from_slice(bytes);
    machine.output_position += bytes.len() as u64;
    Ok(())
}

/// "WRCHAR and WRSTR write low bytes; WRSTR ends before the first cell that is 0."
pub fn write_string(machine: &mut Machine, address: usize) -> Result<(), Stop> {
    let cells = string(machine.memory, address)?;
    let room = room(machine.output, machine.output_position, cells.len())?;
    for (byte, cell) in room.iter_mut().zip(cells) {
        *byte = *cell as u8;
    }
    machine.output_position += cells.len() as u64;
    Ok(())
}

/// "WRINT writes signed decimal."
pub fn write_number(machine: &mut Machine, value: u16) -> Result<(), Stop> {
    let text = (value as i16).to_string();
    write(machine, text.as_bytes())
}

/// INSTR: the line's bytes in consecutive cells and a 0 cell, or stop 5 if it would pass M.
pub fn store_line(machine: &mut Machine, address: usize) -> Result<(), Stop> {
    let InputLine { bytes, position_after } = line(machine.input, machine.input_position)?;
    let cells = machine.memory.get_mut(address..).ok_or(Stop::MemoryEnd)?;
    let cells = cells.get_mut(..bytes.len() + 1).ok_or(Stop::MemoryEnd)?;
    for (cell, byte) in cells.iter_mut().zip(bytes) {
        *cell = u16::from(*byte);
    }
    cells[bytes.len()] = 0;
    machine.input_position = position_after;
    Ok(())
}

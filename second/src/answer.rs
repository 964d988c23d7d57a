//! Answering a case.

use crate::assembler::assemble;
use crate::case::{Case, LentImage, LentMachine, LentSource};
use crate::image;
use crate::isa::{self, Instruction, Opcode, Operand};
use crate::listing;
use crate::machine::{self, Machine, Registers};
use crate::reply::{changed_runs, differing, Left, LineSays, Name, Reply};
use crate::text::{read_line, Awaited, Statement};

pub fn answer(case: &Case) -> Reply {
    match case {
        Case::Assemble(lent) => answer_assemble(lent),
        Case::Encode { opcode, operands } => answer_encode(*opcode, operands),
        Case::Decode(words) => match isa::decode(words) {
            Ok(instruction) => Reply::Decoded(instruction),
            Err(stop) => Reply::NotDecoded(stop.number()),
        },
        Case::Step(lent) => {
            let (stepped, left) = operate(lent, machine::step);
            Reply::Step(stepped.stop.number(), left)
        }
        Case::Run(budget, lent) => {
            let (ran, left) = operate(lent, |machine| machine::run(machine, *budget));
            Reply::Run(ran.stop.number(), ran.count, left)
        }
        Case::Print(lent) => answer_print(lent),
        Case::List(lent) => answer_list(lent),
        Case::Line(line) => answer_line(line),
    }
}

/// Acceptance lists all that is not 0 afterwards, a refusal all that is not as it was lent.
fn answer_assemble(lent: &LentSource) -> Reply {
    let mut memory = lent.memory.row();
    let mut map = vec![lent.map_fill; lent.map_length];
    match assemble(&lent.source, &mut memory, &mut map) {
        Ok(accepted) => Reply::Assemble {
            refusal: 0,
            line: 0,
            column: 0,
            place: 0,
            code: accepted.code,
            data: accepted.data,
            reserved: accepted.reserved,
            cells: differing(&vec![0; memory.len()], &memory),
            marks: differing(&vec![0; map.len()], &map),
        },
        Err(refused) => Reply::Assemble {
            refusal: refused.refusal.number(),
            line: refused.line.0,
            column: refused.column.0,
            place: refused.refusal.place(),
            code: 0,
            data: 0,
            reserved: 0,
            cells: differing(&lent.memory.row(), &memory),
            marks: differing(&vec![lent.map_fill; lent.map_length], &map),
        },
    }
}

fn answer_encode(opcode: u8, operands: &[(u8, u16); 2]) -> Reply {
    let operand = |at: usize| Operand::of_kind(operands[at].0, operands[at].1);
    let instruction = match (Opcode::from_number(u16::from(opcode)), operand(0), operand(1)) {
        (Some(opcode), Some(first), Some(second)) => Instruction { opcode, first, second },
        _ => return Reply::NotEncoded,
    };
    match isa::encode(&instruction) {
        Ok(words) => Reply::Encoded(words.as_slice().to_vec()),
        Err(_) => Reply::NotEncoded,
    }
}

/// Lends a machine what the case says, operates it, and tells what it left behind.
pub(crate) fn operate<T>(
    lent: &LentMachine,
    operation: impl FnOnce(&mut Machine) -> T,
) -> (T, Left) {
    let before = lent.memory.row();
    let mut memory = before.clone();
    let mut output = vec![lent.output_fill; lent.output_length];
    let mut machine = Machine {
        registers: Registers(lent.registers),
        stop_code: lent.stop_code,
        memory: &mut memory,
        input: &lent.input,
        input_position: lent.input_position,
        output: &mut output,
        output_position: lent.output_position,
    };
    let reply = operation(&mut machine);
    let Machine { registers, stop_code, input_position, output_position, .. } = machine;
    let left = Left {
        registers: registers.0,
        stop_code,
        input_position,
        output_position,
        changed_cells: differing(&before, &memory),
        changed_output: changed_runs(lent.output_fill, &output),
    };
    (reply, left)
}

fn answer_print(lent: &LentImage) -> Reply {
    let mut room = vec![lent.room_fill; lent.room];
    let (code, length) = match image::print(&lent.memory.row(), &lent.map(), &mut room) {
        Ok(length) => (0, length),
        Err(refused) => (refused as u8, 0),
    };
    Reply::Print { code, length, changed: changed_runs(lent.room_fill, &room) }
}

fn answer_list(lent: &LentImage) -> Reply {
    let mut room = vec![lent.room_fill; lent.room];
    let (code, address, length) = match listing::list(&lent.memory.row(), &lent.map(), &mut room) {
        Ok(length) => (0, 0, length),
        Err(refused) => (refused.number(), refused.address(), 0),
    };
    Reply::List { code, address, length, changed: changed_runs(lent.room_fill, &room) }
}

/// What the line by itself says: nothing of other lines or of addresses.
fn answer_line(line: &[u8]) -> Reply {
    let read = read_line(line);
    let label = Name::of(read.label);
    let name = |awaited: Option<Awaited>| Name::of(awaited.map(|awaited| awaited.name));
    let says = match read.says() {
        Err(fault) => Err(fault),
        Ok(None) => Ok(LineSays::Nothing),
        Ok(Some(Statement::Org(value))) => Ok(LineSays::Org(value)),
        Ok(Some(Statement::Equ(value))) => Ok(LineSays::Equ(value)),
        Ok(Some(Statement::Res(value))) => Ok(LineSays::Res(value)),
        Ok(Some(Statement::End)) => Ok(LineSays::End),
        Ok(Some(Statement::Data(cells))) => Ok(LineSays::Data(cells)),
        Ok(Some(Statement::Instruction(written))) => {
            Ok(LineSays::Instruction(written.instruction, written.labels.map(name)))
        }
    };
    Reply::Line(label, says)
}

//! Document 01, "What a step does": input, output and runs; readings, "Step" and "Run".

use crate::support::Owned;
use second::machine::{A, PC, SR};

#[test]
fn inint_reads_numbers_and_nothing_else() {
    let read = |input: &[u8]| Owned::at(16, 0, "ININT .A").input(input).stepped().get(A);
    let read_0: [&[u8]; 10] = [
        b"12\r\n",
        b" 12\n",
        b"+12\n",
        b"65536\n",
        b"-32769\n",
        b"\n",
        b"12 ",
        b"0X1f",
        b"-",
        b"x",
    ];
    for input in read_0 {
        assert_eq!(read(input), 0, "{:?}", input);
    }
    assert_eq!(read(b"12\n"), 12);
    assert_eq!(read(b"12"), 12);
    assert_eq!(read(b"-1\n"), 65_535);
    assert_eq!(read(b"0x1F\n"), 31);
    assert_eq!(read(b"0012\n"), 12);
    assert_eq!(read(b"65535"), 65_535);
}

#[test]
fn inint_takes_the_whole_line() {
    let machine = Owned::at(16, 0, "ININT .A").input(b"junk\n7\n").stepped();
    assert_eq!((machine.get(A), machine.input_position), (0, 5));
    let machine = Owned::at(16, 0, "ININT .A").input(b"junk").stepped();
    assert_eq!(machine.input_position, 4);
}

#[test]
fn only_a_position_at_the_end_is_8() {
    for statement in ["INCHAR .A", "ININT .A", "INSTR /9"] {
        assert_eq!(Owned::at(16, 0, statement).refused(), 8, "{}", statement);
        let mut machine = Owned::at(16, 0, statement).input(b"a");
        machine.input_position = 1;
        assert_eq!(machine.refused(), 8, "{}", statement);
        assert_eq!(Owned::at(16, 0, statement).input(b"\n").stepped().input_position, 1);
    }
}

#[test]
fn inchar_takes_a_byte() {
    let machine = Owned::at(16, 0, "INCHAR /9").input(b"\xff\n").cell(9, 1).stepped();
    assert_eq!((machine.memory[9], machine.input_position), (255, 1));
    let machine = Owned::at(16, 0, "INCHAR .PC").input(b"\n").stepped();
    assert_eq!(machine.get(PC), 10);
}

#[test]
fn instr_keeps_cr_and_adds_a_0() {
    let machine = Owned::at(16, 0, "INSTR /12").input(b"ab\r\nc").cell(15, 9).stepped();
    assert_eq!(machine.memory[12..], [97, 98, 13, 0]);
    assert_eq!(machine.input_position, 4);
}

#[test]
fn instr_that_does_not_fit_takes_no_input() {
    assert_eq!(Owned::at(16, 0, "INSTR /12").input(b"abcd").refused(), 5);
    assert_eq!(Owned::at(65_536, 0, "INSTR /65535").input(b"a").refused(), 5);
    let machine = Owned::at(65_536, 0, "INSTR /65535").input(b"\n").cell(65_535, 3).stepped();
    assert_eq!(machine.memory[65_535], 0);
}

#[test]
fn wrstr_ends_at_a_whole_0_cell() {
    let machine = Owned::at(16, 0, "WRSTR /10").cell(10, 97).cell(11, 256).cell(12, 98).stepped();
    assert_eq!(machine.output[..4], [97, 0, 98, b'.']);
    assert_eq!(machine.output_position, 3);
    let machine = Owned::at(16, 0, "WRSTR /10").room(0).stepped();
    assert_eq!(machine.output_position, 0);
}

#[test]
fn a_string_passing_m_comes_before_9() {
    let machine = Owned::at(16, 0, "WRSTR /15").cell(15, 97).room(0);
    assert_eq!(machine.refused(), 5);
    assert_eq!(Owned::at(65_536, 0, "WRSTR /65535").cell(65_535, 97).refused(), 5);
    assert_eq!(Owned::at(16, 0, "WRSTR /14").cell(14, 97).room(0).refused(), 9);
}

#[test]
fn output_that_does_not_fit_writes_nothing() {
    assert_eq!(Owned::at(16, 0, "WRCHAR #65").room(0).refused(), 9);
    assert_eq!(Owned::at(16, 0, "WRINT #-32768").room(5).refused(), 9);
    let machine = Owned::at(16, 0, "WRINT #-32768").room(6).stepped();
    assert_eq!(machine.output, b"-32768");
    let machine = Owned::at(16, 0, "WRINT #32767").room(6).stepped();
    assert_eq!(machine.output, b"32767.");
    let machine = Owned::at(16, 0, "WRCHAR #0x1241").room(1).stepped();
    assert_eq!(machine.output, b"A");
}

fn ran(mut machine: Owned, budget: u32) -> (u8, u32, Owned) {
    let ran = machine.run(budget);
    (ran.stop.number(), ran.count, machine)
}

#[test]
fn the_last_budgeted_step_says_why_it_stopped() {
    let (stop, count, _) = ran(Owned::at(16, 0, "NOP\nHALT"), 2);
    assert_eq!((stop, count), (1, 2));
    let (stop, count, machine) = ran(Owned::at(16, 14, "NOP\nNOP"), 2);
    assert_eq!((stop, count, machine.stop_code), (5, 2, 5));
    let (stop, count, machine) = ran(Owned::at(16, 0, "NOP\nHALT"), 1);
    assert_eq!((stop, count, machine.stop_code, machine.get(PC)), (7, 1, 0, 1));
}

#[test]
fn budget_0() {
    let mut stopped = Owned::at(16, 0, "NOP");
    stopped.stop_code = 3;
    assert_eq!(stopped.run(0).stop.number(), 3);
    assert_eq!(Owned::at(16, 0, "NOP").run(0).stop.number(), 7);
    assert_eq!(Owned::at(16, 0, "NOP").register(SR, 64).run(0).stop.number(), 10);
}

#[test]
fn above_1000000_is_10_stopped_or_not() {
    let (stop, count, _) = ran(Owned::at(16, 0, "BR $-2"), 1_000_001);
    assert_eq!((stop, count), (10, 0));
    let mut stopped = Owned::at(16, 0, "NOP");
    stopped.stop_code = 1;
    assert_eq!(stopped.run(u32::MAX).stop.number(), 10);
    let (stop, count, _) = ran(Owned::at(16, 0, "BR $-2"), 1_000_000);
    assert_eq!((stop, count), (7, 1_000_000));
}

#[test]
fn a_refused_step_is_not_counted() {
    let (stop, count, machine) = ran(Owned::at(16, 0, "NOP\nDIV #1,#0"), 9);
    assert_eq!((stop, count, machine.stop_code, machine.get(PC)), (6, 1, 6, 1));
    let (stop, count, machine) = ran(Owned::at(16, 0, "NOP\nINCHAR .A"), 9);
    assert_eq!((stop, count, machine.stop_code), (8, 1, 0));
    let (stop, count, machine) = ran(Owned::at(16, 0, "WRCHAR #65\nBR /0").room(2), 99);
    assert_eq!((stop, count, machine.stop_code), (9, 4, 0));
}

#[test]
fn seven_eight_and_nine_can_be_resumed() {
    let (_, _, mut machine) = ran(Owned::at(16, 0, "INCHAR .A\nHALT"), 9);
    machine.input = b"q".to_vec();
    let (stop, count, machine) = ran(machine, 9);
    assert_eq!((stop, count, machine.get(A)), (1, 2, 113));
}

//! Document 01, "What a step does"; readings, "Step", sentence by sentence.

use crate::support::Owned;
use second::arithmetic::{C, H, P, S, V, Z};
use second::machine::{A, IX, PC, SP, SR};

#[test]
fn halt_completes() {
    let (stop, machine) = Owned::at(16, 3, "HALT").completed();
    assert_eq!((stop, machine.stop_code), (1, 1));
    assert_eq!((machine.get(SR), machine.get(PC)), (H, 4));
    let (stop, machine) = Owned::at(65_536, 65_535, "HALT").completed();
    assert_eq!((stop, machine.stop_code, machine.get(PC)), (1, 1, 0));
}

#[test]
fn only_the_stop_code_says_stopped() {
    let machine = Owned::at(16, 0, "CMP #1,#1").register(SR, H).stepped();
    assert_eq!(machine.get(SR), H | Z);
    for code in 1..=6 {
        let mut stopped = Owned::at(16, 0, "NOP");
        stopped.stop_code = code;
        assert_eq!(stopped.refused(), code);
    }
    for code in 7..=255 {
        let mut bad = Owned::at(16, 0, "NOP");
        bad.stop_code = code;
        assert_eq!(bad.refused(), 10);
    }
}

#[test]
fn bad_loans_are_10() {
    let machine = || Owned::at(16, 0, "NOP").input(b"ab").room(2);
    assert_eq!(machine().register(SR, 64).refused(), 10);
    assert_eq!(machine().register(SR, 63).stepped().get(SR), 63);
    for position in [3, u64::MAX] {
        let mut bad = machine();
        bad.input_position = position;
        assert_eq!(bad.refused(), 10);
        let mut bad = machine();
        bad.output_position = position;
        assert_eq!(bad.refused(), 10);
    }
    let mut good = machine();
    good.input_position = 2;
    good.output_position = 2;
    good.stepped();
    for cells in [0, 65_537] {
        let mut bad = machine();
        bad.memory = vec![0; cells];
        assert_eq!(bad.refused(), 10);
    }
}

#[test]
fn faults_in_step_order() {
    assert_eq!(Owned::with_words(16, 0, &[]).register(PC, 16).refused(), 5);
    assert_eq!(Owned::with_words(16, 0, &[]).register(PC, 65_535).refused(), 5);
    assert_eq!(Owned::with_words(16, 15, &[2_496]).refused(), 2);
    assert_eq!(Owned::with_words(16, 15, &[1]).refused(), 3);
    assert_eq!(Owned::with_words(16, 14, &[146, 16]).refused(), 5);
    assert_eq!(Owned::with_words(16, 13, &[146, 16, 0]).refused(), 4);
    assert_eq!(Owned::at(16, 0, "PUSH /16").register(SP, 16).refused(), 5);
    assert_eq!(Owned::at(16, 0, "MOVE /15,/16").refused(), 5);
    assert_eq!(Owned::at(16, 0, "DIV #1,#0").refused(), 6);
    assert_eq!(Owned::at(16, 0, "MOD #1,#0").refused(), 6);
}

#[test]
fn sequential_next_pc_is_judged_unreduced() {
    let (stop, machine) = Owned::at(65_536, 65_535, "NOP").completed();
    assert_eq!((stop, machine.stop_code, machine.get(PC)), (5, 5, 0));
    let (stop, machine) = Owned::at(16, 15, "NOP").completed();
    assert_eq!((stop, machine.stop_code, machine.get(PC)), (5, 5, 16));
}

#[test]
fn a_target_is_a_16_bit_address() {
    let machine = Owned::at(65_536, 65_530, "BR $10").stepped();
    assert_eq!(machine.get(PC), 6);
    let machine = Owned::at(65_536, 65_534, "INC .PC").stepped();
    assert_eq!(machine.get(PC), 1);
}

#[test]
fn a_next_pc_past_memory_keeps_the_step() {
    for (statement, next) in [("BR /16", 16), ("MOVE #99,.PC", 99), ("CALL /65535", 65_535)] {
        let (stop, machine) = Owned::at(16, 0, statement).register(SP, 15).completed();
        assert_eq!((stop, machine.stop_code, machine.get(PC)), (5, 5, next), "{}", statement);
    }
    let (_, machine) = Owned::at(16, 0, "CALL /16").register(SP, 15).completed();
    assert_eq!((machine.get(SP), machine.memory[15]), (14, 2));
}

#[test]
fn a_branch_not_taken_never_stops_by_its_target() {
    let machine = Owned::at(16, 0, "BZ /16").stepped();
    assert_eq!(machine.get(PC), 2);
    let (stop, _) = Owned::at(16, 14, "BZ /0").completed();
    assert_eq!(stop, 5, "the next PC is past memory all the same");
}

#[test]
fn at_the_top_of_memory_pc_reads_0() {
    let machine = Owned::at(65_536, 65_534, "CALL /7").register(SP, 100).cell(100, 9).stepped();
    assert_eq!((machine.memory[100], machine.get(PC), machine.get(SP)), (0, 7, 99));
    let (stop, machine) =
        Owned::at(65_536, 65_534, "PUSH .PC").register(SP, 100).cell(100, 9).completed();
    assert_eq!((stop, machine.memory[100]), (5, 0));
}

#[test]
fn the_old_sp_is_used() {
    let machine = Owned::at(16, 0, "PUSH .SP").register(SP, 9).stepped();
    assert_eq!((machine.memory[9], machine.get(SP)), (9, 8));
    let machine = Owned::at(16, 0, "CALL [.SP]").register(SP, 9).stepped();
    assert_eq!((machine.get(PC), machine.memory[9]), (9, 2));
    let machine = Owned::at(16, 0, "POP [.SP]").register(SP, 9).cell(10, 77).stepped();
    assert_eq!((machine.memory[9], machine.get(SP)), (77, 10));
    let machine = Owned::at(16, 0, "POP #1[.SP]").register(SP, 9).cell(10, 77).stepped();
    assert_eq!((machine.memory[10], machine.get(SP)), (77, 10));
    let machine = Owned::at(16, 0, "POP .SP").register(SP, 9).cell(10, 77).stepped();
    assert_eq!(machine.get(SP), 77);
}

#[test]
fn the_stack_ends_at_memory() {
    assert_eq!(Owned::at(16, 0, "PUSH #1").register(SP, 16).refused(), 5);
    assert_eq!(Owned::at(16, 0, "CALL /0").register(SP, 16).refused(), 5);
    assert_eq!(Owned::at(16, 0, "POP .A").register(SP, 15).refused(), 5);
    assert_eq!(Owned::at(16, 0, "RET").register(SP, 15).refused(), 5);
    let machine = Owned::at(16, 4, "PUSH #1").register(SP, 0).stepped();
    assert_eq!((machine.memory[0], machine.get(SP)), (1, 65_535));
    let machine = Owned::at(16, 4, "POP .A").register(SP, 65_535).cell(0, 8).stepped();
    assert_eq!((machine.get(A), machine.get(SP)), (8, 0));
    let machine = Owned::at(16, 4, "RET").register(SP, 7).cell(8, 3).stepped();
    assert_eq!((machine.get(PC), machine.get(SP)), (3, 8));
}

#[test]
fn inc_sr_is_stored_masked_then_flagged() {
    let machine = Owned::at(16, 0, "INC .SR").register(SR, H | 31).stepped();
    // 63 + 1 is 64: one bit set, so P alone.
    assert_eq!(machine.get(SR), H | P);
    let machine = Owned::at(16, 0, "NOT .SR").register(SR, H | Z).stepped();
    assert_eq!(machine.get(SR), H | C | V | P | S);
    let machine = Owned::at(16, 0, "MOVE #0xFFFF,.SR").stepped();
    assert_eq!(machine.get(SR), 31);
    let machine = Owned::at(16, 0, "POP .SR").register(SP, 8).cell(9, 0).register(SR, 63).stepped();
    assert_eq!(machine.get(SR), H);
}

#[test]
fn dec_and_neg_are_subtractions() {
    let changed = |word: &str, value: u16| {
        let machine = Owned::at(16, 0, &format!("{} .R1", word)).register(1, value).stepped();
        (machine.get(1), machine.get(SR))
    };
    assert_eq!(changed("DEC", 0), (65_535, S | C));
    assert_eq!(changed("DEC", 32_768), (32_767, V | P));
    assert_eq!(changed("NEG", 0), (0, Z));
    assert_eq!(changed("NEG", 1), (65_535, S | C));
    assert_eq!(changed("NEG", 32_768), (32_768, S | C | V | P));
    assert_eq!(changed("INC", 65_535), (0, Z | C));
    assert_eq!(changed("NOT", 1), (65_534, 0));
}

#[test]
fn mul_takes_c_and_v_from_two_products() {
    let product = |a: u16, b: u16| {
        let machine = Owned::at(16, 0, &format!("MUL #{},#{}", a, b)).stepped();
        (machine.get(A), machine.get(SR) & (C | V))
    };
    assert_eq!(product(65_535, 65_535), (1, C));
    assert_eq!(product(200, 200), (40_000, V));
    assert_eq!(product(65_535, 1), (65_535, 0));
}

#[test]
fn branch_conditions() {
    let jumps = |word: &str, sr: u16| {
        Owned::at(16, 0, &format!("{} /9", word)).register(SR, sr).stepped().get(PC) == 9
    };
    for sr in 0..64 {
        let set = |flag: u16| sr & flag != 0;
        assert!(jumps("BR", sr));
        assert_eq!((jumps("BZ", sr), jumps("BNZ", sr)), (set(Z), !set(Z)));
        assert_eq!((jumps("BP", sr), jumps("BNP", sr)), (!set(S), set(S) || set(Z)));
        assert_eq!((jumps("BN", sr), jumps("BNN", sr)), (set(S), !set(S) || set(Z)));
        assert_eq!((jumps("BV", sr), jumps("BNV", sr)), (set(V), !set(V)));
        assert_eq!((jumps("BC", sr), jumps("BNC", sr)), (set(C), !set(C)));
        assert_eq!((jumps("BO", sr), jumps("BE", sr)), (set(P), !set(P)));
    }
}

#[test]
fn addresses_add_modulo_65536() {
    let machine = Owned::at(16, 0, "MOVE #-1[.IX],.A").register(IX, 10).cell(9, 5).stepped();
    assert_eq!(machine.get(A), 5);
    let machine = Owned::at(16, 0, "MOVE #9[.IX],.A").register(IX, 65_535).cell(8, 6).stepped();
    assert_eq!(machine.get(A), 6);
}

#[test]
fn addresses_come_before_6_before_8() {
    assert_eq!(Owned::at(16, 0, "DIV /99,#0").refused(), 5);
    assert_eq!(Owned::at(16, 0, "DIV #0,/99").refused(), 5);
    assert_eq!(Owned::at(16, 0, "INSTR /99").refused(), 5);
    assert_eq!(Owned::at(16, 0, "INCHAR /99").refused(), 5);
    assert_eq!(Owned::at(16, 0, "WRSTR /99").refused(), 5);
}

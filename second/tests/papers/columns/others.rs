//! Readings, "K4, columns: the others", row by row.

use super::{rows, told};
use second::isa::{encode, Instruction, Opcode, Operand};

fn nested(depth: usize, inner: &str) -> String {
    format!("{}{}{}", "(".repeat(depth), inner, ")".repeat(depth))
}

#[test]
fn a_column_counts_bytes_from_1() {
    rows(&[("\tFOO", "4:2"), ("NOP\n\r FOO", "4@2:3"), ("a: FOO", "4:4"), ("FOO", "4:1")]);
    assert_eq!(told(16, format!("ORG{}", " ".repeat(32_765)).as_bytes()), "3:32769");
}

#[test]
fn the_label_in_front_in_9_and_10() {
    rows(&[("x:\n x: FOO", "9@2:2")]);
    assert_eq!(told(16, format!("\t{}: FOO", "n".repeat(65)).as_bytes()), "10:2");
    let labels: String = (0..512).map(|at| format!("l{}:\n", at)).collect();
    assert_eq!(told(16, format!("{}  l0:", labels).as_bytes()), "10@513:3");
}

#[test]
fn the_name_in_13_and_the_operand_in_14() {
    rows(&[
        ("MOVE .A, / zz", "13:12"),
        ("PUSH #zz[.IX]", "13:7"),
        ("BR $zz", "13:5"),
        ("x: EQU 0-5\nBR $ x", "14@2:4"),
        ("MOVE /a,/b", "13:7"),
        ("a: MOVE /a,/b", "13:13"),
        ("x: EQU 40000\ny: CALL  $x", "14@2:10"),
    ]);
    assert_eq!(told(16, format!("BR / {}", "n".repeat(65)).as_bytes()), "13:6");
}

#[test]
fn the_word_in_15_and_the_operand_in_16() {
    rows(&[
        ("MOVE $1,#2", "16:6/1"),
        ("MOVE #1,#2", "16:9/2"),
        ("INC  #70000", "16:6/1"),
        (" NOP $1", "15:2"),
        ("MOVE #1, #2", "16:10/2"),
        ("x: MOVE $1", "15:4"),
        ("MOVE $1,#2,.A", "15:1"),
        ("INC", "15:1"),
        ("ADD #70000,$1", "16:12/2"),
        ("INC [.A],$1", "15:1"),
    ]);
}

#[test]
fn the_number_in_6() {
    rows(&[
        ("PUSH # 70000", "6:8"),
        ("PUSH #-32769", "6:7"),
        ("RES 65536", "6:5"),
        ("DATA 70000,80000", "6:6"),
        ("MOVE #70000,/80000", "6:7"),
        ("EQU 65535*65535+70000", "6:10"),
        ("EQU 1/0+70000", "7:6"),
        ("MOVE #x,/ 80000", "6:11"),
        ("DATA 1, -32769", "6:9"),
        ("EQU 70000/0", "6:5"),
        ("EQU 1/70000", "6:7"),
        ("BR $32768", "6:5"),
        ("PUSH #40000[.IX]", "6:7"),
    ]);
}

#[test]
fn the_operations_mark_in_6_and_7() {
    rows(&[
        ("EQU 65535*65535", "6:10"),
        ("EQU 1/0", "7:6"),
        ("EQU 5 %  0", "7:7"),
        ("EQU 0*(1/0)", "7:9"),
        ("EQU 1+2*(3-3)/(4-4)", "7:14"),
        ("EQU 0-32768*65535-32768-1", "6:24"),
        ("EQU (0-32768*65535-32768)/(0-1)", "6:26"),
    ]);
}

#[test]
fn the_statements_word_in_6_of_a_result_or_a_label_address() {
    rows(&[("ORG 65535+1", "6:1"), (" RES 0-1", "6:2"), ("ORG 65535\n RES 2", "6@2:2")]);
    rows(&[("x: EQU 65535+1", "6:4"), ("EQU 0-32769", "6:1")]);
    let at_the_top = |rest: &str| told(65_536, format!("ORG 65535\nNOP\n{}", rest).as_bytes());
    assert_eq!(at_the_top("x: END"), "6@3:4");
    assert_eq!(at_the_top("x:\n\n"), "6@4:0");
    assert_eq!(at_the_top("x:\n NOP"), "6@4:2");
    assert_eq!(at_the_top("x: DATA 1"), "6@3:4");
    assert_eq!(at_the_top("x: RES 0"), "6@3:4");
    assert_eq!(at_the_top("x: RES 1"), "6@3:4");
    assert_eq!(at_the_top("x: ; c"), "6@3:0");
}

#[test]
fn the_parenthesis_opening_level_33() {
    assert_eq!(told(16, format!("EQU {}", nested(33, "1")).as_bytes()), "8:37");
    assert_eq!(told(16, format!("EQU {}", nested(40, "1/0")).as_bytes()), "8:37");
    let second = format!("EQU {}+ {}", nested(32, "1"), nested(33, "1"));
    assert_eq!(told(16, second.as_bytes()), "8:104");
    let twice = format!("EQU 70000+{}+{}", nested(33, "1"), nested(34, "1"));
    assert_eq!(told(16, twice.as_bytes()), "8:43");
}

#[test]
fn the_statements_word_in_11_and_12() {
    rows(&[
        ("ORG 16\na: NOP", "11@2:4"),
        ("\tRES 17", "11:2"),
        ("ORG 15\n DATA 1,2", "11@2:2"),
        ("NOP\nORG 0\n  DATA 1", "12@3:3"),
        ("NOP\nORG 0\na: RES 1", "12@3:4"),
    ]);
}

/// "for a source 5 goes, while the encoder keeps it".
#[test]
fn refusal_5_is_the_encoders_alone() {
    rows(&[("BZ .R3", "16:4/1")]);
    let branch =
        Instruction { opcode: Opcode::Bz, first: Operand::Register(3), second: Operand::Absent };
    assert!(encode(&branch).is_err());
}

/// "1 and 2 have column 0".
#[test]
fn refusals_1_and_2_have_no_line_and_no_column() {
    assert_eq!(told(0, b"FOO"), "1@0:0");
    assert_eq!(told(65_537, b"FOO"), "1@0:0");
    assert_eq!(told(16, &[b'F'; 32_769]), "2@0:0");
}

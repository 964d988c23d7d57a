//! Readings, "K4, columns: refusal 3", row by row.

use super::{each, rows, told};
use crate::support::with_byte;

#[test]
fn something_is_missing_and_a_comment_follows() {
    rows(&[
        ("ORG ;c", "3:7"),
        ("DATA 1, ;c", "3:11"),
        ("PUSH # ; comment", "3:17"),
        ("EQU 5-;c", "3:9"),
        ("PUSH [ ;", "3:9"),
        ("PUSH #5[.;]", "3:12"),
        ("EQU (;c)", "3:9"),
    ]);
}

#[test]
fn blanks_or_cr_at_the_end() {
    rows(&[("ORG", "3:4"), ("ORG  ", "3:6"), ("MOVE #1,\r\n", "3:10"), ("DATA\t\r", "3:7")]);
    rows(&[("ORG\n", "3:4"), ("\n\nORG\r\n", "3@3:5")]);
}

#[test]
fn a_minus_that_no_digit_follows_where_a_number_with_it_may_stand() {
    each("3:8", &["PUSH #-x", "PUSH #- 5", "PUSH #--5", "PUSH #-;c", "PUSH #-", "PUSH #- ;c"]);
    rows(&[("DATA -\r", "3:7"), ("DATA 1,-", "3:9"), ("DATA -,1", "3:7"), ("BR $-[", "3:6")]);
}

#[test]
fn a_minus_elsewhere() {
    each("3:5", &["NOP -", "EQU -5", "EQU -"]);
    each("3:7", &["EQU 5--5", "DATA 5-3"]);
    rows(&[("-5", "3:1"), ("EQU (-5)", "3:6"), ("PUSH -5", "3:6")]);
}

#[test]
fn a_0x_without_a_digit() {
    each("3:8", &["DATA 0x", "DATA 0xG", "DATA 0x 1", "DATA 0x,1", "DATA 0x;c"]);
    rows(&[("EQU 0x+1", "3:7"), ("PUSH #0x[.IX]", "3:9")]);
}

#[test]
fn other_broken_numbers() {
    rows(&[
        ("DATA 5a", "3:7"),
        ("DATA 0X5", "3:7"),
        ("DATA -0x5", "3:8"),
        ("DATA 00x5", "3:8"),
        ("DATA 0x1G", "3:9"),
        ("DATA 99999x", "3:11"),
        ("DATA 5_", "3:7"),
        ("EQU 5a", "3:6"),
        ("PUSH #5a", "3:8"),
    ]);
}

#[test]
fn strings() {
    rows(&[
        ("DATA \"\\q\"", "3:8"),
        ("DATA \"\\", "3:8"),
        ("DATA \"a", "3:8"),
        ("DATA \"ab\r", "3:9"),
        ("DATA \"a;b", "3:10"),
        ("DATA \"a\tb\"", "3:8"),
        ("DATA \"\\;c", "3:8"),
        ("DATA \"\\n", "3:9"),
        ("DATA \"a ", "3:9"),
        ("DATA \"a\"b", "3:9"),
    ]);
    assert_eq!(told(16, &with_byte("DATA \"a", 128, "\"")), "3:8");
    assert_eq!(told(16, &with_byte("DATA \"a", 127, "\"")), "3:8");
}

#[test]
fn a_broken_number_or_string_where_none_may_stand() {
    each("3:5", &["NOP 5x", "NOP 0x", "NOP \"a"]);
    each("3:1", &["5x", "12x: NOP"]);
    rows(&[("PUSH \"a", "3:6"), ("PUSH #\"a", "3:7"), ("EQU 5 \"", "3:7"), ("x: 0x", "3:4")]);
}

#[test]
fn a_word_that_is_no_register() {
    each("3:7", &["PUSH .R10", "PUSH .Q"]);
    rows(&[("PUSH #5[.R1]", "3:10"), ("PUSH [.FOO]", "3:8"), ("PUSH #5[.R1", "3:10")]);
    rows(&[("PUSH . Q", "3:8"), ("PUSH #5[.PC]", "3:10"), ("PUSH .5", "3:7"), ("PUSH .", "3:7")]);
}

#[test]
fn too_many_operands_or_of_wrong_kind() {
    rows(&[("NOP .A,", "3:8"), ("NOP .A,.A,.X", "3:12"), ("BR .A .A", "3:7")]);
    rows(&[("NOP .A,.A", "15:1"), ("MOVE $1,#2,", "3:12")]);
}

#[test]
fn a_directives_wrong_operand() {
    each("3:5", &["ORG #5", "ORG x"]);
    each("3:6", &["ORG 1,2", "DATA x", "DATA (5)"]);
    rows(&[("EQU (1))", "3:8"), ("EQU ()", "3:6"), ("EQU 1 2", "3:7"), ("EQU 2(3)", "3:6")]);
}

#[test]
fn depth_size_and_length_are_no_matter_of_form() {
    assert_eq!(told(16, format!("EQU {}", "(".repeat(40)).as_bytes()), "3:45");
    assert_eq!(told(16, format!("EQU {}x", "(".repeat(40)).as_bytes()), "3:45");
    assert_eq!(told(16, format!("EQU {}", "(".repeat(32_000)).as_bytes()), "3:32005");
    rows(&[("MOVE #70000,.X", "3:14"), ("EQU 1/0+", "3:9")]);
}

#[test]
fn the_statements_place() {
    rows(&[
        (":", "3:1"),
        ("x: 5", "3:4"),
        ("a::", "3:3"),
        ("a: NOP: HALT", "3:7"),
        ("NOP :", "3:5"),
        ("x: :", "3:4"),
        (" , NOP", "3:2"),
    ]);
}

#[test]
fn a_stray_byte() {
    assert_eq!(told(16, &with_byte("NOP", 128, "")), "3:4");
    assert_eq!(told(16, &with_byte("", 128, "NOP")), "3:1");
    assert_eq!(told(16, &with_byte("PUSH #x", 1, "")), "3:8");
    assert_eq!(told(16, &with_byte("PUSH #", 1, "")), "3:7");
    assert_eq!(told(16, &with_byte("PUSH #-", 1, "")), "3:8");
    assert_eq!(told(16, &with_byte("DATA 5 ", 255, "")), "3:8");
}

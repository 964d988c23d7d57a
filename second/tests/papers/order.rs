//! Readings, "Order inside a line, and late checks", row by row.

use crate::support::{assembled, claimed, refusal, reply};

fn nested(depth: usize, inner: &str) -> String {
    format!("{}{}{}", "(".repeat(depth), inner, ")".repeat(depth))
}

#[test]
fn form_then_depth_then_values() {
    assert_eq!(refusal(format!("EQU {}", nested(33, "x"))), 3);
    assert_eq!(refusal(format!("EQU {}", nested(33, "1/0"))), 8);
    assert_eq!(refusal(format!("EQU {}", "(".repeat(32_000))), 3);
    assert_eq!(refusal(format!("EQU {}", nested(16_000, "1"))), 8);
    assert_eq!(refusal(format!("EQU 1/0+{}", nested(33, "1"))), 8);
}

#[test]
fn values_in_order_of_evaluation() {
    let expected = [
        ("1/0+65536", 7),
        ("65536/0", 6),
        ("1/65536", 6),
        ("65535*65535/0", 6),
        ("0*(1/0)", 7),
        ("5%0", 7),
        ("65536+1/0", 6),
        ("1+2*(3-3)/(4-4)", 7),
    ];
    for (expression, refused) in expected {
        assert_eq!(refusal(format!("EQU {}", expression)), refused, "{}", expression);
    }
}

#[test]
fn intermediates_are_signed_32_bit() {
    assert_eq!(refusal("EQU (0-32768*65535-32768)/(0-1)"), 6);
    assert_eq!(claimed("x: EQU (0-32768*65535-32768)%(0-1)\nPUSH #x"), [200, 0]);
    assert_eq!(refusal("EQU 32768*65535+32767-32768*65535"), 0);
    assert_eq!(refusal("EQU 32768*65535+32768-32768*65535"), 6);
    assert_eq!(refusal("EQU 0-32768*65535-32768-1+32768*65535"), 6);
}

#[test]
fn division_cuts_toward_zero() {
    assert_eq!(
        claimed("x: EQU (0-7)/2\ny: EQU (0-7)%2\nz: EQU 7%(0-2)\nPUSH #x\nPUSH #y\nPUSH #z"),
        [200, 65_533, 200, 65_535, 200, 1]
    );
}

#[test]
fn equ_without_a_label_is_still_judged() {
    assert_eq!(refusal("EQU 1/0"), 7);
}

#[test]
fn eleven_over_all_cells_then_twelve() {
    assert_eq!(reply(2, "DATA 1\nORG 0\nDATA 1,2,3"), (11, 3));
    assert_eq!(reply(2, "DATA 1\nORG 0\nDATA 1,2"), (12, 3));
    assert_eq!(reply(16, "ORG 1\nNOP\nORG 0\nPUSH #1"), (12, 4));
}

#[test]
fn the_end_of_the_largest_memory() {
    assert_eq!(reply(65_536, "ORG 65535\nPUSH #1"), (11, 2));
    assert_eq!(reply(65_536, "ORG 65535\nRES 2"), (6, 2));
    assert_eq!(reply(16, "ORG 65535\nRES 2"), (6, 2));
}

#[test]
fn unknown_labels_only_if_no_line_fails() {
    assert_eq!(reply(16, "BR /x\nFOO"), (4, 2));
    assert_eq!(refusal("MOVE #x,/70000"), 6);
    assert_eq!(reply(16, "BR /x\nMOVE #y,.A"), (13, 1));
}

#[test]
fn a_name_of_65_bytes() {
    let name = "n".repeat(65);
    assert_eq!(refusal(format!("{}: NOP", name)), 10);
    assert_eq!(refusal(&name), 4);
    assert_eq!(refusal(format!("PUSH #{}", name)), 13);
}

#[test]
fn relative_labels_are_plain_numbers() {
    assert_eq!(refusal("x: EQU 0-5\nBR $x"), 14);
    let (memory, _) = assembled(65_536, "x: EQU 32768\nORG 65534\nBR $x");
    assert_eq!(memory[65_534..], [1_208, 32_768]);
    assert_eq!(reply(65_536, "x: EQU 32767\nORG 65534\nBR $x"), (14, 3));
    assert_eq!(reply(16, "BR $x\nx: EQU 32769"), (0, 0));
    assert_eq!(reply(16, "BR $x\nx: EQU 32770"), (14, 1));
}

#[test]
fn thirteen_and_fourteen_by_line_then_operand() {
    assert_eq!(reply(16, "BR $x\nBR /y\nx: EQU 40000"), (14, 1));
    assert_eq!(reply(16, "BR /y\nBR $x\nx: EQU 40000"), (13, 1));
}

#[test]
fn labels_below_end_do_not_exist() {
    assert_eq!(reply(16, "BR /x\nEND\nx:"), (13, 1));
}

#[test]
fn checks_of_one_line_in_order() {
    let long = "n".repeat(65);
    assert_eq!(refusal(format!("{}: FOO", long)), 10);
    assert_eq!(refusal("a:\na: FOO"), 9);
    assert_eq!(refusal("FOO \""), 4);
    assert_eq!(refusal("NOP #x,"), 3);
    assert_eq!(refusal("INC #70000"), 16);
    assert_eq!(reply(1, "PUSH #70000"), (6, 1));
}

//! Readings, "Form, operands, numbers", row by row.

use crate::support::{assembled, claimed, refusal};

fn all_are(refused: u8, sources: &[&str]) {
    for source in sources {
        assert_eq!(refusal(source), refused, "{}", source);
    }
}

#[test]
fn any_number_of_operands_has_right_form() {
    assert_eq!(refusal("MOVE .A,.A,.A"), 15);
    assert_eq!(refusal("NOP .A,.A,.X"), 3);
    assert_eq!(refusal("MOVE #1,"), 3);
    assert_eq!(refusal("MOVE #1 .A"), 3);
    assert_eq!(refusal("NOP ,"), 3);
    assert_eq!(refusal("MOVE #1"), 15);
}

#[test]
fn none_of_the_operand_shapes() {
    all_are(
        3,
        &["PUSH 5", "PUSH x", "PUSH #5[.R1]", "PUSH #5[.PC]", "PUSH .R10", "PUSH .", "PUSH #"],
    );
    all_are(3, &["PUSH [5]", "PUSH [.IX", "PUSH []", "PUSH /5[.IX]", "PUSH #5]", "PUSH #(5)"]);
}

#[test]
fn refusal_5_is_an_opcodes_count() {
    all_are(3, &["ORG", "ORG 1,2", "ORG #5", "ORG x", "DATA", "DATA 1,", "DATA 5-3", "DATA (5)"]);
    all_are(3, &["EQU -5", "RES", "EQU ()", "EQU 5+", "EQU 5 5", "EQU (5", "EQU 5)", "EQU 5+-3"]);
}

#[test]
fn blanks_between_tokens_never_inside() {
    assert_eq!(claimed("MOVE # -5 [ . ix ] , [ . A ]"), [128 + 5 * 8 + 4, 65_531, 10]);
    assert_eq!(refusal("PUSH #- 5"), 3);
    assert_eq!(refusal("PUSH #1 0"), 3);
    assert_eq!(refusal("EQU 0 x5"), 3);
}

#[test]
fn not_numbers() {
    for number in ["0X5", "0x", "0xG", "-0x5", "5a", "5_", "--5", "+5", "00x5", "0x5g", "- 5", "-"]
    {
        assert_eq!(refusal(format!("PUSH #{}", number)), 3, "{}", number);
        assert_eq!(refusal(format!("DATA {}", number)), 3, "{}", number);
        assert_eq!(refusal(format!("EQU {}", number)), 3, "{}", number);
    }
}

#[test]
fn the_value_counts() {
    let zeros = format!("DATA {}5", "0".repeat(30_000));
    assert_eq!(claimed("DATA -0,007,0x0000FFFF"), [0, 7, 65_535]);
    assert_eq!(claimed("DATA 0xaBcD,-32768,65535"), [0xabcd, 32_768, 65_535]);
    assert_eq!(claimed(zeros), [5]);
}

#[test]
fn form_first_then_size() {
    assert_eq!(refusal("DATA 99999x"), 3);
    assert_eq!(refusal(format!("DATA {}", "9".repeat(30_000))), 6);
    all_are(6, &["DATA 65536", "DATA -32769", "DATA 0x10000", "PUSH #65536", "EQU 65536"]);
    all_are(
        6,
        &["ORG 0-1", "RES 0-1", "ORG 65535+1", "EQU 0-32769", "EQU 65535+1", "PUSH /-32769"],
    );
    all_are(0, &["EQU 0-32768", "EQU 65535", "ORG 65535"]);
    // in range, but since K2 its cells are claimed
    assert_eq!(refusal("RES 65535"), 11);
}

#[test]
fn in_an_expression_minus_is_the_operation() {
    assert_eq!(claimed("x: EQU 5 -3\ny: EQU 5-3\nPUSH #x\nPUSH #y"), [200, 2, 200, 2]);
}

#[test]
fn strings_hold_32_to_126() {
    all_are(3, &["DATA \"a\tb\"", "DATA \"\\\\\"", "DATA \"\\N\"", "DATA \"\\\"\"", "DATA \"a"]);
    all_are(
        3,
        &["DATA \"a;b", "DATA \"\\", "DATA \"a\rb\"", "DATA \"a\u{7f}\"", "DATA \"a\"\"b\""],
    );
    assert_eq!(claimed("DATA \"a;b\" ; \"c"), [97, 59, 98, 0]);
    assert_eq!(claimed("DATA \"\""), [0]);
}

#[test]
fn displacements_are_signed_or_patterns() {
    all_are(6, &["BR $32768", "PUSH #40000[.IX]", "BR $-32769", "BR $0x10000"]);
    all_are(0, &["BR $0x8000", "BR $-32768", "BR $32767", "x: EQU 40000\nPUSH #x[.IX]"]);
    assert_eq!(claimed("PUSH #0x9C40[.SP]"), [3 * 64 + 56, 40_000]);
}

#[test]
fn kind_before_size() {
    all_are(16, &["INC $3", "BR #3[.SP]", "BZ .R3", "INC $40000", "INC #70000"]);
    assert_eq!(refusal("NOP #70000"), 15);
}

#[test]
fn every_operand_kind_has_its_mode() {
    let (memory, _) = assembled(
        64,
        "PUSH #1\nPUSH .A\nPUSH /2\nPUSH [.PC]\nPUSH #3[.IX]\nPUSH #4[.iy]\npush #5[.Sp]\nBR $6",
    );
    let expected = [200, 1, 208, 10, 216, 2, 224, 15, 232, 3, 240, 4, 248, 5, 1_208, 6];
    assert_eq!(memory[..16], expected);
}

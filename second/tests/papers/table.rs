//! Document 01, "Table to prove, marked set", row by row.

use crate::support::{claimed, Owned};
use second::arithmetic::{C, P, S, V, Z};
use second::machine::{A, SR};

#[test]
fn expression_is_11() {
    assert_eq!(claimed("x: EQU (3+7*(16-1)/(4-1))%27\nPUSH #x"), [200, 11]);
}

#[test]
fn memory_minus_30_is_65506() {
    assert_eq!(claimed("INC /-30")[1], 65_506);
}

#[test]
fn add_r3_hex_ff_is_337_3_255() {
    assert_eq!(claimed("ADD .R3,#0xFF"), [337, 3, 255]);
}

#[test]
fn move_indexed_is_170_6_1() {
    assert_eq!(claimed("MOVE #6[.IX],.R1"), [170, 6, 1]);
}

#[test]
fn br_relative_3_is_1208_3() {
    assert_eq!(claimed("BR $3"), [1_208, 3]);
}

#[test]
fn texto_is_eight_cells() {
    assert_eq!(claimed("DATA \"texto\\n\",33"), [116, 101, 120, 116, 111, 10, 0, 33]);
}

/// A and the flags after an operation on two immediate numbers.
fn calculated(word: &str, a: u16, b: u16) -> (u16, u16) {
    let machine = Owned::at(16, 0, &format!("{} #{},#{}", word, a, b)).stepped();
    (machine.get(A), machine.get(SR))
}

#[test]
fn add_65535_1_is_0_with_z_c() {
    assert_eq!(calculated("ADD", 65_535, 1), (0, Z | C));
}

#[test]
fn add_32767_1_is_32768_with_s_p_v() {
    assert_eq!(calculated("ADD", 32_767, 1), (32_768, S | P | V));
}

#[test]
fn sub_0_1_is_65535_with_s_c() {
    assert_eq!(calculated("SUB", 0, 1), (65_535, S | C));
}

#[test]
fn mul_256_256_is_0_with_z_c_v() {
    assert_eq!(calculated("MUL", 256, 256), (0, Z | C | V));
}

#[test]
fn div_minus_7_2_is_65533_with_s_p() {
    assert_eq!(calculated("DIV", 65_529, 2), (65_533, S | P));
}

#[test]
fn div_minus_32768_minus_1_is_32768_with_s_p_v() {
    assert_eq!(calculated("DIV", 32_768, 65_535), (32_768, S | P | V));
    assert_eq!(calculated("MOD", 32_768, 65_535), (0, Z));
}

#[test]
fn mod_takes_the_dividends_sign() {
    assert_eq!(calculated("MOD", 65_529, 2), (65_535, S));
    assert_eq!(calculated("MOD", 7, 65_534), (1, P));
}

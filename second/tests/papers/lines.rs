//! Readings, "Lines, labels, words", row by row.

use crate::support::{claimed, refusal, reply, with_byte};
use second::text::lines;

#[test]
fn a_last_lf_begins_no_line() {
    assert_eq!(lines(b"").count(), 0);
    assert_eq!(lines(b"\n").count(), 1);
    assert_eq!(lines(b"a\n").count(), 1);
    assert_eq!(lines(b"a").count(), 1);
    assert_eq!(lines(b"\n\n").count(), 2);
}

#[test]
fn a_labels_colon_follows_directly() {
    assert_eq!(refusal("foo :"), 4);
    assert_eq!(refusal("NOP :"), 3);
    assert_eq!(refusal("END :"), 0);
}

#[test]
fn only_the_first_token_is_a_label() {
    assert_eq!(refusal("a: b: NOP"), 4);
    assert_eq!(refusal("a: NOP: HALT"), 3);
    assert_eq!(refusal("a::"), 3);
    assert_eq!(refusal("x: END: junk\nFOO"), 0);
}

#[test]
fn a_stray_byte_is_form() {
    assert_eq!(refusal(with_byte("FOO", 128, "")), 4);
    assert_eq!(refusal(with_byte("NOP", 128, "")), 3);
    assert_eq!(refusal(with_byte("", 128, "NOP")), 3);
    assert_eq!(refusal(with_byte("x", 128, ": NOP")), 4);
    assert_eq!(refusal(with_byte("NOP;", 128, "")), 0);
    assert_eq!(refusal(with_byte("a:\na: NOP", 128, "")), 9);
}

#[test]
fn only_end_as_the_statements_word_ends() {
    assert_eq!(refusal(with_byte("END, \"", 1, "")), 0);
    assert_eq!(refusal("ENDX"), 4);
    assert_eq!(refusal("END:\nFOO"), 4);
    assert_eq!(refusal("END: NOP\nBR /END"), 0);
    assert_eq!(refusal("BR /END"), 13);
    assert_eq!(claimed("BR /x\nx: END\nFOO"), [1_176, 2]);
    assert_eq!(reply(16, "x: NOP\nx: END"), (9, 2));
    assert_eq!(refusal("end"), 0);
}

#[test]
fn no_blank_is_owed_between_tokens() {
    for source in ["ORG(5)", "DATA\"a\"", "MOVE#1,.A", "x:NOP", "DATA-5"] {
        assert_eq!(refusal(source), 0, "{}", source);
    }
}

#[test]
fn a_word_is_the_longest_run() {
    assert_eq!(refusal("ORG5"), 4);
    assert_eq!(refusal("B0 /1"), 4);
    assert_eq!(refusal("BO /1"), 0);
}

#[test]
fn cr_is_a_blank_and_ends_no_line() {
    assert_eq!(reply(16, "NOP\rFOO"), (3, 1));
    assert_eq!(reply(16, "NOP\r\nHALT\r\n"), (0, 0));
}

#[test]
fn refusal_10_is_judged_before_9() {
    let labels: String = (0..512).map(|at| format!("l{}:\n", at)).collect();
    assert_eq!(reply(16, format!("{}l0:", labels)), (10, 513));
    let long = "n".repeat(65);
    assert_eq!(reply(16, format!("{}:", long)), (10, 1));
    assert_eq!(reply(16, format!("{}:", "n".repeat(64))), (0, 0));
}

#[test]
fn all_waiting_labels_are_bound_at_once() {
    assert_eq!(claimed("a:\nb: EQU 5\nPUSH #a\nPUSH #b"), [200, 5, 200, 5]);
    assert_eq!(claimed("a:\nEQU 5\nPUSH #a"), [200, 5]);
}

#[test]
fn labels_keep_case_and_are_known_once() {
    assert_eq!(refusal("a:\nA:\nPUSH #a\nPUSH #A"), 0);
    assert_eq!(reply(16, "a:\na:"), (9, 2));
    assert_eq!(refusal("a:\nPUSH #A"), 13);
}

#[test]
fn org_lets_a_label_wait() {
    assert_eq!(claimed("x: ORG 9\nPUSH #x"), [200, 9]);
    assert_eq!(claimed("PUSH #x\nx:\nORG 9"), [200, 9]);
}

/// A reply at M 65536. Since K2 the rows with `ORG 65535⏎RES 1` hold there only: at M 16 each is 11
/// on RES's line.
fn reply_at_the_top(source: &str) -> (u8, u32) {
    let line = lines(source.as_bytes()).position(|line| line == b"RES 1").expect("RES 1") + 1;
    assert_eq!(reply(16, source), (11, line as u32), "{}", source);
    reply(65_536, source)
}

#[test]
fn label_addresses_come_before_11() {
    assert_eq!(reply_at_the_top("ORG 65535\nRES 1\nx: NOP"), (6, 3));
    assert_eq!(reply_at_the_top("ORG 65535\nRES 1\nNOP"), (11, 3));
    assert_eq!(reply_at_the_top("ORG 65535\nRES 1\nx: RES 0"), (6, 3));
    assert_eq!(reply_at_the_top("ORG 65535\nRES 1\nx: END\n\n"), (6, 3));
}

#[test]
fn labels_at_the_sources_end_blame_the_last_line() {
    assert_eq!(reply_at_the_top("ORG 65535\nRES 1\nx:\n\n"), (6, 4));
    assert_eq!(reply_at_the_top("BR /y\nORG 65535\nRES 1\nx:"), (6, 4));
}

#[test]
fn nothing_is_bound_to_65536() {
    for rest in ["x: ORG 0\nHALT", "x: EQU 4", "RES 0", "END"] {
        let source = format!("ORG 65535\nRES 1\n{}", rest);
        assert_eq!(reply_at_the_top(&source), (0, 0), "{}", rest);
    }
}

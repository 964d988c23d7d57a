//! Document 01: the edges that run "against an independent second program", and "Easy slips".

use crate::support::{assembled, claimed, refusal, reply, Owned};
use second::machine::PC;

#[test]
fn empty_source_is_accepted() {
    let (memory, map) = assembled(16, "");
    assert_eq!((memory, map), (vec![0; 16], vec![0; 16]));
}

#[test]
fn last_cell_and_one_past_it() {
    assert_eq!(reply(16, "ORG 15\nDATA 1"), (0, 0));
    assert_eq!(reply(16, "ORG 16\nDATA 1"), (11, 2));
    assert_eq!(reply(16, "ORG 15\nHALT"), (0, 0));
    assert_eq!(reply(16, "ORG 15\nPUSH #1"), (11, 2));
    assert_eq!(reply(16, "ORG 14\nPUSH #1"), (0, 0));
}

/// K2 takes "ORG and RES alone never give 11" back for RES: it holds for ORG and `RES 0`.
#[test]
fn org_and_res_0_alone_never_give_11() {
    assert_eq!(reply(16, "ORG 65535\nRES 0"), (0, 0));
    assert_eq!(reply(1, "ORG 65535"), (0, 0));
}

#[test]
fn parentheses_32_and_33() {
    let nested = |depth: usize| format!("EQU {}1{}", "(".repeat(depth), ")".repeat(depth));
    assert_eq!(refusal(nested(32)), 0);
    assert_eq!(refusal(nested(33)), 8);
}

#[test]
fn labels_512_and_513() {
    let lines = |count: usize| (0..count).map(|at| format!("l{}:\n", at)).collect::<String>();
    assert_eq!(reply(16, lines(512)), (0, 0));
    assert_eq!(reply(16, lines(513)), (10, 513));
}

#[test]
fn res_0_moves_nothing_and_binds() {
    assert_eq!(claimed("ORG 5\nx: RES 0\ny: PUSH #x\nPUSH #y"), [200, 5, 200, 5]);
}

#[test]
fn halt_in_the_last_cell_is_no_stop_5() {
    let (stop, machine) = Owned::at(16, 15, "HALT").completed();
    assert_eq!((stop, machine.stop_code, machine.get(PC)), (1, 1, 16));
}

#[test]
fn slip_mode_7_by_code() {
    assert_eq!(refusal("INC $3"), 16);
    assert_eq!(refusal("BR #3[.SP]"), 16);
}

#[test]
fn slip_end_with_a_colon() {
    assert_eq!(reply(16, "END:\nFOO"), (4, 2));
    assert_eq!(reply(16, "END\nFOO"), (0, 0));
}

#[test]
fn slip_branch_to_the_content() {
    let machine = Owned::at(16, 0, "BR /9").cell(9, 3).stepped();
    assert_eq!(machine.get(PC), 9);
}

#[test]
fn slip_faults_below_end() {
    assert_eq!(refusal("HALT\nEND\nFOO\nORG (\nHALT x\n\u{80}"), 0);
}

#[test]
fn figure_9_and_the_manuals_bz() {
    assert_eq!(claimed("BR $3").len(), 2);
    assert_eq!(refusal("BZ .R3"), 16);
}

//! Readings, "Loans and printing": what the assembler is lent.

use crate::support::{assembled, reply};
use second::assembler::assemble;

#[test]
fn acceptance_rewrites_memory_and_map() {
    let (memory, map) = assembled(4, "ORG 1\nHALT");
    assert_eq!((memory, map), (vec![0, 64, 0, 0], vec![0, 1, 0, 0]));
}

#[test]
fn what_the_map_held_plays_no_part_in_12() {
    let mut memory = [5; 2];
    let mut map = [1; 2];
    assert!(assemble(b"HALT", &mut memory, &mut map).is_ok());
    assert_eq!((memory, map), ([64, 0], [1, 0]));
}

#[test]
fn refusal_1_is_judged_before_2() {
    let long = vec![b' '; 32_769];
    let refused = |cells: usize, marks: usize| {
        assemble(&long, &mut vec![0; cells], &mut vec![0; marks]).unwrap_err()
    };
    assert_eq!((refused(16, 15).refusal.number(), refused(16, 15).line.0), (1, 0));
    assert_eq!((refused(16, 16).refusal.number(), refused(16, 16).line.0), (2, 0));
    for cells in [0, 65_537] {
        assert_eq!(refused(cells, cells).refusal.number(), 1);
    }
}

#[test]
fn refusal_2_counts_every_byte() {
    let padded = |bytes: usize| format!("END\n{}", "x".repeat(bytes - 4));
    assert_eq!(reply(16, padded(32_768)), (0, 0));
    assert_eq!(reply(16, padded(32_769)), (2, 0));
}

#[test]
fn the_library_assembles_at_every_size() {
    assert_eq!(reply(1, "HALT"), (0, 0));
    assert_eq!(reply(65_536, "ORG 65535\nHALT"), (0, 0));
}

//! Document 01, whole sources: limits, waiting labels, blocks laid back and forth, the line that
//! is told, and which of several refusals comes first.

use crate::support::{assembled, claimed, reply};

fn labels(count: usize) -> String {
    (0..count).map(|at| format!("l{}:\n", at)).collect()
}

/// "Source is at most 32,768 bytes"; refusal 2 has line 0.
#[test]
fn sources_of_32766_to_32770_bytes() {
    for length in 32_766..=32_770usize {
        let expected = if length <= 32_768 { (0, 0) } else { (2, 0) };
        for start in ["HALT ;", "END\n\u{1}", "\n"] {
            let source = format!("{}{}", start, "\n".repeat(length - start.len()));
            assert_eq!(reply(16, source), expected, "{} bytes", length);
        }
    }
}

/// "labels at most 512": the 513th is refused on its line, whatever else the line says.
#[test]
fn the_513th_label() {
    assert_eq!(reply(16, labels(512) + "PUSH #l511"), (0, 0));
    for statement in ["", "END", "FOO", "ORG 70000", "EQU 1/0", "BR $m", "\u{7f}"] {
        assert_eq!(reply(16, format!("{}m: {}", labels(512), statement)), (10, 513));
    }
    // labels below END do not exist
    assert_eq!(reply(16, labels(512) + "END\nm:"), (0, 0));
    // a word that is no label's is not counted
    assert_eq!(reply(16, labels(512) + "m"), (4, 513));
}

/// "a label at most 64 bytes".
#[test]
fn names_of_63_to_65_bytes_in_every_operand() {
    for operand in ["PUSH #{}", "PUSH /{}", "BR ${}", "PUSH #{}[.SP]", "MOVE #{},/{}"] {
        for length in [63, 64, 65] {
            let name = "n".repeat(length);
            let used = operand.replace("{}", &name);
            let both = format!("{}\n{}: HALT", used, name);
            assert_eq!(reply(16, both), if length <= 64 { (0, 0) } else { (10, 2) });
            assert_eq!(reply(16, used), (13, 1));
        }
    }
}

/// A name of 65 bytes is no label's that shares its first 64.
#[test]
fn names_are_not_cut() {
    let name = "n".repeat(64);
    assert_eq!(reply(16, format!("{}:\nPUSH #{}n", name, name)), (13, 2));
    assert_eq!(reply(16, format!("{}:\nPUSH #{}", name, &name[..63])), (13, 2));
    assert_eq!(reply(16, format!("{}:\n{}:\n{}:", name, &name[..63], name)), (9, 3));
}

/// The number told counts every line from 1, empty ones too.
#[test]
fn lines_past_the_hundredth() {
    let above = "\n".repeat(120);
    for (source, refusal, line) in [
        ("FOO", 4, 121),
        ("a:\na:", 9, 122),
        ("NOP\n\nNOP 5", 3, 123),
        ("INC #5", 16, 121),
        ("INC", 15, 121),
        ("HALT\nORG 0\n\nHALT", 12, 124),
        ("ORG 16\nHALT", 11, 122),
        ("HALT\nBR /x\nHALT", 13, 122),
        ("x: EQU 40000\nBR $x\nBR /y", 14, 122),
        ("ORG 16\nRES 1", 11, 122),
        ("HALT\nORG 0\n\nRES 1", 12, 124),
        ("RES 1\nORG 0\n\nHALT", 12, 124),
    ] {
        assert_eq!(reply(16, format!("{}{}", above, source)), (refusal, line), "{}", source);
    }
    for (end, line) in [("x:\n\n\n", 125), ("x:\nNOP\n\n", 124)] {
        let source = format!("{}ORG 65535\nRES 1\n{}", above, end);
        assert_eq!(reply(65_536, source), (6, line), "{}", end);
    }
}

/// "All waiting labels are bound at once", whatever stood between them.
#[test]
fn labels_wait_over_lines_that_bind_nothing() {
    let source = "a:\n;\nb:\n\nc: ORG 7\nd:\n ORG 9\ne: RES 2\nMOVE #a,/b\nMOVE #c,/d\nPUSH #e";
    assert_eq!(claimed(source), [0, 0, 139, 9, 9, 139, 9, 9, 200, 9]);
    // EQU without a label binds the waiting ones too, and moves nothing
    assert_eq!(claimed("ORG 3\na:\nEQU 60\nb: PUSH #a\nPUSH #b"), [200, 60, 200, 3]);
}

#[test]
fn labels_in_every_operand_forward_and_back() {
    assert_eq!(
        claimed("x: MOVE #y,#x[.IX]\ny: ADD /x,#y[.SP]\nCALL $x\nBR $y"),
        [141, 3, 0, 351, 0, 3, 2_040, 65_528, 1_208, 65_529]
    );
    // an address in an indexed operand is a bit pattern, in `$` a distance
    let (memory, _) = assembled(65_536, "ORG 65533\nx: PUSH #x[.IX]\nORG 40000\nBR $x");
    assert_eq!(memory[65_533..65_535], [232, 65_533]);
    assert_eq!(memory[40_000..40_002], [1_208, 65_533 - 40_002]);
}

/// Both ends of `$label`, from both ends of memory.
#[test]
fn reach_of_a_relative_label() {
    for (start, value, expected) in [
        (0, 32_769, 0),
        (0, 32_770, 14),
        (32_766, 0, 0),
        (32_767, 0, 14),
        (32_767, 1, 0),
        (65_534, 32_768, 0),
        (65_534, 32_767, 14),
        (65_533, 32_767, 0),
        (65_533, 32_766, 14),
        (32_766, 65_535, 0),
        (32_765, 65_535, 14),
    ] {
        let branch = format!("ORG {}\nBR $x\n", start);
        for label in [format!("x: EQU {}\n", value), format!("x: ORG {}\nRES 0\n", value)] {
            let back = reply(65_536, format!("{}{}", label, branch)).0;
            let forward = reply(65_536, format!("{}{}", branch, label)).0;
            assert_eq!((back, forward), (expected, expected), "{} to {}", start, value);
        }
    }
}

/// Blocks that touch are fine, one cell shared is 12 on the later line.
#[test]
fn blocks_that_touch_or_share_a_cell() {
    for (start, expected) in
        [(17, (0, 0)), (18, (12, 4)), (20, (12, 4)), (22, (12, 4)), (23, (0, 0))]
    {
        let source = format!("ORG 20\nDATA 1,2,3\nORG {}\nMOVE .A,.R1", start);
        assert_eq!(reply(64, source), expected, "at {}", start);
    }
    // since K2 RES claims what it passes over
    assert_eq!(reply(64, "HALT\nRES 3\nHALT\nORG 1\nDATA 1,2,3"), (12, 5));
    assert_eq!(reply(64, "HALT\nORG 4\nHALT\nORG 1\nDATA 1,2,3"), (0, 0));
    assert_eq!(reply(64, "HALT\nORG 4\nHALT\nORG 1\nDATA 1,2,3,4"), (12, 5));
}

/// "label 10, 9; word 4; form 3; 5; 8; 6 or 7 ..; then .. label addresses ..; 11; 12".
#[test]
fn one_line_fails_in_several_ways() {
    let long = "L".repeat(65);
    for statement in ["END", "RES 65536", "ORG x", "BR $nosuch", "FOO", "DATA \"", "EQU 1/0", ""] {
        assert_eq!(reply(16, format!("a:\n{}: {}", long, statement)), (10, 2));
        assert_eq!(reply(16, format!("a:\na: {}", statement)), (9, 2));
    }
    // at 65,536 a label is 6 before 11, and before RES's own 6 there is nothing to tell apart
    let top = "ORG 65535\nRES 1\n";
    for (line, expected) in [
        ("x: HALT", 6),
        ("HALT", 11),
        ("x: FOO", 4),
        ("x: INC #1", 16),
        ("x: END", 6),
        ("x: RES 0", 6),
        ("RES 0", 0),
        ("RES 1", 6),
        ("x: ORG 0", 0),
        ("x: EQU 1/0", 7),
        ("x: DATA 1,", 3),
    ] {
        assert_eq!(reply(65_536, format!("{}{}", top, line)).0, expected, "{}", line);
    }
}

/// END's own label is judged and bound; nothing below END is.
#[test]
fn what_end_ends() {
    assert_eq!(claimed("BR /x\nx: END\nx: FOO\n\u{0}\""), [1_176, 2]);
    assert_eq!(reply(16, "END: EQU 3\nEND\nFOO"), (0, 0));
    assert_eq!(reply(16, "x:\nx: END"), (9, 2));
    assert_eq!(reply(16, "BR /END\nEND"), (13, 1));
    assert_eq!(claimed("BR /END\nEND: END: \""), [1_176, 2]);
}

/// Memory and map lengths come before all else.
#[test]
fn a_bad_map_and_a_source_too_long() {
    for (cells, marks, length, expected) in
        [(16, 15, 32_769, 1), (16, 16, 32_769, 2), (65_537, 65_537, 1, 1), (0, 0, 0, 1)]
    {
        let source = vec![b'\n'; length];
        let refused =
            second::assembler::assemble(&source, &mut vec![0; cells], &mut vec![0; marks]);
        assert_eq!(refused.map_err(|refused| refused.refusal.number()), Err(expected));
    }
}

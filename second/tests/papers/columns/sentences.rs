//! Document 02, K4, sentence by sentence.

use super::{rows, told};
use second::answer::answer;
use second::case::{self, write::Hex};
use second::program::{assemble_text, bad_size_text};

/// "Split refusal 5 into 15, wrong number of operands, and 16, kind not allowed, the latter with
/// the operand's place, 1 or 2."
#[test]
fn refusal_5_is_split() {
    rows(&[("MOVE .A", "15:1"), ("MOVE .A,#1", "16:9/2"), ("MOVE $1,.A", "16:6/1")]);
}

/// "the 1-based place in its line where the fault starts": one source for each refusal.
#[test]
fn every_refusal_from_3_on_has_a_column() {
    let long = "n".repeat(65);
    let deep = format!(" EQU {}1{}", "(".repeat(33), ")".repeat(33));
    let named = format!("  {}:", long);
    rows(&[
        (" NOP ,", "3:6"),
        (" FOO", "4:2"),
        (" PUSH #70000", "6:8"),
        (" EQU 1/0", "7:7"),
        (&deep, "8:38"),
        ("a:\n a:", "9@2:2"),
        (&named, "10:3"),
        (" RES 17", "11:2"),
        ("NOP\nORG 0\n NOP", "12@3:2"),
        (" BR /x", "13:6"),
        ("x: EQU 40000\n BR $x", "14@2:5"),
        (" NOP .A", "15:2"),
        (" INC #1", "16:6/1"),
    ]);
}

/// "15 comes before 16 in its old place, and of two operands wrong in kind the first is named".
#[test]
fn the_order_of_15_and_16() {
    rows(&[
        // word, form, 15, 16, 8 and 6, as 5 was
        ("FOO $1,#2,", "4:1"),
        ("MOVE $1,#2,.A,", "3:15"),
        ("MOVE $70000,#70000,.A", "15:1"),
        ("MOVE $70000,#70000", "16:6/1"),
        ("MOVE #70000,#70000", "16:13/2"),
        ("MOVE #70000,/70000", "6:7"),
    ]);
    // and both before a label's address and 11
    let at_the_top = |rest: &str| told(65_536, format!("ORG 65535\nNOP\n{}", rest).as_bytes());
    assert_eq!(at_the_top("x: NOP #1"), "15@3:4");
    assert_eq!(at_the_top("x: INC #1"), "16@3:8/1");
}

/// "whatever the number and kinds of its operands".
#[test]
fn every_opcode_takes_every_operand_by_form() {
    let operands = ["#1", ".A", "/1", "[.A]", "#1[.IX]", "#1[.IY]", "#1[.SP]", "$1", "#x", "$x"];
    for opcode in second::isa::opcode::ALL {
        for first in operands {
            for second in operands {
                let line = format!("{} {},{},.A", opcode.name(), first, second);
                assert_eq!(told(16, line.as_bytes()), "15:1", "{}", line);
                let column = line.len() + 2;
                let broken = format!("{},", line);
                assert_eq!(told(16, broken.as_bytes()), format!("3:{}", column), "{}", broken);
            }
        }
    }
}

/// "printed as a third line `column=`"; "1 and 2 have column 0"; 16's place is not printed.
#[test]
fn a_refusal_prints_its_column() {
    for (source, printed) in [
        (" NOP .A", "refused=15\nline=1\ncolumn=2\n"),
        ("\nMOVE #1,#2", "refused=16\nline=2\ncolumn=9\n"),
        ("HALT\n\tFOO", "refused=4\nline=2\ncolumn=2\n"),
    ] {
        assert_eq!(assemble_text(16, source.as_bytes()), Err(printed.to_string()), "{}", source);
    }
    let long = vec![b' '; 32_769];
    assert_eq!(assemble_text(16, &long), Err("refused=2\nline=0\ncolumn=0\n".to_string()));
    assert_eq!(bad_size_text(), "refused=1\nline=0\ncolumn=0\n");
}

/// "for a source 5 goes, while the encoder keeps it".
#[test]
fn the_encoder_keeps_5() {
    assert_eq!((told(16, b"INC #1"), told(16, b"INC")), ("16:5/1".into(), "15:1".into()));
    for line in ["E 10 1 1 0 0", "E 10 0 0 0 0"] {
        assert_eq!(answer(&case::read(line).expect(line)).to_string(), "5", "{}", line);
    }
}

/// A reply has the number, the line, the column and the operand's place; a line's own reply has
/// the last two behind its label.
#[test]
fn replies_have_column_and_place() {
    let source = "NOP\nx: MOVE #1,#2";
    for (line, reply) in [
        (format!("A 16 16 9 0 7 {}", Hex(source.as_bytes())), "16 2 12 2 0 0 0 0 0"),
        (format!("A 16 16 9 0 7 {}", Hex(b"FOO")), "4 1 1 0 0 0 0 0 0"),
        (format!("A 0 0 9 0 7 {}", Hex(b"FOO")), "1 0 0 0 0 0 0 0 0"),
        (format!("L {}", Hex(b"x: MOVE #1,#2")), "16 0 1 12 2"),
        (format!("L {}", Hex(b" NOP .A")), "15 0 0 2 0"),
        (format!("L {}", Hex(b"a: ORG")), "3 0 1 7 0"),
    ] {
        assert_eq!(answer(&case::read(&line).expect(&line)).to_string(), reply, "{}", line);
    }
}

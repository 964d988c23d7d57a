//! Document 01, "Layout"; readings, "Encoder and decoder".

use second::isa::{decode, encode, Instruction, Opcode, Operand, FIRST_WORDS};

fn decoded(words: &[u16]) -> u8 {
    match decode(words) {
        Ok(_) => 0,
        Err(stop) => stop.number(),
    }
}

fn encoded(opcode: Opcode, first: Operand, second: Operand) -> Option<Vec<u16>> {
    let words = encode(&Instruction { opcode, first, second }).ok()?;
    Some(words.as_slice().to_vec())
}

#[test]
fn exactly_601_first_words_are_allowed() {
    let allowed = (0..=65_535u16).filter(|first| decoded(&[*first, 0, 0]) == 0).count();
    assert_eq!(allowed, 601);
}

#[test]
fn decoding_what_was_encoded() {
    for first in 0..FIRST_WORDS {
        if let Ok(instruction) = decode(&[first, 7, 9]) {
            let words = encode(&instruction).expect("what decodes is allowed");
            let length = usize::from(instruction.length());
            assert_eq!(words.as_slice(), &[first, 7, 9][..length]);
            assert_eq!(decode(words.as_slice()), Ok(instruction));
        }
    }
}

#[test]
fn encoding_every_kind_at_every_opcode() {
    let mut allowed = 0;
    for number in 0..39 {
        let opcode = Opcode::from_number(number).unwrap();
        for kinds in 0..81 {
            let operand = |kind: u8| Operand::of_kind(kind, 5).unwrap();
            let (first, second) = (operand(kinds / 9), operand(kinds % 9));
            if let Some(words) = encoded(opcode, first, second) {
                allowed += 1;
                assert_eq!(decode(&words), Ok(Instruction { opcode, first, second }));
            }
        }
    }
    assert_eq!(allowed, 601);
}

#[test]
fn encoding_any_other_is_5() {
    let (absent, register) = (Operand::Absent, Operand::Register);
    assert_eq!(encoded(Opcode::Inc, register(15), absent), Some(vec![656, 15]));
    assert_eq!(encoded(Opcode::Inc, register(16), absent), None);
    assert_eq!(encoded(Opcode::Push, Operand::Indirect(65_535), absent), None);
    assert_eq!(encoded(Opcode::Move, register(1), register(16)), None);
    assert_eq!(encoded(Opcode::Move, register(1), absent), None);
    assert_eq!(encoded(Opcode::Move, absent, register(1)), None);
    assert_eq!(encoded(Opcode::Nop, register(1), absent), None);
    assert_eq!(encoded(Opcode::Inc, Operand::Relative(3), absent), None);
    assert_eq!(encoded(Opcode::Br, Operand::IndexedSp(3), absent), None);
    assert_eq!(Opcode::from_number(39), None);
}

#[test]
fn decoding_no_words_is_5() {
    assert_eq!(decoded(&[]), 5);
}

#[test]
fn a_missing_word_comes_before_a_bad_register() {
    assert_eq!(decoded(&[146, 16]), 5);
    assert_eq!(decoded(&[146, 16, 0]), 4);
    assert_eq!(decoded(&[146, 0, 16]), 4);
    assert_eq!(decoded(&[146, 0, 15, 99]), 0);
}

#[test]
fn bad_modes_and_opcodes() {
    assert_eq!(decoded(&[1]), 3);
    assert_eq!(decoded(&[144]), 3);
    assert_eq!(decoded(&[2_495]), 3);
    assert_eq!(decoded(&[2_496]), 2);
    assert_eq!(decoded(&[65_535]), 2);
}

#[test]
fn mode_7_by_opcode() {
    let first = |words: &[u16]| decode(words).map(|instruction| instruction.first);
    assert_eq!(first(&[1_208, 3]), Ok(Operand::Relative(3)));
    assert_eq!(first(&[31 * 64 + 56, 3]), Ok(Operand::Relative(3)));
    assert_eq!(first(&[10 * 64 + 56, 3]), Ok(Operand::IndexedSp(3)));
}

#[test]
fn the_opcodes_have_the_papers_numbers() {
    let numbered = [
        ("NOP", 0),
        ("MOD", 9),
        ("CMP", 13),
        ("NOT", 17),
        ("BR", 18),
        ("BO", 30),
        ("CALL", 31),
        ("RET", 32),
        ("INCHAR", 33),
        ("WRSTR", 38),
    ];
    for (name, number) in numbered {
        assert_eq!(Opcode::from_word(name.as_bytes()).map(Opcode::number), Some(number));
        assert_eq!(Opcode::from_number(number).map(Opcode::name), Some(name));
    }
}

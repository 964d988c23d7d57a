//! Document 02, K1, and its settled readings: "All requests" and "K1, the listing", row by row.

use crate::support::{assembled, claimed};
use second::assembler::Address;
use second::back::{self, Came};
use second::isa::{decode, FIRST_WORDS};
use second::listing::{list, NotListed};

const LISTING: &str = "ORG 2\nMOVE #5,.A\nHALT\nDATA 97\nDATA 0\nDATA 65535\nEND\n";

/// Memory and map of M cells: a row of cells that begins at address 0, all further ones free and 0.
fn image(cells: usize, words: &[u16], marks: &[u8]) -> (Vec<u16>, Vec<u8>) {
    let (mut memory, mut map) = (words.to_vec(), marks.to_vec());
    memory.resize(cells, 0);
    map.resize(cells, 0);
    (memory, map)
}

/// Document 01's image.
fn document_01() -> (Vec<u16>, Vec<u8>) {
    assembled(16, "ORG 2\nx: EQU 5\nMOVE #x,.A\nHALT\nDATA \"a\",-1\n")
}

/// The reply and the room afterwards; a room of dots is lent.
fn replied(memory: &[u16], map: &[u8], room: usize) -> (Result<usize, NotListed>, String) {
    let mut lent = vec![b'.'; room];
    let reply = list(memory, map, &mut lent);
    (reply, String::from_utf8(lent).expect("ASCII"))
}

/// The text, which takes exactly its own length of room: one byte less is 3.
fn listed_at(cells: usize, words: &[u16], marks: &[u8]) -> String {
    let (memory, map) = image(cells, words, marks);
    let (reply, room) = replied(&memory, &map, 32_768);
    let length = reply.expect("listed");
    let (text, behind) = room.split_at(length);
    assert!(behind.bytes().all(|byte| byte == b'.'), "bytes behind the text stay");
    assert_eq!(replied(&memory, &map, length), (Ok(length), text.to_string()));
    assert_eq!(refused(&memory, &map, length - 1), NotListed::TooLong);
    text.to_string()
}

fn listed(words: &[u16], marks: &[u8]) -> String {
    listed_at(16, words, marks)
}

/// All cells are code, and the text is these lines and END.
fn line_of(words: &[u16]) -> String {
    let text = listed_at(words.len(), words, &vec![1; words.len()]);
    text.strip_suffix("\nEND\n").expect("END is last").to_string()
}

/// The refusal; nothing is written.
fn refused(memory: &[u16], map: &[u8], room: usize) -> NotListed {
    let (reply, after) = replied(memory, map, room);
    assert_eq!(after, ".".repeat(room), "nothing written");
    reply.expect_err("refused")
}

/// The address of 2, whatever room is lent.
fn fails_at(cells: usize, words: &[u16], marks: &[u8]) -> u32 {
    let (memory, map) = image(cells, words, marks);
    let refusal = refused(&memory, &map, 0);
    assert_eq!(refused(&memory, &map, 40_000), refusal);
    assert_eq!(refusal.number(), 2);
    refusal.address()
}

#[test]
fn the_worked_listing() {
    let (memory, map) = document_01();
    assert_eq!(listed_at(16, &memory, &map), LISTING);
}

#[test]
fn room_equal_to_the_length_is_enough() {
    let (memory, map) = document_01();
    assert_eq!(replied(&memory, &map, 52), (Ok(52), LISTING.to_string()));
    assert_eq!(refused(&memory, &map, 51), NotListed::TooLong);
    assert_eq!(replied(&memory, &map, 55), (Ok(52), format!("{}...", LISTING)));
}

#[test]
fn a_run_that_follows_on_has_no_org() {
    assert_eq!(listed(&[64, 7, 0, 8], &[1, 2, 0, 2]), "HALT\nDATA 7\nORG 3\nDATA 8\nEND\n");
    assert_eq!(listed(&[7, 64, 8], &[2, 1, 2]), "DATA 7\nHALT\nDATA 8\nEND\n");
    assert_eq!(listed(&[64, 0, 64], &[1, 0, 1]), "HALT\nORG 2\nHALT\nEND\n");
    assert_eq!(listed(&[0, 64], &[0, 1]), "ORG 1\nHALT\nEND\n");
}

#[test]
fn no_claimed_cell_is_end_alone() {
    assert_eq!(listed(&[], &[]), "END\n");
    assert_eq!(listed_at(1, &[9], &[0]), "END\n");
    assert_eq!(listed_at(65_536, &[9], &[0]), "END\n");
}

#[test]
fn all_words_of_an_instruction_lie_in_the_same_run() {
    assert_eq!(fails_at(16, &[200, 5], &[1, 2]), 0);
    assert_eq!(fails_at(2, &[64, 200], &[1, 1]), 1);
    assert_eq!(fails_at(16, &[200, 5], &[1, 0]), 0);
    assert_eq!(fails_at(16, &[138, 5, 10], &[1, 1, 2]), 0);
    assert_eq!(fails_at(16, &[138, 5, 10, 64], &[1, 2, 1, 1]), 0);
    // each run is decoded from its own first cell
    assert_eq!(listed(&[64, 200, 64], &[1, 2, 1]), "HALT\nDATA 200\nHALT\nEND\n");
}

#[test]
fn the_address_is_that_of_the_first_word_whatever_word_is_at_fault() {
    assert_eq!(fails_at(16, &[64, 138, 5, 16], &[1; 4]), 1);
    assert_eq!(fails_at(16, &[64, 148, 16, 0], &[1; 4]), 1);
    assert_eq!(fails_at(16, &[64, 64, 2_496], &[1; 3]), 2);
    assert_eq!(fails_at(16, &[200, 1, 1], &[1; 3]), 2);
}

#[test]
fn the_lowest_address_is_told() {
    assert_eq!(fails_at(16, &[64, 1, 0, 2_496], &[1, 1, 0, 1]), 1);
    assert_eq!(fails_at(16, &[64, 1, 2_496, 1], &[2, 2, 1, 1]), 2);
    assert_eq!(fails_at(65_536, &vec![1; 65_536], &[&[2; 65_535][..], &[1]].concat()), 65_535);
}

#[test]
fn the_exact_text_of_instructions() {
    assert_eq!(line_of(&[170, 65_535, 1]), "MOVE #-1[.IX],.R1");
    assert_eq!(line_of(&[337, 3, 255]), "ADD .R3,#255");
    assert_eq!(line_of(&[224, 15]), "PUSH [.PC]");
    assert_eq!(line_of(&[2_384, 14]), "WRINT .SP");
    for (word, text) in [(0, "NOP"), (64, "HALT"), (2_048, "RET")] {
        assert_eq!(line_of(&[word]), text, "nothing behind an opcode without operands");
    }
    let registers: Vec<String> = (0..16).map(|code| line_of(&[208, code])).collect();
    assert_eq!(
        registers.join(" "),
        "PUSH .R0 PUSH .R1 PUSH .R2 PUSH .R3 PUSH .R4 PUSH .R5 PUSH .R6 PUSH .R7 PUSH .R8 PUSH .R9 \
         PUSH .A PUSH .SR PUSH .IX PUSH .IY PUSH .SP PUSH .PC"
    );
}

#[test]
fn displacements_are_signed() {
    assert_eq!(line_of(&[1_208, 65_533]), "BR $-3");
    assert_eq!(line_of(&[1_208, 3]), "BR $3");
    assert_eq!(line_of(&[2_040, 32_768]), "CALL $-32768");
    assert_eq!(line_of(&[2_040, 32_767]), "CALL $32767");
    assert_eq!(line_of(&[183, 32_768, 32_767]), "MOVE #-32768[.IY],#32767[.SP]");
    assert_eq!(line_of(&[175, 32_767, 65_535]), "MOVE #32767[.IX],#-1[.SP]");
    assert_eq!(line_of(&[696, 0]), "INC #0[.SP]");
}

#[test]
fn immediates_addresses_and_data_are_not() {
    assert_eq!(line_of(&[200, 65_535]), "PUSH #65535");
    assert_eq!(line_of(&[216, 65_506]), "PUSH /65506");
    assert_eq!(line_of(&[1_176, 32_768]), "BR /32768");
    assert_eq!(
        listed(&[0, 32_768, 65_535], &[2; 3]),
        "DATA 0\nDATA 32768\nDATA 65535\nEND\n",
        "one DATA number a line"
    );
    let mut memory = vec![0; 65_536];
    let mut map = vec![0; 65_536];
    (memory[65_535], map[65_535]) = (64, 1);
    assert_eq!(listed_at(65_536, &memory, &map), "ORG 65535\nHALT\nEND\n");
}

/// Every instruction, with words at the ends of their ranges, is what its line assembles to.
#[test]
fn every_instructions_line_gives_its_words_back() {
    let mut first_words = 0;
    for first in 0..FIRST_WORDS {
        for (a, b) in [(0, 15), (15, 0), (65_535, 32_767), (32_768, 65_535), (32_767, 32_768)] {
            let instruction = match decode(&[first, a, b]) {
                Ok(instruction) => instruction,
                Err(_) => continue,
            };
            let words = &[first, a, b][..usize::from(instruction.length())];
            assert_eq!(claimed(line_of(words)), words);
            first_words += u32::from(a == 0);
        }
    }
    assert_eq!(first_words, 601);
}

#[test]
fn a_free_cells_value_is_never_looked_at() {
    assert_eq!(listed(&[64, 9], &[1]), "HALT\nEND\n");
    assert_eq!(listed(&[65_535, 7, 65_535], &[0, 2, 0]), "ORG 1\nDATA 7\nEND\n");
    assert_eq!(listed(&[1, 2_496, 9], &[2, 2, 2]), "DATA 1\nDATA 2496\nDATA 9\nEND\n");
}

#[test]
fn bad_lengths_and_marks_come_first() {
    for (cells, marks) in [(0, 0), (0, 1), (2, 1), (2, 3), (65_537, 65_537), (65_536, 65_535)] {
        // code that does not decode, and no room
        assert_eq!(refused(&vec![1; cells], &vec![1; marks], 0), NotListed::BadLoan);
        assert_eq!(refused(&vec![0; cells], &vec![0; marks], 9), NotListed::BadLoan);
    }
    for mark in [4, 5, 255] {
        assert_eq!(refused(&[1, 0], &[1, mark], 0), NotListed::BadLoan);
        assert_eq!(refused(&[1, 0], &[mark, 1], 40), NotListed::BadLoan);
    }
    assert_eq!(NotListed::BadLoan.number(), 1);
    assert_eq!(NotListed::BadLoan.address(), 0);
}

#[test]
fn the_whole_map_is_decoded_before_the_texts_length_counts() {
    assert_eq!(refused(&[1], &[1], 0), NotListed::NotDecoded(Address(0)));
    let (mut memory, map) = (vec![0; 65_536], vec![1; 65_536]);
    assert_eq!(refused(&memory, &map, 400_000), NotListed::TooLong);
    memory[65_535] = 1;
    assert_eq!(refused(&memory, &map, 400_000), NotListed::NotDecoded(Address(65_535)));
    assert_eq!((NotListed::TooLong.number(), NotListed::TooLong.address()), (3, 0));
}

#[test]
fn bytes_up_to_32768_are_given() {
    // NOP takes four bytes, HALT five, END four
    let nops = vec![0; 8_191];
    let (reply, room) = replied(&nops, &vec![1; 8_191], 40_000);
    assert_eq!(reply, Ok(32_768));
    assert_eq!(room, format!("{}END\n{}", "NOP\n".repeat(8_191), ".".repeat(7_232)));
    let and_halt = [&nops[1..], &[64]].concat();
    for room in [32_768, 32_769, 40_000] {
        assert_eq!(refused(&and_halt, &vec![1; 8_191], room), NotListed::TooLong);
    }
    assert_eq!(refused(&nops, &vec![1; 8_191], 32_767), NotListed::TooLong);
}

#[test]
fn the_listing_assembles_to_the_same_image() {
    let (memory, map) = document_01();
    assert_eq!(assembled(16, LISTING), (memory.clone(), map.clone()));
    assert_eq!(back::image(&memory, &map), Ok(Came::Back));
    // cells that were free come back as 0
    assert_eq!(back::image(&[64, 9, 5, 9], &[1, 0, 2, 0]), Ok(Came::Back));
}

//! Document 01, "The printed image"; readings, "Loans and printing".

use crate::support::assembled;
use second::image::{print, text, NotPrinted};
use second::program::{assemble_text, bad_size_text, memory_size};

const SOURCE: &[u8] = b"ORG 2\nx: EQU 5\nMOVE #x,.A\nHALT\nDATA \"a\",-1\n";

const IMAGE: &str = "version=1\nsize=16\nclaimed=7\ncell=2,code,138\ncell=3,code,5\n\
    cell=4,code,10\ncell=5,code,64\ncell=6,data,97\ncell=7,data,0\ncell=8,data,65535\n";

#[test]
fn printed_image_of_document_01() {
    assert_eq!(assemble_text(16, SOURCE), Ok(IMAGE.to_string()));
}

#[test]
fn refusal_prints_three_lines() {
    assert_eq!(assemble_text(3, SOURCE), Err("refused=11\nline=3\ncolumn=1\n".to_string()));
    assert_eq!(bad_size_text(), "refused=1\nline=0\ncolumn=0\n");
}

#[test]
fn room_equal_to_the_length_is_enough() {
    let (memory, map) = assembled(16, SOURCE);
    let mut room = vec![b'.'; IMAGE.len()];
    assert_eq!(print(&memory, &map, &mut room), Ok(IMAGE.len()));
    assert_eq!(room, IMAGE.as_bytes());
    let mut short = vec![b'.'; IMAGE.len() - 1];
    assert_eq!(print(&memory, &map, &mut short), Err(NotPrinted::RoomShort));
    assert!(short.iter().all(|byte| *byte == b'.'), "nothing written");
    let mut ample = vec![b'.'; IMAGE.len() + 1];
    assert_eq!(print(&memory, &map, &mut ample), Ok(IMAGE.len()));
    assert_eq!(ample[IMAGE.len()], b'.');
}

#[test]
fn bad_lengths_or_marks_come_before_short_room() {
    assert_eq!(print(&[0; 2], &[0, 4], &mut []), Err(NotPrinted::BadLoan));
    assert_eq!(print(&[0; 2], &[0; 3], &mut []), Err(NotPrinted::BadLoan));
    assert_eq!(print(&[], &[], &mut []), Err(NotPrinted::BadLoan));
    assert_eq!(print(&[0; 2], &[0; 2], &mut []), Err(NotPrinted::RoomShort));
    assert_eq!(print(&vec![0; 65_537], &vec![0; 65_537], &mut []), Err(NotPrinted::BadLoan));
}

#[test]
fn a_free_cells_value_is_never_printed() {
    let text = text(&[9, 8, 7], &[0, 2, 0]).unwrap();
    assert_eq!(text, "version=1\nsize=3\nclaimed=1\ncell=1,data,8\n");
}

#[test]
fn the_library_prints_at_every_size() {
    let text = text(&vec![1; 65_536], &vec![1; 65_536]).unwrap();
    assert!(text.starts_with("version=1\nsize=65536\nclaimed=65536\ncell=0,code,1\n"));
    assert!(text.ends_with("cell=65535,code,1\n"));
}

#[test]
fn the_programs_m_is_a_decimal_number_in_1_to_16384() {
    assert_eq!(memory_size("1"), Some(1));
    assert_eq!(memory_size("16384"), Some(16_384));
    assert_eq!(memory_size("0016"), Some(16));
    for bad in ["", "0", "000", "16385", "-1", "+5", "0x10", " 5", "5 ", "5a", "99999999999999"] {
        assert_eq!(memory_size(bad), None, "{:?}", bad);
    }
}

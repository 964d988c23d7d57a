//! Document 02, K2, and its settled readings: "K2, reserved cells", row by row. The rows of
//! document 01's readings that K2 changes are in `lines` and `sources`.

use crate::support::{assembled, reply, Owned};
use second::assembler::{assemble, Accepted};
use second::back::{self, Came};
use second::image::{self, NotPrinted, CODE, DATA, FREE, RESERVED};
use second::listing::{self, NotListed};
use second::program::assemble_text;

/// The three counts of an accepted source.
fn counts(cells: usize, source: &str) -> (u32, u32, u32) {
    let mut lent = (vec![0xabcd; cells], vec![7; cells]);
    let accepted = assemble(source.as_bytes(), &mut lent.0, &mut lent.1);
    let Accepted { code, data, reserved } = accepted.expect("accepted");
    (code, data, reserved)
}

/// The listing of what a source assembles to.
fn listed(cells: usize, source: &str) -> String {
    let (memory, map) = assembled(cells, source);
    listing::text(&memory, &map).expect("listed")
}

#[test]
fn the_marks_are_the_papers() {
    assert_eq!([FREE, CODE, DATA, RESERVED], [0, 1, 2, 3]);
}

/// "A site reserved forty cells for readings, a later ORG put a table there".
#[test]
fn what_the_site_wrote() {
    let source = "MOVE #0,/readings\nHALT\nORG 20\nreadings: RES 40\nORG 40\ntable: DATA 7,14,21";
    assert_eq!(reply(128, source), (12, 6));
    let mended = source.replace("ORG 40", "ORG 60");
    assert_eq!(counts(128, &mended), (4, 3, 40));
}

#[test]
fn reserved_cells_are_marked_3_and_hold_0() {
    let (memory, map) = assembled(6, "HALT\nRES 3\nDATA 9");
    assert_eq!((memory, map), (vec![64, 0, 0, 0, 9, 0], vec![1, 3, 3, 3, 2, 0]));
}

/// What becomes of "RES moves the address and claims no cell" and "ORG and RES alone never give 11".
#[test]
fn an_address_above_65536_is_6_and_comes_before_11() {
    assert_eq!(reply(16, "ORG 65535\nRES 2"), (6, 2));
    assert_eq!(reply(65_536, "ORG 65535\nRES 2"), (6, 2));
    assert_eq!(reply(16, "ORG 65535\nRES 1"), (11, 2));
    assert_eq!(reply(16, "RES 17"), (11, 1));
    assert_eq!(reply(16, "RES 16"), (0, 0));
    assert_eq!(counts(16, "RES 16"), (0, 0, 16));
    // 6 before 12 too, and a result that is out of range
    assert_eq!(reply(65_536, "ORG 65535\nHALT\nORG 65535\nRES 2"), (6, 4));
    assert_eq!(reply(16, "HALT\nORG 0\nRES 65536"), (6, 3));
    assert_eq!(reply(16, "HALT\nORG 0\nRES 0-1"), (6, 3));
}

#[test]
fn the_last_cell_and_one_past_it() {
    for cells in [1, 2, 16, 16_384, 65_535] {
        assert_eq!(reply(cells, format!("ORG {}\nRES 1", cells - 1)), (0, 0), "M {}", cells);
        assert_eq!(reply(cells, format!("ORG {}\nRES 1", cells)), (11, 2), "M {}", cells);
        assert_eq!(reply(cells, format!("ORG {}\nRES 0", cells)), (0, 0), "M {}", cells);
        assert_eq!(reply(cells, format!("RES {}", cells)), (0, 0), "M {}", cells);
        assert_eq!(reply(cells, format!("RES {}-1\nRES 2", cells)), (11, 2), "M {}", cells);
    }
    assert_eq!(reply(65_536, "ORG 65535\nRES 1"), (0, 0));
    assert_eq!(reply(65_536, "RES 65535\nRES 1"), (0, 0));
    assert_eq!(reply(65_536, "RES 65535\nRES 1\nRES 1"), (6, 3));
    assert_eq!(reply(65_535, "RES 65535\nRES 1"), (11, 2));
}

/// Which rows of READINGS change.
#[test]
fn the_rows_with_res_1_at_65535() {
    assert_eq!(reply(65_536, "ORG 65535\nRES 1\nx: NOP"), (6, 3));
    assert_eq!(reply(65_536, "ORG 65535\nRES 1\nNOP"), (11, 3));
    assert_eq!(reply(65_536, "ORG 65535\nRES 1\nx: ORG 0\nHALT"), (0, 0));
    for rest in ["x: NOP", "NOP", "x: ORG 0\nHALT", "x: EQU 4", "RES 0", "END", "x:\n\n"] {
        assert_eq!(reply(16, format!("ORG 65535\nRES 1\n{}", rest)), (11, 2), "{}", rest);
    }
}

#[test]
fn res_0_claims_no_cell() {
    assert_eq!(reply(16, "ORG 60000\nRES 0"), (0, 0));
    assert_eq!(reply(16, "NOP\nORG 0\nRES 0"), (0, 0));
    assert_eq!(reply(65_536, "ORG 65535\nRES 1\nx: RES 0"), (6, 3));
    assert_eq!(reply(65_536, "ORG 65535\nRES 1\nRES 0"), (0, 0));
    assert_eq!(counts(16, "RES 2\nORG 1\nRES 0\nORG 16\nRES 0"), (0, 0, 2));
    // a label there is bound
    let (memory, _) = assembled(16, "NOP\nNOP\nORG 1\nx: RES 0\nORG 2\nPUSH #x\ny: RES 0\nPUSH #y");
    assert_eq!(memory[2..6], [200, 1, 200, 4]);
    let (memory, _) = assembled(16, "ORG 60000\nx: RES 0\nORG 0\nPUSH #x");
    assert_eq!(memory[..2], [200, 60_000]);
}

#[test]
fn eleven_over_all_cells_then_twelve() {
    assert_eq!(reply(4, "NOP\nORG 0\nRES 5"), (11, 3));
    assert_eq!(reply(4, "RES 4\nORG 3\nNOP"), (12, 3));
    assert_eq!(reply(4, "NOP\nORG 0\nRES 4"), (12, 3));
    assert_eq!(reply(4, "RES 4\nORG 3\nPUSH #1"), (11, 3));
    assert_eq!(reply(4, "RES 4\nORG 3\nDATA 1,2"), (11, 3));
}

/// 12 is on the later line, whichever of the two is RES, and whichever cell they share.
#[test]
fn twelve_between_every_two_statements() {
    let statements = ["MOVE .A,.R1", "DATA 1,2,3", "RES 3"];
    for earlier in statements {
        for later in statements {
            for (start, expected) in
                [(17, (0, 0)), (18, (12, 4)), (20, (12, 4)), (22, (12, 4)), (23, (0, 0))]
            {
                let source = format!("ORG 20\n{}\nORG {}\n{}", earlier, start, later);
                assert_eq!(reply(64, source), expected, "{} at {} {}", earlier, start, later);
            }
        }
    }
}

#[test]
fn labels_at_res_are_bound_to_its_start() {
    let (memory, map) = assembled(16, "a:\nb: RES 3\nc: RES 2\nMOVE #a,#b[.IX]\nPUSH #c");
    assert_eq!(memory[..10], [0, 0, 0, 0, 0, 141, 0, 0, 200, 3]);
    assert_eq!(map[..10], [3, 3, 3, 3, 3, 1, 1, 1, 1, 1]);
    // 6 of the label's address and 6 of the sum are one
    assert_eq!(reply(65_536, "ORG 65535\nRES 1\nx: RES 1"), (6, 3));
    assert_eq!(reply(65_536, "ORG 65535\nHALT\nx: RES 1"), (6, 3));
}

#[test]
fn acceptance_returns_a_third_count() {
    assert_eq!(counts(16, "HALT\nRES 2\nDATA 5"), (1, 1, 2));
    assert_eq!(counts(16, ""), (0, 0, 0));
    assert_eq!(counts(65_536, "RES 65535\nRES 1"), (0, 0, 65_536));
    let text = assemble_text(16, b"HALT\nRES 2\nDATA 5").expect("an image");
    assert_eq!(
        text,
        "version=1\nsize=16\nclaimed=4\ncell=0,code,64\ncell=1,reserved,0\ncell=2,reserved,0\n\
         cell=3,data,5\n",
        "`claimed` is their sum"
    );
}

#[test]
fn a_reserved_cells_value_is_not_looked_at() {
    let printed = image::text(&[7], &[3]).expect("printed");
    assert_eq!(printed, "version=1\nsize=1\nclaimed=1\ncell=0,reserved,0\n");
    assert_eq!(listing::text(&[7], &[3]), Ok("RES 1\nEND\n".to_string()));
    // also one that would not decode
    assert_eq!(listing::text(&[64, 1, 65_535], &[1, 3, 3]), Ok("HALT\nRES 2\nEND\n".to_string()));
}

#[test]
fn a_mark_above_3_is_refused() {
    for mark in [4, 5, 128, 255] {
        for map in [[mark, 3], [3, mark], [mark, mark]] {
            let mut room = [b'.'; 99];
            assert_eq!(image::print(&[0, 0], &map, &mut room), Err(NotPrinted::BadLoan));
            assert_eq!(listing::list(&[0, 0], &map, &mut room), Err(NotListed::BadLoan));
            assert_eq!(room, [b'.'; 99], "nothing written");
        }
    }
}

#[test]
fn the_machine_does_not_look_at_marks() {
    let mut machine = Owned::with_source(16, 0, "RES 2\nMOVE #1,.SP");
    let ran = machine.run(1_000);
    assert_eq!((ran.stop.number(), ran.count), (5, 14));
}

#[test]
fn reserved_runs_side_by_side_are_one() {
    assert_eq!(listed(16, "RES 2\nRES 3"), "RES 5\nEND\n");
    assert_eq!(listed(16, "RES 2\nRES 0\nRES 3\nORG 4\nRES 0"), "RES 5\nEND\n");
    assert_eq!(listed(16, "ORG 9\nRES 3\nORG 5\nRES 4"), "ORG 5\nRES 7\nEND\n");
    assert_eq!(listed(16, "RES 2\nORG 3\nRES 3"), "RES 2\nORG 3\nRES 3\nEND\n");
    assert_eq!(
        listed(16, "HALT\nRES 2\nDATA 5\nRES 1\nRET\nORG 15\nRES 1"),
        "HALT\nRES 2\nDATA 5\nRES 1\nRET\nORG 15\nRES 1\nEND\n"
    );
}

/// "a run of 65,536 as `RES 65535`, `RES 1`": only this one takes two lines.
#[test]
fn the_whole_of_the_largest_memory() {
    let text = listed(65_536, "RES 65535\nRES 1");
    assert_eq!(text, "RES 65535\nRES 1\nEND\n");
    assert_eq!(assembled(65_536, &text), (vec![0; 65_536], vec![3; 65_536]));
    assert_eq!(listed(65_536, "ORG 1\nRES 65535"), "ORG 1\nRES 65535\nEND\n");
    assert_eq!(listed(65_536, "HALT\nRES 65535"), "HALT\nRES 65535\nEND\n");
    assert_eq!(listed(65_536, "RES 65535\nHALT"), "RES 65535\nHALT\nEND\n");
    assert_eq!(listed(65_535, "RES 65535"), "RES 65535\nEND\n");
    let printed = image::text(&vec![9; 65_536], &vec![3; 65_536]).expect("printed");
    assert!(printed.starts_with("version=1\nsize=65536\nclaimed=65536\ncell=0,reserved,0\n"));
    assert!(printed.ends_with("cell=65534,reserved,0\ncell=65535,reserved,0\n"));
}

/// "its promise also wants reserved cells to hold 0": those that did not come back as 0.
#[test]
fn listings_with_reserved_cells_come_back() {
    assert_eq!(back::image(&[64, 9, 5, 9], &[1, 3, 2, 0]), Ok(Came::Back));
    assert_eq!(back::image(&[0, 7, 200, 1], &[3, 3, 1, 1]), Ok(Came::Back));
    assert_eq!(back::image(&vec![1; 65_536], &vec![3; 65_536]), Ok(Came::Back));
    // a code run that a reserved cell cuts does not decode within itself
    assert!(matches!(
        back::image(&[200, 0], &[1, 3]),
        Ok(Came::NotListed(NotListed::NotDecoded(_)))
    ));
}

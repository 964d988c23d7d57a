//! The generator: what it reaches, and that it is the same everywhere.

use second::answer::answer;
use second::case::{self, Case};
use second::count::Counts;
use second::make::{Kind, Maker};
use second::reply::Reply;

fn made(kind: &str, count: usize, seed: u64) -> Vec<Case> {
    let mut maker = Maker::new(Kind::of_name(kind).expect("a kind"), seed);
    (0..count).map(|_| maker.next_case()).collect()
}

#[test]
fn some_thousand_cases_reach_everything() {
    let mut counts = Counts::default();
    for case in made("all", 6_000, 2).iter().chain(&made("assemble", 1_500, 2)) {
        counts.add(case);
    }
    let reached = |group: usize, numbers: &[usize]| {
        for number in numbers {
            assert!(
                counts.by_group[group][*number] > 0,
                "{} of group {}\n{}",
                number,
                group,
                counts
            );
        }
    };
    reached(0, &[0, 1, 2, 3, 4, 6, 7, 8, 9, 10, 11, 12, 13, 14, 15, 16]);
    reached(1, &[0, 5]);
    reached(2, &[0, 2, 3, 4, 5]);
    reached(3, &[0, 1, 2, 3, 4, 5, 6, 8, 9, 10]);
    reached(4, &[1, 2, 3, 4, 5, 6, 7, 8, 9, 10]);
    reached(5, &[0, 1, 2]);
    reached(7, &[0, 1, 2, 3]);
}

#[test]
fn four_thousand_lines_reach_every_refusal_of_a_line() {
    let mut counts = Counts::default();
    for case in made("line", 4_000, 2) {
        counts.add(&case);
    }
    for number in [0, 3, 4, 6, 7, 8, 15, 16] {
        assert!(counts.by_group[6][number] > 0, "{}\n{}", number, counts);
    }
}

/// What the papers leave possible for an opcode's step, and nothing else, occurs.
#[test]
fn no_step_comes_to_what_is_not_listed() {
    let mut counts = Counts::default();
    for case in made("step", 30_000, 5) {
        counts.add(&case);
    }
    for opcode in second::isa::opcode::ALL {
        let listed = second::make::covered::stops(opcode);
        for (_, stop, completed) in counts.stops.iter().filter(|(of, ..)| *of == opcode.number()) {
            let found = |listed: &(second::machine::Stop, bool)| {
                (listed.0.number(), listed.1) == (*stop, *completed)
            };
            assert!(listed.iter().any(found), "{:?} {} {}", opcode, stop, completed);
        }
    }
}

#[test]
fn case_lines_read_back_to_the_same_case() {
    let kinds =
        [("all", 3_000), ("assemble", 1_400), ("machine", 1_600), ("print", 300), ("list", 800)];
    for case in kinds.iter().flat_map(|(kind, count)| made(kind, *count, 3)) {
        let line = case.to_string();
        assert_eq!(case::read(&line), Ok(case), "{}", line);
    }
}

#[test]
fn a_refusal_leaves_memory_and_map_as_they_were() {
    for case in made("assemble", 2_000, 4) {
        let reply = answer(&case);
        if let Reply::Assemble {
            refusal,
            line,
            column,
            place,
            code,
            data,
            reserved,
            cells,
            marks,
        } = reply
        {
            let marked = |wanted: u8| marks.iter().filter(|(_, mark)| *mark == wanted).count();
            let counts = [code, data, reserved].map(|count| count as usize);
            // on a refusal nothing differs, so that these are 0 too
            assert_eq!(counts, [1, 2, 3].map(marked), "{}", case);
            assert!(refusal == 0 || (cells.is_empty() && marks.is_empty()));
            assert_eq!(line == 0, refusal <= 2, "{}", case);
            // of a refusal that names a line only 6 can be without a column
            assert!(column == 0 || line > 0, "{}", case);
            assert!(column > 0 || refusal <= 2 || refusal == 6, "{}", case);
            assert_eq!(place > 0, refusal == 16, "{}", case);
        }
    }
}

/// FNV-1a over the lines of some cases.
fn hash(kind: &str) -> u64 {
    let mut hash = 0xcbf2_9ce4_8422_2325u64;
    for case in made(kind, 500, 1) {
        for byte in format!("{}\n", case).bytes() {
            hash = (hash ^ u64::from(byte)).wrapping_mul(0x0000_0100_0000_01b3);
        }
    }
    hash
}

#[test]
fn the_same_seed_makes_the_same_cases() {
    let kinds =
        ["assemble", "encode", "decode", "step", "run", "print", "list", "machine", "all", "line"];
    let hashes: Vec<String> = kinds.iter().map(|kind| format!("{:016x}", hash(kind))).collect();
    assert_eq!(hashes, HASHES);
    assert_ne!(made("all", 5, 1), made("all", 5, 2));
    assert_eq!(made("all", 9, 7)[..5], made("all", 5, 7));
}

const HASHES: [&str; 10] = [
    "1b4cff498b11b37f",
    "33aaa0e3d1dfb997",
    "42c4d3d0dd05232d",
    "cd8e5ef9c09fce58",
    "52baa4450c0014f9",
    "85518cdcbe3222dc",
    "2f8092e391c4702e",
    "08bbacac1c166655",
    "7feee71c6d9578cb",
    "845f499ccca9d0a8",
];

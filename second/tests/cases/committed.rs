//! The committed cases are still answered as they were, and reach what they should (second/cases).

use second::answer::answer;
use second::case::{self, Case, LentSource};
use second::count::Counts;
use second::isa::Instruction;
use second::listing;
use second::reply::Reply;
use second::text::{lines, read_line, Statement};
use std::collections::BTreeSet;
use std::fs::read_to_string;

fn check(name: &str, count: usize) {
    let path = |ending: &str| format!("{}/cases/{}.{}", env!("CARGO_MANIFEST_DIR"), name, ending);
    let cases = read_to_string(path("cases")).expect("the cases");
    let replies = read_to_string(path("replies")).expect("the replies");
    assert_eq!((cases.lines().count(), replies.lines().count()), (count, count));
    for (line, reply) in cases.lines().zip(replies.lines()) {
        let case = case::read(line).expect(line);
        assert_eq!(answer(&case).to_string(), reply, "{}", line);
    }
}

#[test]
fn assemble_cases() {
    check("assemble", 5_000);
}

#[test]
fn machine_cases() {
    check("machine", 7_000);
}

#[test]
fn line_cases() {
    check("line", 4_000);
}

#[test]
fn print_cases() {
    check("print", 500);
}

#[test]
fn list_cases() {
    check("list", 800);
}

/// The committed cases of a kind.
pub fn committed(name: &str) -> Vec<Case> {
    let path = format!("{}/cases/{}.cases", env!("CARGO_MANIFEST_DIR"), name);
    let cases = read_to_string(path).expect("the cases");
    cases.lines().map(|line| case::read(line).expect(line)).collect()
}

fn counted(cases: &[Case]) -> Counts {
    let mut counts = Counts::default();
    cases.iter().for_each(|case| counts.add(case));
    counts
}

/// The committed sources, each with its refusal and line.
fn sources() -> Vec<(LentSource, u8, u32)> {
    let cases = committed("assemble").into_iter();
    cases
        .filter_map(|case| match (answer(&case), case) {
            (Reply::Assemble { refusal, line, .. }, Case::Assemble(lent)) => {
                Some((lent, refusal, line))
            }
            _ => None,
        })
        .collect()
}

#[test]
fn a_third_of_the_sources_is_accepted_and_each_refusal_is_frequent() {
    let [by_refusal, ..] = counted(&committed("assemble")).by_group;
    let all: u64 = by_refusal.iter().sum();
    assert!(3 * by_refusal[0] >= all, "{:?}", by_refusal);
    assert_eq!(by_refusal[5], 0, "document 02, K4: for a source 5 goes");
    for (refusal, count) in by_refusal.iter().enumerate().filter(|(refusal, _)| *refusal != 5) {
        // a source that is too long takes 64 KB here
        let least = if refusal == 2 { 4 } else { 40 };
        assert!(*count >= least, "{} only {} times", refusal, count);
    }
}

#[test]
fn every_refusal_of_a_line_occurs_past_line_100() {
    let late: BTreeSet<u8> = sources()
        .iter()
        .filter(|(_, _, line)| *line > 100)
        .map(|(_, refusal, _)| *refusal)
        .collect();
    let expected = (3..=16).filter(|refusal| *refusal != 5).collect::<BTreeSet<u8>>();
    assert_eq!(late, expected);
}

#[test]
fn sources_of_every_length_around_the_limit_and_memories_of_every_size() {
    let all = sources();
    for length in 32_766..=32_770 {
        assert!(all.iter().any(|(lent, ..)| lent.source.len() == length), "{} bytes", length);
    }
    for cells in [1, 2, 16, 16_384, 65_535, 65_536] {
        let accepted = |(lent, refusal, _): &&(LentSource, u8, u32)| {
            lent.memory.cells == cells && *refusal == 0
        };
        assert!(all.iter().filter(accepted).count() >= 10, "accepted at {}", cells);
        for map_length in [cells - 1, cells + 1] {
            assert!(all.iter().any(|(lent, refusal, _)| {
                (lent.memory.cells, lent.map_length, *refusal) == (cells, map_length, 1)
            }));
        }
    }
    for cells in [0, 65_537] {
        assert!(all.iter().any(|(lent, refusal, _)| lent.memory.cells == cells && *refusal == 1));
    }
}

#[test]
fn steps_of_every_first_word_and_every_stop_of_every_opcode() {
    let counts = counted(&committed("machine"));
    assert_eq!((counts.first_words.len(), counts.completed.len()), (601, 601));
    assert_eq!(counts.stops.len(), Counts::all_stops());
}

#[test]
fn inputs_and_rooms_above_100_bytes() {
    let (mut taken, mut written) = (0, 0);
    for case in committed("machine") {
        let (lent, left) = match (&case, answer(&case)) {
            (Case::Step(lent), Reply::Step(_, left)) => (lent, left),
            (Case::Run(_, lent), Reply::Run(_, _, left)) => (lent, left),
            _ => continue,
        };
        taken += usize::from(left.input_position.saturating_sub(lent.input_position) > 100);
        written += usize::from(left.output_position.saturating_sub(lent.output_position) > 100);
    }
    assert!(taken >= 20 && written >= 12, "{} and {}", taken, written);
}

#[test]
fn every_reply_to_printing_is_frequent() {
    let counts = counted(&committed("print"));
    assert!(counts.by_group[5][..3].iter().all(|count| *count >= 100), "{}", counts);
}

#[test]
fn every_reply_to_listing_is_frequent() {
    let counts = counted(&committed("list"));
    let replies = &counts.by_group[7][..4];
    assert!(replies[0] >= 300 && replies[1..].iter().all(|count| *count >= 60), "{}", counts);
}

/// All instructions that are listed.
fn listed_instructions() -> Vec<Instruction> {
    let mut all = Vec::new();
    for case in committed("list") {
        let lent = match (answer(&case), case) {
            (Reply::List { code: 0, .. }, Case::List(lent)) => lent,
            _ => continue,
        };
        let text = listing::text(&lent.memory.row(), &lent.map()).expect("listed");
        for line in lines(text.as_bytes()) {
            if let Ok(Some(Statement::Instruction(written))) = read_line(line).says() {
                all.push(written.instruction);
            }
        }
    }
    all
}

#[test]
fn every_opcode_is_listed_with_every_kind_of_operand_and_extreme_words() {
    let listed = listed_instructions();
    let kinds = |of: &Instruction| (of.opcode.number(), of.first.kind(), of.second.kind());
    let together: BTreeSet<(u16, u8, u8)> = listed.iter().map(kinds).collect();
    assert_eq!(together.len(), 601);
    let mut words: BTreeSet<(u16, u8, u8, u16)> = BTreeSet::new();
    for of in &listed {
        let number = of.opcode.number();
        words.insert((number, 1, of.first.kind(), of.first.word()));
        words.insert((number, 2, of.second.kind(), of.second.word()));
    }
    for (number, first, second) in together {
        for (place, kind) in [(1, first), (2, second)] {
            // nothing, a register, or any word
            let wanted: &[u16] = match kind {
                0 => &[0],
                2 | 4 => &[0, 1, 15],
                _ => &[0, 1, 32_767, 32_768, 65_535],
            };
            for word in wanted {
                let found = words.contains(&(number, place, kind, *word));
                assert!(found, "opcode {}, operand {}, {} {}", number, place, kind, word);
            }
        }
    }
}

#[test]
fn listings_fail_at_every_end_of_the_addresses_and_texts_have_every_length_around_the_limit() {
    let (mut addresses, mut lengths) = (BTreeSet::new(), BTreeSet::new());
    for case in committed("list") {
        if let Case::List(lent) = &case {
            let text = listing::text(&lent.memory.row(), &lent.map());
            lengths.extend(text.map(|text| text.len()));
        }
        if let Reply::List { code: 2, address, .. } = answer(&case) {
            addresses.insert(address);
        }
    }
    assert!([0, 1, 2, 3, 65_533, 65_534, 65_535].iter().all(|at| addresses.contains(at)));
    assert!((32_766..=32_770).all(|length| lengths.contains(&length)));
}

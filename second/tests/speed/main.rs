//! The work that is timed (docs/COMPARED.md, "Speed").

use second::machine::Stop;
use second::make::lookup::{self, Names};
use second::speed::{Assembled, Done, SourceWork, Work, ROOM, SOURCES, WORKS};
use second::text::{lines, read_line};
use std::collections::{BTreeMap, BTreeSet};

#[test]
fn no_program_ends() {
    for work in &WORKS {
        let Done { steps, stop, .. } = Work { budget: 8_000, runs: 5, ..*work }.perform();
        assert_eq!((steps, stop), (40_000, Stop::BudgetSpent));
    }
}

#[test]
fn each_program_is_to_do_8_000_000_steps() {
    for work in &WORKS {
        assert_eq!(work.runs * work.budget, 8_000_000);
    }
}

/// Runs that follow each other come to the same as one.
#[test]
fn a_run_may_be_parted() {
    for work in &WORKS[..2] {
        let whole = Work { budget: 3_000, runs: 1, ..*work };
        let parted = Work { budget: 500, runs: 6, ..*work };
        assert_eq!(whole.perform(), parted.perform());
    }
}

/// A turn of the third program writes 40 bytes in its first of five steps. Its budget fits.
#[test]
fn the_room_suffices() {
    let turns = ROOM as u32 / 40;
    let stop = |budget| Work { budget, runs: 1, ..WORKS[2] }.perform().stop;
    assert_eq!(stop(5 * turns), Stop::BudgetSpent);
    assert_eq!(stop(5 * turns + 1), Stop::OutputShort);
    assert!(WORKS[2].budget <= 5 * turns);
}

/// Each time is accepted, and none leaves anything to the next.
#[test]
fn assembling_again_comes_to_the_same() {
    for work in &SOURCES {
        let once = SourceWork { times: 1, ..*work }.perform();
        let often = SourceWork { times: 7, ..*work }.perform();
        assert_eq!(often, Assembled { times: 7, ..once });
        assert!(once.code > 3_000 && once.data > 500);
        assert_eq!(work.times, 100);
    }
    let refused = SourceWork { source: b"FOO", times: 3, ..SOURCES[0] }.perform();
    assert_eq!(refused, Assembled { times: 0, code: 0, data: 0, checksum: 0 });
}

#[test]
fn the_sources_are_as_large_as_they_should_be() {
    for (work, labels) in SOURCES.iter().zip([20, 500]) {
        assert_eq!(work.source, second::make::bench::source(labels).as_bytes());
        assert!((30_000..=32_768).contains(&work.source.len()));
        let all: Vec<&[u8]> = lines(work.source).collect();
        assert_eq!(all.len(), 1_500);
        let names = all.iter().filter_map(|line| Some(read_line(line).label?.what));
        assert_eq!(names.collect::<BTreeSet<_>>().len(), labels);
    }
}

/// Every number of labels that there can be, with names of each way.
fn lookup_sources() -> impl Iterator<Item = (Names, usize, String)> {
    let all = [Names::Alike, Names::Middle, Names::Mixed];
    let wanted = all.into_iter().flat_map(|names| (1..=512).map(move |labels| (names, labels)));
    wanted.map(|(names, labels)| (names, labels, lookup::source(names, labels)))
}

#[test]
fn a_look_up_source_has_one_length_and_is_accepted() {
    for (names, labels, source) in lookup_sources() {
        assert_eq!(source.len(), 31_000, "{:?} {}", names, labels);
        let work = SourceWork { name: "", source: source.as_bytes(), times: 1 };
        assert_eq!(work.perform().times, 1, "{:?} {}", names, labels);
    }
}

/// How often each of a source's labels stands in an operand.
fn uses(source: &str) -> BTreeMap<&str, usize> {
    let text = |name| std::str::from_utf8(name).expect("text");
    let labels = lines(source.as_bytes()).filter_map(|line| Some(read_line(line).label?.what));
    let mut uses: BTreeMap<&str, usize> = labels.map(|name| (text(name), 0)).collect();
    for line in source.lines() {
        let statement = line.split(';').next().unwrap_or("");
        let behind_label = statement.split_once(':').map_or(statement, |(_, behind)| behind);
        for word in behind_label.split(|sign: char| !sign.is_ascii_alphanumeric() && sign != '_') {
            if let Some(count) = uses.get_mut(word) {
                *count += 1;
            }
        }
    }
    uses
}

#[test]
fn a_look_up_source_uses_each_of_its_labels_three_times() {
    for (names, labels, source) in lookup_sources() {
        let uses = uses(&source);
        assert_eq!(uses.len(), labels, "{:?} {}", names, labels);
        assert!(uses.values().all(|count| *count == lookup::USES), "{:?} {}", names, labels);
    }
}

/// How many lengths with first letters, and how many endings of three bytes, a source's names have.
fn shapes(names: Names, labels: usize) -> (usize, usize) {
    let source = lookup::source(names, labels);
    let uses = uses(&source);
    let begun: BTreeSet<_> = uses.keys().map(|name| (name.len(), name.as_bytes()[0])).collect();
    let ends: BTreeSet<_> = uses.keys().map(|name| &name[name.len().saturating_sub(3)..]).collect();
    (begun.len(), ends.len())
}

#[test]
fn names_differ_in_their_ending_in_their_middle_or_anywhere() {
    for labels in [20, 50, 100, 200, 500] {
        assert_eq!(shapes(Names::Alike, labels), (1, labels));
        assert_eq!(shapes(Names::Middle, labels), (1, 1));
        assert!(shapes(Names::Mixed, labels).0 >= 20);
    }
}

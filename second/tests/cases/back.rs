//! Listings assembled again: made sources' images and made images come back.

use second::back::Tally;
use second::make::{Kind, Maker};

/// How far so many made cases came; none may differ.
fn tally(kind: Kind, count: usize, seed: u64) -> Tally {
    let mut maker = Maker::new(kind, seed);
    let mut tally = Tally::default();
    for _ in 0..count {
        let case = maker.next_case();
        assert_eq!(tally.add(&case), Ok(()), "{}", case);
    }
    tally
}

#[test]
fn what_is_assembled_is_listed_and_assembled_again() {
    let sources = tally(Kind::Assemble, 6_000, 6);
    // only a text that is too long is refused
    assert_eq!((sources.refused[1], sources.refused[2]), (0, 0));
    assert!(sources.back >= 2_000 && sources.refused[3] >= 1, "{}", sources);
}

#[test]
fn every_listing_of_an_image_is_assembled_again() {
    let images = tally(Kind::List, 3_000, 6);
    assert!(images.back >= 1_000 && images.refused[1..].iter().all(|count| *count >= 10));
    tally(Kind::Print, 600, 6);
}

//! The format of cases and replies, by docs/COMPARED.md's own examples.

use second::answer::answer;
use second::case;

/// Every example of docs/COMPARED.md: a line `> case` and below it `< reply`.
#[test]
fn the_examples_of_the_document() {
    let path = concat!(env!("CARGO_MANIFEST_DIR"), "/../docs/COMPARED.md");
    let document = std::fs::read_to_string(path).expect("docs/COMPARED.md");
    let lines: Vec<&str> = document.lines().collect();
    let mut examples = 0;
    for pair in lines.windows(2) {
        if let (Some(line), Some(reply)) = (pair[0].strip_prefix("> "), pair[1].strip_prefix("< "))
        {
            let case = case::read(line).expect(line);
            assert_eq!(case.to_string(), line);
            assert_eq!(answer(&case).to_string(), reply, "{}", line);
            examples += 1;
        }
    }
    assert!(examples >= 12, "only {} examples", examples);
}

#[test]
fn malformed_lines_are_refused() {
    let malformed = [
        "",
        "X",
        "A",
        "A 1 1 0 0 0",
        "A 1 1 0 0 0 - ",
        "A 01 1 0 0 0 -",
        "A 1 1 0 0 0 0",
        "A 1 1 0 0 0 AA",
        "A 1 1 0 0 256 -",
        "A 65601 1 0 0 0 -",
        "A 1  1 0 0 0 -",
        "A +1 1 0 0 0 -",
        "E 1 9 0 0 0",
        "E 256 0 0 0 0",
        "D 2 1",
        "D 6 0 0 0 0 0 0",
        "D 1 65536",
        "R 4294967296",
        "D 1 1 ",
        "D 1 1\r",
        "P 1 1 0 0 1 1 5 0 0 9 9",
        "G 1 1 0 0 0 0 0 9",
        "G 1 1 0 0 0 0 0 9 9 9",
        "G 1 1 0 0 1 1 5 0 0 9 9",
        "G 1 1 0 0 0 0 1 1 1 9 9",
        "G 1 1 0 0 0 0 0 2000001 9",
    ];
    for line in malformed {
        assert!(case::read(line).is_err(), "{:?}", line);
    }
}

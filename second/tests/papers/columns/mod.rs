//! Document 02, K4, and its settled readings: which column a refusal has, 15 and 16 with its place.

mod form;
mod others;
mod prefixes;
mod right;
mod sentences;

use second::assembler::{assemble, Refused};

/// How a source at M is refused; memory and map stay as they were.
fn refused(cells: usize, source: &[u8]) -> Option<Refused> {
    let mut memory = vec![0xabcd; cells];
    let mut map = vec![7; cells];
    let refused = assemble(source, &mut memory, &mut map).err()?;
    assert!(memory.iter().all(|cell| *cell == 0xabcd) && map.iter().all(|mark| *mark == 7));
    Some(refused)
}

/// A refusal as the readings write it: "4@2:7" is 4 on line 2, column 7; "3:7" is on line 1;
/// "16:9/2" has the operand's place. Acceptance is "0".
fn told(cells: usize, source: &[u8]) -> String {
    let Refused { refusal, line, column } = match refused(cells, source) {
        Some(refused) => refused,
        None => return "0".to_string(),
    };
    let line = if line.0 == 1 { String::new() } else { format!("@{}", line.0) };
    let place = match (refusal.number(), refusal.place()) {
        (16, place) => format!("/{}", place),
        (_, place) => {
            assert_eq!(place, 0, "only 16 has a place");
            String::new()
        }
    };
    format!("{}{}:{}{}", refusal.number(), line, column.0, place)
}

/// Rows of a table at M 16.
fn rows(rows: &[(&str, &str)]) {
    for (source, expected) in rows {
        assert_eq!(told(16, source.as_bytes()), *expected, "{:?}", source);
    }
}

/// Sources of a row that are all told the same at M 16.
fn each(expected: &str, sources: &[&str]) {
    for source in sources {
        assert_eq!(told(16, source.as_bytes()), expected, "{:?}", source);
    }
}

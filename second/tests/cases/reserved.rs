//! Reserved cells in the committed cases (document 02, K2). Who claims what is found here once more,
//! by a walk over the source's lines.

use crate::committed::committed;
use second::answer::answer;
use second::case::{Case, LentImage, LentSource};
use second::listing;
use second::reply::Reply;
use second::text::{lines, read_line, Statement};
use std::collections::{BTreeMap, BTreeSet};

const MARKS: [u8; 3] = [1, 2, 3];

/// Cells that a statement claims, with their mark; `RES 0` claims none.
struct Claim {
    mark: u8,
    start: usize,
    cells: usize,
}

/// The claims of a source up to a line, this line's last; all up to END if there is no such line.
fn claims(source: &[u8], until: u32) -> Vec<Claim> {
    let (mut claims, mut start) = (Vec::new(), 0);
    for (at, line) in lines(source).enumerate() {
        let (mark, cells) = match read_line(line).says() {
            Ok(Some(Statement::Instruction(written))) => {
                (1, usize::from(written.instruction.length()))
            }
            Ok(Some(Statement::Data(cells))) => (2, cells.len()),
            Ok(Some(Statement::Res(cells))) => (3, usize::from(cells)),
            Ok(Some(Statement::Org(address))) => {
                start = usize::from(address);
                continue;
            }
            Ok(Some(Statement::End)) => break,
            _ => continue,
        };
        claims.push(Claim { mark, start, cells });
        if at as u32 + 1 == until {
            break;
        }
        start += cells;
    }
    claims
}

/// The map that claims make, by address.
fn map(claims: &[Claim]) -> BTreeMap<usize, u8> {
    let cells = |claim: &Claim| claim.start..claim.start + claim.cells;
    claims.iter().flat_map(|claim| cells(claim).map(move |at| (at, claim.mark))).collect()
}

struct Answered {
    lent: LentSource,
    refusal: u8,
    line: u32,
    marks: Vec<(usize, u8)>,
}

fn sources() -> Vec<Answered> {
    let answered = |case: Case| match (answer(&case), case) {
        (Reply::Assemble { refusal, line, marks, .. }, Case::Assemble(lent)) => {
            Answered { lent, refusal, line, marks }
        }
        (_, case) => panic!("{}", case),
    };
    committed("assemble").into_iter().map(answered).collect()
}

#[test]
fn every_accepted_map_is_what_the_statements_claim() {
    let (mut with_reserved, mut in_the_last_cell, mut over, mut past) = (0, 0, 0, 0);
    for Answered { lent, refusal, marks, .. } in sources() {
        if refusal != 0 {
            continue;
        }
        let claims = claims(&lent.source, 0);
        let claimed: usize = claims.iter().map(|claim| claim.cells).sum();
        assert_eq!(marks, map(&claims).into_iter().collect::<Vec<(usize, u8)>>());
        assert_eq!(marks.len(), claimed, "no cell is claimed twice");
        let last = (lent.memory.cells - 1, 3);
        with_reserved += usize::from(marks.iter().any(|(_, mark)| *mark == 3));
        in_the_last_cell += usize::from(marks.contains(&last));
        for none in claims.iter().filter(|claim| claim.cells == 0) {
            over += usize::from(marks.iter().any(|(at, _)| *at == none.start));
            past += usize::from(none.start > lent.memory.cells);
        }
    }
    assert!(
        with_reserved >= 500 && in_the_last_cell >= 50,
        "{} {}",
        with_reserved,
        in_the_last_cell
    );
    assert!(over >= 20 && past >= 20, "RES 0 over cells {}, past the end {}", over, past);
}

#[test]
fn eleven_and_twelve_between_every_two_kinds_of_cells() {
    let (mut past, mut shared) = (BTreeMap::new(), BTreeMap::new());
    for Answered { lent, refusal, line, .. } in sources() {
        let mut before = claims(&lent.source, line);
        let last = match (refusal, before.pop()) {
            (11 | 12, Some(last)) => last,
            _ => continue,
        };
        let end = last.start + last.cells;
        assert!(last.cells > 0 && (end > lent.memory.cells) == (refusal == 11));
        if refusal == 11 {
            *past.entry(last.mark).or_insert(0) += 1;
            continue;
        }
        let before = map(&before);
        let met: BTreeSet<u8> = before.range(last.start..end).map(|(_, mark)| *mark).collect();
        assert!(!met.is_empty(), "12 on line {}", line);
        for mark in met {
            *shared.entry((last.mark, mark)).or_insert(0) += 1;
        }
    }
    for later in MARKS {
        assert!(past.get(&later) >= Some(&60), "11 by {}: {:?}", later, past);
        for earlier in MARKS {
            assert!(shared.get(&(later, earlier)) >= Some(&8), "12: {:?}", shared);
        }
    }
}

#[test]
fn six_for_an_address_above_65536_in_every_memory() {
    let by_res = |all: &Answered| match claims(&all.lent.source, all.line).pop() {
        Some(Claim { mark: 3, start, cells }) => all.refusal == 6 && start + cells > 65_536,
        _ => false,
    };
    let found: Vec<Answered> = sources().into_iter().filter(by_res).collect();
    assert!(found.len() >= 20, "{}", found.len());
    for cells in [16, 65_536] {
        assert!(found.iter().any(|all| all.lent.memory.cells == cells), "at {}", cells);
    }
}

/// Images of a kind with the number of their reply.
fn images(kind: &str) -> Vec<(LentImage, u8)> {
    let answered = |case: Case| match (answer(&case), case) {
        (Reply::Print { code, .. }, Case::Print(lent)) => (lent, code),
        (Reply::List { code, .. }, Case::List(lent)) => (lent, code),
        (_, case) => panic!("{}", case),
    };
    committed(kind).into_iter().map(answered).collect()
}

#[test]
fn reserved_cells_are_printed_and_listed_whatever_they_hold() {
    for kind in ["print", "list"] {
        let (mut held, mut refused) = (0, 0);
        for (lent, code) in images(kind) {
            let (memory, map) = (lent.memory.row(), lent.map());
            let reserved = memory.iter().zip(&map).any(|(cell, mark)| *mark == 3 && *cell != 0);
            held += usize::from(code == 0 && reserved);
            let bad = map.len() == memory.len() && map.iter().any(|mark| *mark > 3);
            assert!(!bad || code == 1);
            refused += usize::from(bad && map.iter().all(|mark| *mark <= 4));
        }
        assert!(held >= 40 && refused >= 20, "{}: {} and {}", kind, held, refused);
    }
}

#[test]
fn listed_runs_of_reserved_cells() {
    let texts: Vec<String> = images("list")
        .iter()
        .filter_map(|(lent, _)| listing::text(&lent.memory.row(), &lent.map()).ok())
        .collect();
    for wanted in [
        "RES 65535\nRES 1\nEND\n",
        "RES 65535\nEND\n",
        "ORG 1\nRES 65535\nEND\n",
        "ORG 65535\nRES 1\nEND\n",
        "RES 5\nEND\n",
        "HALT\nRES 2\nDATA 5\nEND\n",
    ] {
        assert!(texts.iter().any(|text| text == wanted), "{}", wanted);
    }
    let follows = |before: &str| {
        let runs = texts.iter().flat_map(|text| text.lines().zip(text.lines().skip(1)));
        runs.filter(|(one, two)| one.starts_with(before) && two.starts_with("RES ")).count()
    };
    assert!(follows("DATA ") >= 20 && follows("HALT") >= 10 && follows("ORG ") >= 20);
    assert_eq!(
        follows("RES "),
        texts.iter().filter(|text| text.contains("RES 65535\nRES")).count()
    );
}

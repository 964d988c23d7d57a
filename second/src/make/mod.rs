//! Making cases from a seed: the same kind, count and seed give the same bytes everywhere.

pub mod assemble;
pub mod bench;
pub mod blocks;
pub mod columns;
pub mod covered;
pub mod draw;
pub mod edges;
pub mod faulty;
pub mod images;
pub mod large;
pub mod late;
pub mod lines;
pub mod listings;
pub mod lookup;
pub mod mutate;
pub mod naming;
pub mod nasty;
pub mod ports;
pub mod programs;
pub mod random;
pub mod reserved;
pub mod source;
pub mod states;
pub mod values;
pub mod whole;
pub mod words;

use crate::case::Case;
use random::Random;

/// Which cases are made.
#[derive(Clone, Copy, Debug, PartialEq, Eq)]
pub enum Kind {
    Assemble,
    Encode,
    Decode,
    Step,
    Run,
    Print,
    List,
    Line,
    /// Encode, decode, step and run mixed.
    Machine,
    /// All that a host can ask for, mixed.
    All,
}

impl Kind {
    pub fn of_name(name: &str) -> Option<Kind> {
        Some(match name {
            "assemble" => Kind::Assemble,
            "encode" => Kind::Encode,
            "decode" => Kind::Decode,
            "step" => Kind::Step,
            "run" => Kind::Run,
            "print" => Kind::Print,
            "list" => Kind::List,
            "line" => Kind::Line,
            "machine" => Kind::Machine,
            "all" => Kind::All,
            _ => return None,
        })
    }
}

/// An endless row of cases. Some kinds begin with cases that no draw may leave out.
#[derive(Clone, Debug)]
pub struct Maker {
    kind: Kind,
    random: Random,
    first: std::vec::IntoIter<Case>,
}

impl Maker {
    pub fn new(kind: Kind, seed: u64) -> Maker {
        let mut random = Random::new(seed);
        let first = match kind {
            Kind::Assemble => edges::all(&mut random),
            Kind::Machine => covered::all(&mut random),
            Kind::Print => images::edges(&mut random),
            Kind::List => listings::edges(&mut random),
            Kind::Line => columns::edge_lines().into_iter().map(Case::Line).collect(),
            _ => Vec::new(),
        };
        Maker { kind, random, first: first.into_iter() }
    }

    pub fn next_case(&mut self) -> Case {
        if let Some(case) = self.first.next() {
            return case;
        }
        let random = &mut self.random;
        let kind = match self.kind {
            Kind::All => *random.pick(&[
                Kind::Assemble,
                Kind::Assemble,
                Kind::Assemble,
                Kind::Assemble,
                Kind::Machine,
                Kind::Machine,
                Kind::Machine,
                Kind::Machine,
                Kind::Machine,
                Kind::Print,
                Kind::List,
            ]),
            kind => kind,
        };
        match kind {
            Kind::Machine => {
                let mixed =
                    [Kind::Encode, Kind::Decode, Kind::Step, Kind::Step, Kind::Step, Kind::Run];
                make(*random.pick(&mixed), random)
            }
            kind => make(kind, random),
        }
    }
}

fn make(kind: Kind, random: &mut Random) -> Case {
    match kind {
        Kind::Encode => words::encode_case(random),
        Kind::Decode => words::decode_case(random),
        Kind::Step => states::step_case(random),
        Kind::Run => programs::run_case(random),
        Kind::Print => images::print_case(random),
        Kind::List => listings::list_case(random),
        Kind::Line => lines::line_case(random),
        Kind::Assemble | Kind::Machine | Kind::All => assemble::assemble_case(random),
    }
}

//! Counting cases by kind and by what they reach, for docs/COMPARED.md.

use crate::answer::answer;
use crate::case::{Case, LentMachine};
use crate::isa::{decode, Opcode};
use crate::make::covered::{comes_to, first_word, stops};
use crate::make::edges::kinds::all_kinds;
use crate::reply::Reply;
use std::collections::BTreeSet;
use std::fmt::{self, Display, Formatter};

/// The groups in which replies are counted, with the highest number of each.
const GROUPS: [(&str, usize); 8] = [
    ("assemble, by refusal", 16),
    ("encode, by reply", 5),
    ("decode, by reply", 5),
    ("step, by stop", 10),
    ("run, by stop", 10),
    ("print, by reply", 2),
    ("line, by refusal", 16),
    ("list, by reply", 3),
];

/// How many cases of each group got each number.
#[derive(Debug, Default, PartialEq, Eq)]
pub struct Counts {
    pub by_group: [[u64; 17]; 8],
    /// The allowed first words that a step found at PC, and those whose step completed.
    pub first_words: BTreeSet<u16>,
    pub completed: BTreeSet<u16>,
    /// Opcodes with what their steps came to: the stop, and whether the step completed.
    pub stops: BTreeSet<(u16, u8, bool)>,
}

impl Counts {
    pub fn add(&mut self, case: &Case) {
        let (group, number) = match answer(case) {
            Reply::Assemble { refusal, .. } => (0, refusal),
            Reply::Encoded(_) => (1, 0),
            Reply::NotEncoded => (1, 5),
            Reply::Decoded(_) => (2, 0),
            Reply::NotDecoded(stop) => (2, stop),
            Reply::Step(stop, _) => (3, stop),
            Reply::Run(stop, _, _) => (4, stop),
            Reply::Print { code, .. } => (5, code),
            Reply::Line(_, Ok(_)) => (6, 0),
            Reply::Line(_, Err(fault)) => (6, fault.why.number()),
            Reply::List { code, .. } => (7, code),
        };
        if let Case::Step(lent) = case {
            self.add_step(lent);
        }
        if let Some(count) = self.by_group[group].get_mut(usize::from(number)) {
            *count += 1;
        }
    }

    /// What was at PC, if the machine was well lent and had not stopped.
    fn add_step(&mut self, lent: &LentMachine) {
        let (stop, completed) = comes_to(lent);
        let word = match first_word(lent) {
            Some(word) if stop.number() != 10 && lent.stop_code == 0 => word,
            _ => return,
        };
        if let Some(opcode) = Opcode::from_number(word / 64) {
            self.stops.insert((opcode.number(), stop.number(), completed));
        }
        // with words enough, only the first word itself can be refused
        if decode(&[word, 0, 0]).is_ok() {
            self.first_words.insert(word);
            if completed {
                self.completed.insert(word);
            }
        }
    }

    /// How many pairs of an opcode and what its step can come to there are.
    pub fn all_stops() -> usize {
        crate::isa::opcode::ALL.iter().map(|opcode| stops(*opcode).len()).sum()
    }
}

impl Display for Counts {
    fn fmt(&self, out: &mut Formatter) -> fmt::Result {
        let mut all = 0;
        for ((name, highest), counts) in GROUPS.iter().zip(&self.by_group) {
            let cases: u64 = counts.iter().sum();
            all += cases;
            write!(out, "{}: {} cases:", name, cases)?;
            for (number, count) in counts.iter().enumerate().take(highest + 1) {
                write!(out, " {}={}", number, count)?;
            }
            writeln!(out)?;
        }
        if self.by_group[3].iter().any(|count| *count > 0) {
            write!(out, "steps, of {} first words: {}", all_kinds().len(), self.first_words.len())?;
            write!(out, ", completed {}; ", self.completed.len())?;
            let (found, all) = (self.stops.len(), Counts::all_stops());
            writeln!(out, "of {} stops of opcodes: {}", all, found)?;
        }
        writeln!(out, "all: {} cases", all)
    }
}

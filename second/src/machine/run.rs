//! A run: steps within a budget (document 01, "What a step does").

use super::step::advance;
use super::{Machine, Stop};

/// "A run takes a budget of 0..1,000,000 and counts steps that complete."
pub const BUDGET_LIMIT: u32 = 1_000_000;

/// A run's reply: why it ended and how many steps completed, HALT among them.
#[derive(Clone, Copy, Debug, PartialEq, Eq)]
pub struct Ran {
    pub stop: Stop,
    pub count: u32,
}

/// "Before each step the order is 10, stopped already, 7." No step makes a good loan bad, so it
/// is judged once; a larger budget is 10 too, stopped or not.
pub fn run(machine: &mut Machine, budget: u32) -> Ran {
    if budget > BUDGET_LIMIT || machine.is_bad_loan() {
        return Ran { stop: Stop::BadLoan, count: 0 };
    }
    match Stop::of_code(machine.stop_code) {
        Some(Stop::None) => {}
        Some(stop) => return Ran { stop, count: 0 },
        None => return Ran { stop: Stop::BadLoan, count: 0 },
    }
    for count in 0..budget {
        let stepped = advance(machine);
        if stepped.stop != Stop::None {
            return Ran { stop: stepped.stop, count: count + u32::from(stepped.completed) };
        }
    }
    Ran { stop: Stop::BudgetSpent, count: budget }
}

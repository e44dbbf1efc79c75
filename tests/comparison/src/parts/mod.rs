//! The parts of the comparison, in the order in which they are run.

pub mod cases;
pub mod damaged;
pub mod edges;
pub mod program;
pub mod published;
pub mod room;
pub mod sheets;
pub mod tables;
pub mod truth;
pub mod z3;

use crate::compare::Compare;
use comparison::oracle::{Outcome, SAT, UNSAT, WORK_LEAST};
use comparison::sheet::Writer;

impl Compare {
    /// Solve with this many slots and the least work buffer.
    pub fn run(&mut self, sheet: &[u8], limit: u32, slots: usize) -> Outcome {
        self.solve(sheet, limit, 3 * slots, WORK_LEAST)
    }
}

pub fn written(build: impl FnOnce(&mut Writer)) -> Vec<u8> {
    let mut w = Writer::new();
    build(&mut w);
    w.sheet()
}

/// A sat or unsat that the truth speaks against; unknown never is.
pub fn contradicts(outcome: &Outcome, truth: Option<bool>) -> bool {
    match truth {
        Some(true) => outcome.verdict == UNSAT,
        Some(false) => outcome.verdict == SAT,
        None => false,
    }
}

//! The published examples: the verdict of the run, and no word against the paper's.

use super::contradicts;
use crate::compare::Compare;
use comparison::examples::all_examples;

pub fn run(c: &mut Compare) {
    for example in all_examples() {
        let outcome = c.run(&example.sheet, example.limit, example.slots);
        c.check(
            || format!("{}: number {}, verdict {}", example.name, outcome.number, outcome.verdict),
            outcome.number == 0 && outcome.verdict == example.verdict,
        );
        c.check(|| format!("{}: truth", example.name), !contradicts(&outcome, example.truth));
    }
}

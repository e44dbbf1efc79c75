//! Sheets one or a few edits away from a good one, so that every refusal is met
//! from both sides: the good sheet is solved, then the damaged one.

use crate::compare::Compare;
use comparison::generate::{self, Taste};
use comparison::oracle::{SAT, WORK_LEAST};

pub fn run(c: &mut Compare, sheets: usize) {
    let mut numbers = [0usize; 12];
    for _ in 0..sheets {
        let taste = Taste { entries: c.random.pick(&[3, 10, 30, 256]), ..Taste::any(&mut c.random) };
        let good = generate::good_sheet(&mut c.random, taste);
        let bad = generate::damage(&mut c.random, &good);
        let limit = c.random.pick(&[0, 3, 1000]);
        // Mostly small buffers that serve; else any, so that the order of the refusals shows.
        let (table, work) =
            if c.random.percent(80) { (3 * 200, WORK_LEAST) } else { generate::room(&mut c.random) };
        if c.random.percent(30) {
            c.solve(&good, limit, table, work);
        }
        let outcome = c.solve(&bad, limit, table, work);
        numbers[outcome.number as usize] += 1;
        // A refusal says nothing else.
        let silent = (outcome.verdict, outcome.must, outcome.may, outcome.used) == (0, 0, 0, 0);
        c.check(|| format!("{outcome:?}"), if outcome.number == 0 { outcome.verdict >= SAT } else { silent });
    }
    println!("          numbers 0 to 11: {numbers:?}");
}

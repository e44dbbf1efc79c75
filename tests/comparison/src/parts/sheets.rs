//! Random good sheets at random limits in random buffers.

use crate::compare::Compare;
use crate::features::Features;
use crate::tally::hex;
use comparison::generate::{self, Taste};
use comparison::oracle::{self, WORK_LEAST};
use comparison::{fast, sheet};

pub fn run(c: &mut Compare, sheets: usize) {
    let mut features = Features::default();
    let mut verdicts = [0usize; 4];
    let mut most_used = 0;
    for number in 0..sheets {
        let taste = Taste::any(&mut c.random);
        let mut sheet = generate::good_sheet(&mut c.random, taste);
        if number % 25 == 0 {
            sheet = generate::filled(&mut c.random, &sheet);
        }
        let limit = generate::limit(&mut c.random);
        let (table_len, work_len) = generate::room(&mut c.random);
        let outcome = c.solve(&sheet, limit, table_len, work_len);
        verdicts[outcome.verdict as usize] += 1;
        if outcome.number == 0 {
            features.count(&sheet, &sheet::check(&sheet).unwrap());
            most_used = most_used.max(outcome.used);
        }
        // The two independent solvers agree as well.
        if number % 4 == 0 {
            let (a, b) = (oracle::solve(&sheet, limit, table_len, work_len), fast::solve(&sheet, limit, table_len, work_len));
            c.check(|| format!("oracle and fast, limit {limit}, table {table_len}: {}", hex(&sheet)), a == b);
        }
        // Exactly the slots needed, and one less.
        if outcome.number == 0 && outcome.used > 0 && c.random.percent(30) {
            let used = outcome.used as usize;
            let just = c.run(&sheet, limit, used);
            let short = c.solve(&sheet, limit, 3 * (used - 1), WORK_LEAST);
            c.check(|| format!("edge of 11: {}", hex(&sheet)), just == outcome && short.number == 11);
        }
    }
    let [refused, sat, unsat, unknown] = verdicts;
    println!("          sat {sat}, unsat {unsat}, unknown {unknown}, refused {refused}; most slots used {most_used}");
    features.met_often(&mut c.tally, 30);
}

//! One call of the proved library, held against the independent implementation:
//! every number given back, and every word of every buffer lent.
//!
//! Each buffer lies between guard words and is full of old rubbish. The same
//! buffer is made twice: one is lent to the library, the other is brought to
//! what document 01 says. Afterwards the two are equal, guard words included.

use crate::tally::{hex, Tally};
use comparison::generate::Random;
use comparison::linked::{self, Solved};
use comparison::oracle::{self, Outcome, Passed, UNNAMED_LIMIT};
use comparison::fast;

/// Words on either side of a lent buffer.
const GUARD: usize = 16;

/// The oracle is too slow for the largest tables.
const ORACLE_SLOTS: usize = 16_384;

/// The library's functions, as counted in `Compare::met`.
#[derive(Clone, Copy, Debug, PartialEq, Eq)]
pub enum Function {
    Solve,
    SolveUnnamed,
    Value,
    Witness,
}
use Function::*;

pub struct Compare {
    pub tally: Tally,
    pub random: Random,
    /// How often each function gave back each number.
    met: [[usize; 17]; 4],
}

impl Compare {
    pub fn new(seed: u64) -> Compare {
        Compare { tally: Tally::new(), random: Random::new(seed), met: [[0; 17]; 4] }
    }

    pub fn check(&mut self, name: impl FnOnce() -> String, holds: bool) {
        self.tally.check(name, holds);
    }

    /// Solve at a limit; at 1,000 also without a named one. Gives back what the library answered.
    pub fn solve(&mut self, sheet: &[u8], limit: u32, table_len: usize, work_len: usize) -> Outcome {
        let expected = if table_len / 3 <= ORACLE_SLOTS {
            oracle::solve(sheet, limit, table_len, work_len)
        } else {
            fast::solve(sheet, limit, table_len, work_len)
        };
        if limit == UNNAMED_LIMIT {
            self.solve_as(&expected, sheet, None, table_len, work_len);
        }
        self.solve_as(&expected, sheet, Some(limit), table_len, work_len)
    }

    fn solve_as(
        &mut self,
        expected: &Outcome,
        sheet: &[u8],
        limit: Option<u32>,
        table_len: usize,
        work_len: usize,
    ) -> Outcome {
        let mut table = rubbish(&mut self.random, table_len);
        let mut work = rubbish(&mut self.random, work_len);
        let (mut right_table, mut right_work) = (table.clone(), work.clone());
        oracle::apply(expected, inside(&mut right_table), inside(&mut right_work));

        let lent_sheet = sheet.to_vec();
        let solved = linked::solve(&lent_sheet, limit, inside(&mut table), inside(&mut work));
        let right = Solved {
            number: expected.number,
            verdict: expected.verdict,
            must: expected.must,
            may: expected.may,
            used: expected.used,
        };
        self.meet(if limit.is_some() { Solve } else { SolveUnnamed }, solved.number);
        let same = solved == right && lent_sheet == sheet && table == right_table && work == right_work;
        let name = || {
            let buffers = (table == right_table, work == right_work);
            format!(
                "solve, limit {limit:?}, table {table_len}, work {work_len}: {solved:?} instead of {right:?}, \
                 table and work as they should be {buffers:?}, sheet {}",
                hex(sheet)
            )
        };
        self.tally.check(name, same);

        let used = (solved.used as usize).min(table_len / 3);
        let nodes = inside(&mut table)[..3 * used].chunks_exact(3).map(|n| [n[0], n[1], n[2]]).collect();
        Outcome {
            number: solved.number,
            verdict: solved.verdict,
            must: solved.must,
            may: solved.may,
            used: solved.used,
            nodes,
        }
    }

    /// Value of a diagram; nothing that is lent may change.
    pub fn value(&mut self, table: &[u32], used: u32, diagram: u32, assignment: &[u8]) -> Passed {
        let right = oracle::value(table, used, diagram, assignment);
        let (lent_table, lent_assignment) = (table.to_vec(), assignment.to_vec());
        let passed = linked::value(&lent_table, used, diagram, &lent_assignment);
        self.meet(Value, passed.number);
        let same = passed == right && lent_table == table && lent_assignment == assignment;
        self.tally.check(
            || format!("value: {passed:?} instead of {right:?}, diagram {diagram}, used {used}, {table:?}, {assignment:?}"),
            same,
        );
        passed
    }

    /// Witness of a diagram into an assignment buffer between guard bytes.
    pub fn witness(&mut self, table: &[u32], used: u32, diagram: u32, assignment: &mut [u8]) -> u32 {
        let lent_table = table.to_vec();
        let mut bytes: Vec<u8> = (0..2 * GUARD + assignment.len()).map(|_| self.random.next() as u8).collect();
        inside(&mut bytes).copy_from_slice(assignment);
        let mut right_bytes = bytes.clone();
        let right = oracle::witness(table, used, diagram, inside(&mut right_bytes));
        let number = linked::witness(&lent_table, used, diagram, inside(&mut bytes));
        self.meet(Witness, number);
        let same = number == right && bytes == right_bytes && lent_table == table;
        self.tally.check(
            || format!("witness: {number} instead of {right}, diagram {diagram}, used {used}, {table:?}, {assignment:?}"),
            same,
        );
        assignment.copy_from_slice(inside(&mut bytes));
        number
    }

    fn meet(&mut self, function: Function, number: u32) {
        self.met[function as usize][(number as usize).min(16)] += 1;
    }

    /// Each number that a function can give back has been met often.
    pub fn met_often(&mut self, least: usize) {
        let of_table: [u32; 12] = [0, 1, 2, 3, 4, 5, 6, 7, 8, 9, 10, 11];
        let wanted: [(Function, &[u32]); 4] = [
            (Solve, &of_table),
            (SolveUnnamed, &of_table),
            (Value, &[0, 9, 12, 13, 14, 16]),
            (Witness, &[0, 9, 12, 13, 15, 16]),
        ];
        for (function, numbers) in wanted {
            let times = |n: u32| self.met[function as usize][n as usize];
            let text: Vec<String> = numbers.iter().map(|&n| format!("{n}: {}", times(n))).collect();
            println!("          {function:?} gave {}", text.join(", "));
            for &n in numbers {
                let times = times(n);
                self.tally.check(|| format!("{function:?} gave {n} only {times} times"), times >= least);
            }
        }
    }
}

/// Old rubbish of this length, with guard words on either side.
fn rubbish(random: &mut Random, length: usize) -> Vec<u32> {
    let salt = random.next() as u32 | 1;
    let word: fn(u32, u32) -> u32 = match random.below(4) {
        0 => |_, _| u32::MAX,
        1 => |i, salt| i % (salt % 13 + 1),
        2 => |i, _| i / 3 + i % 3,
        _ => |i, salt| (i ^ salt).wrapping_mul(0x9E37_79B1),
    };
    (0..(length + 2 * GUARD) as u32).map(|i| word(i, salt)).collect()
}

/// What is lent of a buffer with guards.
fn inside<T>(buffer: &mut [T]) -> &mut [T] {
    let end = buffer.len() - GUARD;
    &mut buffer[GUARD..end]
}

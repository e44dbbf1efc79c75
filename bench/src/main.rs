//! Times the proved library beside a plain fast Rust version of the same rules. Words: ratios, growth, solvers, or all.

mod growth;
mod ratios;
mod sheets;
mod solvers;

use comparison::{fast, linked, oracle};
use std::time::{Duration, Instant};

/// The work buffer that a caller lends for a table: eight numbers a slot, so that every slot has its link.
pub fn work_for(slots: usize) -> usize {
    (8 * slots).max(oracle::WORK_LEAST)
}

/// The least time of several runs.
pub fn least(patience: Duration, mut run: impl FnMut()) -> f64 {
    let (mut best, begun, mut runs) = (f64::MAX, Instant::now(), 0);
    while runs < 3 || (begun.elapsed() < patience && runs < 400) {
        let start = Instant::now();
        run();
        best = best.min(start.elapsed().as_secs_f64());
        runs += 1;
        if begun.elapsed() > 40 * patience {
            break;
        }
    }
    best
}

/// What both give back, and their times in seconds.
pub struct Timed {
    pub answer: (u32, u32, u32, u32, u32),
    pub proved: f64,
    pub plain: f64,
}

pub fn timed(sheet: &[u8], limit: u32, slots: usize) -> Timed {
    let patience = Duration::from_millis(60);
    let (mut table, mut work) = (vec![7; 3 * slots], vec![9; work_for(slots)]);
    let mut answer = (0, 0, 0, 0, 0);
    let proved = least(patience, || {
        let r = linked::solve(sheet, Some(limit), &mut table, &mut work);
        answer = (r.number, r.verdict, r.must, r.may, r.used);
    });
    let (mut table_too, mut work_too) = (vec![7; 3 * slots], vec![9; work_for(slots)]);
    let mut answer_too = answer;
    let plain = least(patience, || answer_too = plain_solve(sheet, limit, &mut table_too, &mut work_too));
    assert!(answer == answer_too && table == table_too && work == work_too, "the two differ");
    Timed { answer, proved, plain }
}

/// The plain version, with both buffers left as document 01 says.
fn plain_solve(sheet: &[u8], limit: u32, table: &mut [u32], work: &mut [u32]) -> (u32, u32, u32, u32, u32) {
    let r = fast::solve(sheet, limit, table.len(), work.len());
    if r.number == 0 || r.number == 11 {
        let used = 3 * r.nodes.len();
        for (cells, node) in table.chunks_exact_mut(3).zip(&r.nodes) {
            cells.copy_from_slice(node);
        }
        table[used..].fill(0);
        work.fill(0);
    }
    (r.number, r.verdict, r.must, r.may, r.used)
}

pub fn verdict(answer: (u32, u32, u32, u32, u32)) -> &'static str {
    match (answer.0, answer.1) {
        (0, 1) => "sat",
        (0, 2) => "unsat",
        (0, _) => "unknown",
        (11, _) => "no room",
        _ => "refused",
    }
}

fn main() {
    let word = std::env::args().nth(1).unwrap_or_else(|| "all".into());
    if word == "solve" {
        solvers::own_process();
        return;
    }
    if word == "ratios" || word == "all" {
        ratios::table();
    }
    if word == "growth" || word == "all" {
        growth::tables();
    }
    if word == "solvers" || word == "all" {
        solvers::table();
    }
}

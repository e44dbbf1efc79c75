//! Limits, slots and scratch: each limit in turn, counts at the edge of a limit,
//! and large diagrams in large tables with little and much scratch.

use super::written;
use crate::compare::Compare;
use crate::tally::hex;
use comparison::examples::f3;
use comparison::fast;
use comparison::generate::{self, Random, Taste};
use comparison::oracle::{SAT, TABLE_MOST, UNKNOWN, UNNAMED_LIMIT, WORK_LEAST};

/// Work buffers from the least up; above 32,768 the library uses its scratch differently.
const WORKS: [usize; 7] = [WORK_LEAST, WORK_LEAST + 1, 32_767, 32_768, 32_769, 40_000, 100_000];

/// Every limit from 0 to past the slots used, so that each count stands on both sides of it.
pub fn every_limit(c: &mut Compare, sheets: usize) {
    let (mut swept, mut changes) = (0, 0);
    while swept < sheets {
        let sheet = generate::good_sheet(&mut c.random, Taste::small());
        let used = fast::solve(&sheet, u32::MAX, 3 * 300, WORK_LEAST).used;
        if used < 8 {
            continue;
        }
        swept += 1;
        let mut before = None;
        for limit in (0..used + 3).chain([u32::MAX - 1, u32::MAX]) {
            let outcome = c.run(&sheet, limit, used as usize + 2);
            changes += before.as_ref().is_some_and(|b| *b != outcome) as usize;
            before = Some(outcome);
        }
    }
    println!("          {swept} sheets; the next limit changed the answer {changes} times");
    c.check(|| format!("only {changes} changes"), changes >= sheets);
}

/// A sum whose bits have exactly this many nodes is known at this limit and cut at one less. So the unnamed
/// limit is 1,000, no more and no less.
pub fn exact_counts(c: &mut Compare, sheets: usize) {
    for number in 0..sheets {
        let total = match number % 4 {
            0 => UNNAMED_LIMIT,
            1 => UNNAMED_LIMIT + 1,
            _ => 600 + c.random.below(800) as u32,
        };
        let sheet = sum_of_count(&mut c.random, total as usize);
        for (limit, verdict) in [(total - 1, UNKNOWN), (total, SAT), (total + 1, SAT)] {
            let got = c.run(&sheet, limit, 2048).verdict;
            c.check(|| format!("count {total}, limit {limit}: {got}, {}", hex(&sheet)), got == verdict);
        }
    }
}

/// Bits that are conjunctions of the first so many variables, no two alike, share no node: the count is the sum of
/// those lengths. The term plus 0 equals itself.
fn sum_of_count(random: &mut Random, total: usize) -> Vec<u8> {
    let most = 60;
    let mut lengths: Vec<usize> = (1..=most).collect();
    while lengths.len() > 32 {
        lengths.swap_remove(random.below(lengths.len()));
    }
    while lengths.iter().sum::<usize>() != total {
        let more = lengths.iter().sum::<usize>() < total;
        let at = random.below(32);
        let next = if more { lengths[at] + 1 } else { lengths[at] - 1 };
        if (1..=most).contains(&next) && !lengths.contains(&next) {
            lengths[at] = next;
        }
    }
    written(|w| {
        let variables: Vec<usize> = (0..most).map(|_| w.variable(1)).collect();
        let mut first = vec![variables[0]];
        for &v in &variables[1..] {
            first.push(w.binary(5, first[first.len() - 1], v));
        }
        let mut term = first[lengths[0] - 1];
        for length in &lengths[1..] {
            term = w.concat(first[length - 1], term);
        }
        let zero = w.constant(32, 0);
        let sum = w.add(term, zero);
        w.equal(sum, term);
    })
}

/// Diagrams of thousands of nodes, with every size of work buffer; also exactly the slots needed and one less.
pub fn large(c: &mut Compare) {
    let mut most = 0;
    for (name, sheet) in large_sheets() {
        for work in WORKS {
            let limit = c.random.pick(&[1000, 5000, 16_384, u32::MAX]);
            let outcome = c.solve(&sheet, limit, 3 * 16_384, work);
            most = most.max(outcome.used);
            if outcome.number == 0 {
                let used = outcome.used as usize;
                let just = c.solve(&sheet, limit, 3 * used, work);
                let short = c.solve(&sheet, limit, 3 * used - 3, work);
                c.check(|| format!("edge of 11, {name}: {}", hex(&sheet)), just == outcome && short.number == 11);
            }
        }
        // The largest table, and scratch for all of it.
        for (limit, work) in [(1000, WORK_LEAST), (u32::MAX, 8 * TABLE_MOST / 3)] {
            most = most.max(c.solve(&sheet, limit, TABLE_MOST, work).used);
        }
    }
    println!("          most slots used {most}");
    c.check(|| format!("at most {most} slots were used"), most > 30_000);
}

fn large_sheets() -> Vec<(String, Vec<u8>)> {
    let mut out = Vec::new();
    for width in [6u8, 8, 9] {
        out.push((format!("x·y = y·x, width {width}"), written(move |w| {
            let (x, y) = (w.variable(width), w.variable(width));
            let (a, b) = (w.multiply(x, y), w.multiply(y, x));
            w.equal(a, b);
        })));
    }
    for width in [5u8, 7] {
        out.push((format!("x·y from 1 to 4, width {width}"), written(f3(width))));
    }
    out.push(("sums of four".into(), written(|w| {
        let x: Vec<usize> = (0..4).map(|_| w.variable(16)).collect();
        let (a, b) = (w.add(x[0], x[1]), w.add(x[2], x[3]));
        let left = w.add(a, b);
        let (a, b) = (w.add(x[3], x[1]), w.add(x[0], x[2]));
        let right = w.add(a, b);
        w.equal(left, right);
    })));
    out.push(("a square is some product".into(), written(|w| {
        let (x, y, z) = (w.variable(4), w.variable(4), w.variable(4));
        let (a, b) = (w.multiply(x, x), w.multiply(y, z));
        let equal = w.equal(a, b);
        let some = w.exists(z, equal);
        let some = w.exists(y, some);
        w.forall(x, some);
    })));
    out
}

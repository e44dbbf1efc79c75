//! The library's answers against the truth, on plain integers: small sheets
//! under all assignments, large ones under some.

use crate::compare::Compare;
use crate::tally::hex;
use comparison::generate::{self, Taste};
use comparison::oracle::{Outcome, SAT, UNKNOWN, UNSAT};
use comparison::{brute, linked, sheet};

/// The table is reduced, ordered, without repeats.
fn sound(outcome: &Outcome) -> bool {
    let mut seen = std::collections::HashSet::new();
    let level = |n: u32| if n < 2 { 128 } else { outcome.nodes[n as usize - 2][0] };
    outcome.nodes.iter().enumerate().all(|(slot, &[l, low, high])| {
        let own = slot as u32 + 2;
        let ordered = l < 128 && low < own && high < own && level(low) > l && level(high) > l;
        ordered && low != high && seen.insert([l, low, high])
    })
}

/// Must implies the formula, the formula implies may, for every assignment; sat
/// and unsat are right; a higher limit says no less; the witness is the least.
pub fn small(c: &mut Compare, sheets: usize) {
    let slots = 4096;
    let mut verdicts = [0usize; 4];
    let mut differ = 0;
    for number in 0..sheets {
        let mut taste = Taste::small();
        if number % 10 == 0 {
            taste.entries = 60;
        }
        if number % 7 == 0 {
            // Wide terms over few variable bits.
            taste.width = 32;
        }
        let sheet = generate::good_sheet(&mut c.random, taste);
        let entries = sheet::check(&sheet).unwrap();
        let truth = brute::truth(&entries);
        let satisfiable = truth.formula.contains(&true);
        let mut before: Option<(Vec<bool>, Vec<bool>)> = None;
        for limit in [0, 1, 2, 4, 9, 1000, slots as u32] {
            let outcome = c.run(&sheet, limit, slots);
            if outcome.number != 0 {
                c.check(|| format!("number {}: {}", outcome.number, hex(&sheet)), outcome.number == 11);
                continue;
            }
            verdicts[outcome.verdict as usize] += 1;
            differ += (outcome.must != outcome.may) as usize;
            let table = outcome.table(outcome.nodes.len());
            let mut in_order = true;
            let mut column = |diagram: u32| -> Vec<bool> {
                let mut bit = |index: usize| {
                    let passed = linked::value(&table, outcome.used, diagram, &truth.assignment(index));
                    in_order &= passed.number == 0 && passed.passed as usize <= truth.bits;
                    passed.bit == 1
                };
                (0..truth.formula.len()).map(&mut bit).collect()
            };
            let must = column(outcome.must);
            let may = if outcome.may == outcome.must { must.clone() } else { column(outcome.may) };
            let implies = |f: &[bool], g: &[bool]| f.iter().zip(g).all(|(&f, &g)| !f || g);
            let mut good = in_order && sound(&outcome);
            good &= implies(&must, &truth.formula) && implies(&truth.formula, &may);
            good &= (outcome.verdict == SAT) == must.contains(&true);
            good &= (outcome.verdict == UNSAT) == !may.contains(&true);
            good &= outcome.verdict == UNKNOWN || (outcome.verdict == SAT) == satisfiable;
            if let Some((less_must, more_may)) = &before {
                good &= implies(less_must, &must) && implies(&may, more_may);
            }
            if limit as usize >= slots {
                good &= outcome.must == outcome.may && outcome.verdict != UNKNOWN;
            }
            if outcome.must != 0 {
                let mut bytes = [9; 128];
                let answered = linked::witness(&table, outcome.used, outcome.must, &mut bytes) == 0;
                let least = (0..must.len()).filter(|&i| must[i]).map(|i| truth.assignment(i)).min();
                good &= answered && Some(bytes) == least;
            }
            before = Some((must, may));
            c.check(|| format!("truth, limit {limit}: {}", hex(&sheet)), good);
        }
    }
    let [_, sat, unsat, unknown] = verdicts;
    println!("          sat {sat}, unsat {unsat}, unknown {unknown}; must and may differ in {differ}");
}

/// Large sheets without quantifiers, under random assignments and the witnesses.
pub fn large(c: &mut Compare, sheets: usize) {
    let slots = 16_384;
    let mut answered = 0;
    for _ in 0..sheets {
        let mut taste = Taste::any(&mut c.random);
        taste.quantifiers = false;
        let sheet = generate::good_sheet(&mut c.random, taste);
        let entries = sheet::check(&sheet).unwrap();
        let limit = generate::limit(&mut c.random);
        let outcome = c.run(&sheet, limit, slots);
        if outcome.number != 0 {
            c.check(|| format!("number {}", outcome.number), outcome.number == 11);
            continue;
        }
        answered += 1;
        let table = outcome.table(outcome.nodes.len());
        let mut good = sound(&outcome);
        let mut tried: Vec<[u8; 128]> = Vec::new();
        for _ in 0..12 {
            tried.push(std::array::from_fn(|_| c.random.below(2) as u8));
        }
        for diagram in [outcome.must, outcome.may] {
            if diagram != 0 {
                let mut bytes = [9; 128];
                c.witness(&table, outcome.used, diagram, &mut bytes);
                tried.push(bytes);
            }
        }
        for bytes in tried {
            let must = c.value(&table, outcome.used, outcome.must, &bytes).bit == 1;
            let may = c.value(&table, outcome.used, outcome.may, &bytes).bit == 1;
            let holds = brute::holds(&entries, &bytes).unwrap();
            good &= (!must || holds) && (!holds || may);
            good &= must == holds || (limit as usize) < slots;
        }
        c.check(|| format!("large, limit {limit}: {}", hex(&sheet)), good);
    }
    println!("          {answered} of {sheets} answered");
}

//! What the compared sheets contained, so that nothing is left out by chance.

use crate::tally::Tally;
use comparison::brute;
use comparison::sheet::{Entry, What};
use comparison::smt::{free_variables, needed};
use std::collections::{BTreeMap, BTreeSet};

#[derive(Default)]
pub struct Features {
    kinds: BTreeMap<u8, usize>,
    others: BTreeMap<&'static str, usize>,
}

const KINDS: [u8; 26] = [
    1, 2, 3, 4, 5, 6, 7, 8, 9, 10, 11, 12, 13, 14, 15, 16, 32, 33, 34, 35, 36, 40, 41, 42, 48, 49,
];
const OTHERS: [&str; 9] = [
    "shared entry",
    "variable bound again inside",
    "variable bound twice",
    "quantifier without use",
    "entry not needed",
    "width 1",
    "width 32",
    "128 variable bits",
    "256 entries",
];

impl Features {
    /// Counts a good sheet that the library answered.
    pub fn count(&mut self, sheet: &[u8], entries: &[Entry]) {
        for own in 0..entries.len() {
            *self.kinds.entry(sheet[2 + 4 * own]).or_default() += 1;
        }
        let named: Vec<usize> = entries.iter().flat_map(|e| e.what.operands()).collect();
        let free = free_variables(entries);
        let bound = bound_variables(entries);
        let mut quantifiers = Vec::new();
        for entry in entries {
            if let What::Exists(x, f) | What::Forall(x, f) = entry.what {
                quantifiers.push((x, f));
            }
        }
        let twice = |all: &[usize]| (0..entries.len()).any(|n| all.iter().filter(|&&m| m == n).count() > 1);
        let variables: Vec<usize> = quantifiers.iter().map(|&(x, _)| x).collect();
        let has = [
            twice(&named),
            quantifiers.iter().any(|&(x, f)| bound[f].contains(&x)),
            twice(&variables),
            quantifiers.iter().any(|&(x, f)| !free[f].contains(&x)),
            needed(entries).contains(&false),
            entries.iter().any(|e| e.width == 1),
            entries.iter().any(|e| e.width == 32),
            brute::variable_bits(entries) == 128,
            entries.len() == 256,
        ];
        for (name, has) in OTHERS.into_iter().zip(has) {
            *self.others.entry(name).or_default() += has as usize;
        }
    }

    /// Every kind and every other feature has been there often.
    pub fn met_often(&self, tally: &mut Tally, least: usize) {
        println!("          kinds {:?}\n          sheets with {:?}", self.kinds, self.others);
        for kind in KINDS {
            let times = self.kinds.get(&kind).copied().unwrap_or(0);
            tally.check(|| format!("kind {kind} was there only {times} times"), times >= least);
        }
        for name in OTHERS {
            let times = self.others[name];
            tally.check(|| format!("{name} was there only {times} times"), times >= least);
        }
    }
}

/// For each entry, the variables bound somewhere in it.
fn bound_variables(entries: &[Entry]) -> Vec<BTreeSet<usize>> {
    let mut bound: Vec<BTreeSet<usize>> = Vec::new();
    for entry in entries {
        let mut set: BTreeSet<usize> =
            entry.what.operands().iter().flat_map(|&n| bound[n].clone()).collect();
        if let What::Exists(x, _) | What::Forall(x, _) = entry.what {
            set.insert(x);
        }
        bound.push(set);
    }
    bound
}

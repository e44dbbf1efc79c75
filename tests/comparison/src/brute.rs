//! Truth by trying everything, on plain integers, without diagrams.

use crate::sheet::{levels, Entry, What};

/// The value of one entry from its operands' values (formulas are 0 or 1).
/// Quantifiers aren't decided here.
fn plain(entries: &[Entry], entry: &Entry, value: impl Fn(usize) -> u64) -> u64 {
    use What::*;
    let width = entry.width;
    let mask = (1u64 << width) - 1; // formulas have width 0 and don't use it
    let width_of = |n: usize| entries[n].width;
    // The number that the bits mean in two's complement.
    let signed = |n: usize| {
        let (v, w) = (value(n) as i64, width_of(n));
        if v >> (w - 1) & 1 == 1 { v - (1i64 << w) } else { v }
    };
    match entry.what {
        Constant(v) => v as u64,
        BitNot(a) => !value(a) & mask,
        Negate(a) => value(a).wrapping_neg() & mask,
        BitAnd(a, b) => value(a) & value(b),
        BitOr(a, b) => value(a) | value(b),
        BitXor(a, b) => value(a) ^ value(b),
        Add(a, b) => (value(a) + value(b)) & mask,
        Multiply(a, b) => value(a).wrapping_mul(value(b)) & mask,
        ShiftLeft(a, amount) => value(a) << (amount % width) & mask,
        ShiftRight(a, amount) => value(a) >> (amount % width),
        Concat(high, low) => value(high) << width_of(low) | value(low),
        Extract(a, _, l) => value(a) >> l & mask,
        ZeroExtend(a) => value(a),
        SignExtend(a) => signed(a) as u64 & mask,
        IfThenElse(c, t, e) => if value(c) == 1 { value(t) } else { value(e) },
        True => 1,
        False => 0,
        Equal(a, b) => (value(a) == value(b)) as u64,
        UnsignedLe(a, b) => (value(a) <= value(b)) as u64,
        SignedLe(a, b) => (signed(a) <= signed(b)) as u64,
        Not(f) => 1 - value(f),
        And(f, g) => value(f) & value(g),
        Or(f, g) => value(f) | value(g),
        Variable | Exists(..) | Forall(..) => unreachable!("handled by the caller"),
    }
}

/// The formula's truth for every assignment of all variable bits.
pub struct Truth {
    pub bits: usize,
    /// Truth of the last entry; the index is the variables' values side by
    /// side, the first variable lowest.
    pub formula: Vec<bool>,
    /// For each index bit, the level of that variable bit.
    level_of_index_bit: Vec<usize>,
}

impl Truth {
    /// The assignment buffer for an index.
    pub fn assignment(&self, index: usize) -> [u8; 128] {
        let mut out = [0; 128];
        for (bit, &level) in self.level_of_index_bit.iter().enumerate() {
            out[level] = (index >> bit & 1) as u8;
        }
        out
    }
}

/// The number of variable bits of a sheet.
pub fn variable_bits(entries: &[Entry]) -> usize {
    entries.iter().filter(|e| e.what == What::Variable).map(|e| e.width).sum()
}

/// Tries all assignments; meant for at most about 12 variable bits.
pub fn truth(entries: &[Entry]) -> Truth {
    let bits = variable_bits(entries);
    assert!(bits <= 20, "too many variable bits to try all");
    let all = 1usize << bits;
    // Where each variable lies in the index.
    let mut shift = vec![0; entries.len()];
    let mut next = 0;
    let mut level_of_index_bit = Vec::new();
    let levels = levels(entries);
    for (i, entry) in entries.iter().enumerate() {
        if entry.what == What::Variable {
            shift[i] = next;
            next += entry.width;
            level_of_index_bit.extend(&levels[i]);
        }
    }
    let mut values: Vec<Vec<u64>> = Vec::new();
    for (own, entry) in entries.iter().enumerate() {
        let column: Vec<u64> = match entry.what {
            What::Variable => (0..all).map(|index| (index >> shift[own] & ((1 << entry.width) - 1)) as u64).collect(),
            What::Exists(x, f) | What::Forall(x, f) => {
                // Every value of x, all other variables as they are.
                let (count, at) = (1usize << entries[x].width, shift[x]);
                let field = (count - 1) << at;
                let choices = |index: usize| (0..count).map(move |v| index & !field | v << at);
                let exists = matches!(entry.what, What::Exists(..));
                (0..all)
                    .map(|index| {
                        let mut tried = choices(index).map(|i| values[f][i] == 1);
                        (if exists { tried.any(|t| t) } else { tried.all(|t| t) }) as u64
                    })
                    .collect()
            }
            _ => (0..all).map(|index| plain(entries, entry, |n| values[n][index])).collect(),
        };
        values.push(column);
    }
    let formula = values.last().unwrap().iter().map(|&v| v == 1).collect();
    Truth { bits, formula, level_of_index_bit }
}

/// The formula's truth under one assignment of any width, for a sheet without
/// quantifiers; nothing when it has some.
pub fn holds(entries: &[Entry], assignment: &[u8]) -> Option<bool> {
    let levels = levels(entries);
    let mut values: Vec<u64> = Vec::new();
    for (own, entry) in entries.iter().enumerate() {
        let value = match entry.what {
            What::Variable => levels[own].iter().enumerate().map(|(bit, &level)| (assignment[level] as u64) << bit).sum(),
            What::Exists(..) | What::Forall(..) => return None,
            _ => plain(entries, entry, |n| values[n]),
        };
        values.push(value);
    }
    Some(values[values.len() - 1] == 1)
}

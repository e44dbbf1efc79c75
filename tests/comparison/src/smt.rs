//! A good sheet as SMT-LIB 2.6 text.
//!
//! Each needed entry becomes a define-fun whose parameters are exactly the
//! variables free in it, named after their entries. So a shared entry is
//! written once, a quantifier captures its variable in the body alone, and the
//! innermost binding counts without renaming.

use crate::sheet::{Entry, What};
use std::collections::BTreeSet;
use std::fmt::Write;

/// For each entry, the variables free in it.
pub fn free_variables(entries: &[Entry]) -> Vec<BTreeSet<usize>> {
    let mut free: Vec<BTreeSet<usize>> = Vec::new();
    for (own, entry) in entries.iter().enumerate() {
        let set = match entry.what {
            What::Variable => BTreeSet::from([own]),
            What::Exists(x, f) | What::Forall(x, f) => free[f].iter().copied().filter(|&v| v != x).collect(),
            _ => entry.what.operands().iter().flat_map(|&n| free[n].clone()).collect(),
        };
        free.push(set);
    }
    free
}

/// The entries that the last one needs, itself included.
pub fn needed(entries: &[Entry]) -> Vec<bool> {
    let mut needed = vec![false; entries.len()];
    needed[entries.len() - 1] = true;
    for own in (0..entries.len()).rev() {
        if needed[own] {
            for n in entries[own].what.operands() {
                needed[n] = true;
            }
        }
    }
    needed
}

pub fn text(entries: &[Entry]) -> String {
    use What::*;
    let free = free_variables(entries);
    let needed = needed(entries);
    let last = entries.len() - 1;
    let sort = |entry: &Entry| match entry.width {
        0 => "Bool".to_string(),
        w => format!("(_ BitVec {w})"),
    };
    // An entry as it is named inside another.
    let name = |n: usize| match entries[n].what {
        Variable => format!("v{n}"),
        _ if free[n].is_empty() => format!("e{n}"),
        _ => {
            let arguments: Vec<String> = free[n].iter().map(|v| format!("v{v}")).collect();
            format!("(e{n} {})", arguments.join(" "))
        }
    };
    let quantified = (0..=last).any(|n| needed[n] && matches!(entries[n].what, Exists(..) | Forall(..)));
    let mut out = format!("(set-logic {})\n", if quantified { "BV" } else { "QF_BV" });
    for (n, entry) in entries.iter().enumerate() {
        if !needed[n] || entry.what == Variable {
            continue;
        }
        let w = entry.width;
        let two = |symbol: &str, a: usize, b: usize| format!("({symbol} {} {})", name(a), name(b));
        let one = |symbol: &str, a: usize| format!("({symbol} {})", name(a));
        let bind = |symbol: &str, x: usize, f: usize| format!("({symbol} ((v{x} {})) {})", sort(&entries[x]), name(f));
        let body = match entry.what {
            Variable => unreachable!(),
            Constant(value) => format!("(_ bv{value} {w})"),
            BitNot(a) => one("bvnot", a),
            Negate(a) => one("bvneg", a),
            BitAnd(a, b) => two("bvand", a, b),
            BitOr(a, b) => two("bvor", a, b),
            BitXor(a, b) => two("bvxor", a, b),
            Add(a, b) => two("bvadd", a, b),
            Multiply(a, b) => two("bvmul", a, b),
            ShiftLeft(a, amount) => format!("(bvshl {} (_ bv{} {w}))", name(a), amount % w),
            ShiftRight(a, amount) => format!("(bvlshr {} (_ bv{} {w}))", name(a), amount % w),
            Concat(a, b) => two("concat", a, b),
            Extract(a, u, l) => one(&format!("(_ extract {u} {l})"), a),
            ZeroExtend(a) => one(&format!("(_ zero_extend {})", w - entries[a].width), a),
            SignExtend(a) => one(&format!("(_ sign_extend {})", w - entries[a].width), a),
            IfThenElse(c, t, e) => format!("(ite {} {} {})", name(c), name(t), name(e)),
            True => "true".into(),
            False => "false".into(),
            Equal(a, b) => two("=", a, b),
            UnsignedLe(a, b) => two("bvule", a, b),
            SignedLe(a, b) => two("bvsle", a, b),
            Not(f) => one("not", f),
            And(f, g) => two("and", f, g),
            Or(f, g) => two("or", f, g),
            Exists(x, f) => bind("exists", x, f),
            Forall(x, f) => bind("forall", x, f),
        };
        let parameters: Vec<String> = free[n].iter().map(|&v| format!("(v{v} {})", sort(&entries[v]))).collect();
        writeln!(out, "(define-fun e{n} ({}) {} {body})", parameters.join(" "), sort(entry)).unwrap();
    }
    for &v in &free[last] {
        writeln!(out, "(declare-const v{v} {})", sort(&entries[v])).unwrap();
    }
    writeln!(out, "(assert {})\n(check-sat)", name(last)).unwrap();
    out
}

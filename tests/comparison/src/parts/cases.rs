//! Document 01's listing, and its cases 1 to 12.

use super::written;
use crate::compare::Compare;
use comparison::examples::f3;
use comparison::oracle::{self, SAT, UNKNOWN, UNSAT};

pub fn run(c: &mut Compare) {
    listing(c);
    limit_and_slots(c);
    verdicts(c);
    refusals(c);
    product(c);
}

pub fn sheet_a() -> Vec<u8> {
    written(|w| {
        let (x, y) = (w.variable(1), w.variable(1));
        let sum = w.add(x, y);
        let zero = w.constant(1, 0);
        w.equal(sum, zero);
    })
}

/// Case 11: a shift, and what it is to equal.
pub fn shifts() -> Vec<Vec<u8>> {
    let mut out = Vec::new();
    for (amount, as_if) in [(3u8, 0u8), (4, 1)] {
        for kind in [10, 11] {
            out.push(written(|w| {
                let x = w.variable(3);
                let a = w.shift(kind, x, amount);
                let b = if as_if == 0 { x } else { w.shift(kind, x, as_if) };
                let equal = w.equal(a, b);
                w.forall(x, equal);
            }));
        }
    }
    out
}

/// Case 12: 128 variable bits and this many more.
pub fn many_bits(more: u8) -> Vec<u8> {
    written(|w| {
        for _ in 0..4 {
            w.variable(32);
        }
        if more > 0 {
            w.variable(more);
        }
        w.formula(32, &[]);
    })
}

fn listing(c: &mut Compare) {
    let a = sheet_a();
    let bytes: Vec<u8> = vec![
        5, 0, 1, 1, 22, 0, 1, 1, 22, 0, 8, 1, 22, 0, 2, 1, 26, 0, 34, 0, 30, 0, 0, 0, 1, 0, 0, 0, 0, 0, 2, 0, 3, 0,
    ];
    c.check(|| "sheet A's bytes".into(), a == bytes && a.len() == 34);
    let text = "answer 0\nverdict sat\nmust 6\nmay 6\nslots 5\nentry 0 value 0\nentry 1 value 0\n";
    c.check(|| "sheet A's listing".into(), oracle::program(&a) == text.as_bytes());
    let nodes = vec![[0, 0, 1], [1, 0, 1], [1, 1, 0], [0, 3, 4], [0, 4, 3]];
    let outcome = c.run(&a, 1000, 2048);
    c.check(|| "sheet A's slots".into(), outcome.nodes == nodes);
    c.check(|| "refused listing".into(), oracle::program(&a[..33]) == b"answer 3\n");
    let long: Vec<u8> = a.iter().copied().chain(std::iter::repeat(0).take(5000)).collect();
    c.check(|| "long input".into(), oracle::program(&long) == b"answer 3\n");
}

/// Cases 1 and 2.
fn limit_and_slots(c: &mut Compare) {
    let a = sheet_a();
    for (limit, slots, right) in [
        (3, 2048, (0, SAT, 6, 6, 5)),
        (2, 2048, (0, UNKNOWN, 0, 1, 4)),
        (3, 5, (0, SAT, 6, 6, 5)),
        (3, 4, (11, 0, 0, 0, 0)),
        (2, 4, (0, UNKNOWN, 0, 1, 4)),
        (2, 3, (11, 0, 0, 0, 0)),
    ] {
        let o = c.run(&a, limit, slots);
        let got = (o.number, o.verdict, o.must, o.may, o.used);
        c.check(|| format!("sheet A, limit {limit}, {slots} slots: {got:?}"), got == right);
    }
}

/// Cases 3 to 7 and 11.
fn verdicts(c: &mut Compare) {
    let mut expect = |name: &str, sheet: &[u8], limit: u32, verdict: u32| {
        let got = c.run(sheet, limit, 2048).verdict;
        c.check(|| format!("case {name}: {got}"), got == verdict);
    };
    let s = written(|w| {
        let (x, y) = (w.variable(3), w.variable(3));
        let shifted = w.shift(10, x, 1);
        let product = w.multiply(shifted, y);
        let one = w.constant(3, 1);
        w.equal(product, one);
    });
    expect("3", &s, 0, UNSAT);
    let s = written(|w| {
        let (x, y) = (w.variable(2), w.variable(2));
        let product = w.multiply(x, y);
        w.equal(product, product);
    });
    expect("4", &s, 0, UNKNOWN);
    let s = written(|w| {
        let (x, y) = (w.variable(3), w.variable(3));
        let (zero, one, five) = (w.constant(3, 0), w.constant(3, 1), w.constant(3, 5));
        let a = w.unsigned_le(x, one);
        let b = w.unsigned_le(five, x);
        let product = w.multiply(x, y);
        let c = w.equal(product, zero);
        let f = w.and(a, b);
        w.and(f, c);
    });
    expect("5", &s, 0, UNSAT);
    let s = written(|w| {
        let (x, y) = (w.variable(2), w.variable(2));
        let sum = w.add(x, y);
        let zero = w.constant(2, 0);
        let equal = w.equal(sum, zero);
        let f = w.exists(y, equal);
        w.forall(x, f);
    });
    expect("6, limit 0", &s, 0, UNKNOWN);
    expect("6, limit 2048", &s, 2048, SAT);
    for (kind, first, verdict) in [(36, 1, SAT), (36, 0, UNSAT), (35, 1, UNSAT), (35, 0, SAT)] {
        let s = written(|w| {
            let (a, b) = (w.constant(1, first), w.constant(1, 1 - first));
            w.formula(kind, &[a, b]);
        });
        expect("7", &s, 1000, verdict);
    }
    for s in shifts() {
        expect("11", &s, 1000, SAT);
    }
}

/// Cases 8, 9 and 12.
fn refusals(c: &mut Compare) {
    let mut expect = |name: &str, sheet: &[u8], number: u32| {
        let got = c.run(sheet, 1000, 2048).number;
        c.check(|| format!("case {name}: {got}"), got == number);
    };
    for (value, number) in [(7, 0), (8, 6)] {
        let s = written(|w| {
            let c = w.constant(3, value);
            w.equal(c, c);
        });
        expect("8", &s, number);
    }
    let s = written(|w| {
        let _ = w.variable(1);
        w.formula(34, &[0, 1]);
    });
    expect("9", &s, 4);
    expect("12", &many_bits(0), 0);
    expect("12, one bit more", &many_bits(1), 7);
}

/// Case 10.
fn product(c: &mut Compare) {
    for (width, verdict) in [(4u8, SAT), (5, UNSAT)] {
        let outcome = c.run(&written(f3(width)), 16_384, 16_384);
        c.check(|| format!("case 10, width {width}"), outcome.verdict == verdict);
        if width == 4 {
            let mut bytes = [9; 128];
            c.witness(&outcome.table(16_384), outcome.used, outcome.must, &mut bytes);
            // x0 y0 x1 y1 x2 y2 x3 y3, both 4; the levels past them 0.
            let right: [u8; 128] = std::array::from_fn(|level| (level == 4 || level == 5) as u8);
            c.check(|| "case 10, witness".into(), bytes == right);
        }
    }
}

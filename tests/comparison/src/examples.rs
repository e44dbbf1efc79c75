//! Published examples (SOURCES.md, section 1) as sheets, with the verdict the
//! paper gives, and for some the verdict of a run at a small limit.

use crate::oracle::{SAT, UNKNOWN, UNSAT};
use crate::sheet::Writer;

pub struct Example {
    pub name: String,
    pub sheet: Vec<u8>,
    /// Satisfiable or not, as the paper says; nothing where it doesn't.
    pub truth: Option<bool>,
    /// A run: limit and slots, and the verdict it must give.
    pub limit: u32,
    pub slots: usize,
    pub verdict: u32,
}

const LARGE: u32 = 16_384;

struct List(Vec<Example>);

impl List {
    /// Decided at a limit that cuts nothing.
    fn exact(&mut self, name: &str, truth: bool, build: impl FnOnce(&mut Writer)) {
        self.cut(name, Some(truth), LARGE, if truth { SAT } else { UNSAT }, build);
    }
    /// A run at some limit with a given verdict.
    fn cut(&mut self, name: &str, truth: Option<bool>, limit: u32, verdict: u32, build: impl FnOnce(&mut Writer)) {
        let mut w = Writer::new();
        build(&mut w);
        self.0.push(Example { name: name.into(), sheet: w.sheet(), truth, limit, slots: LARGE as usize, verdict });
    }
}

/// All conjuncts.
fn all(w: &mut Writer, formulas: &[usize]) -> usize {
    let mut f = formulas[0];
    for &g in &formulas[1..] {
        f = w.and(f, g);
    }
    f
}

pub fn all_examples() -> Vec<Example> {
    let mut list = List(Vec::new());
    paper_003(&mut list);
    paper_000(&mut list);
    paper_004(&mut list);
    paper_002(&mut list);
    list.0
}

/// F1 of 003: x·y = 0 and x < 2 and x > 4.
fn f1(width: u8) -> impl FnOnce(&mut Writer) {
    move |w| {
        let (x, y) = (w.variable(width), w.variable(width));
        let (zero, two, four) = (w.constant(width, 0), w.constant(width, 2), w.constant(width, 4));
        let product = w.multiply(x, y);
        let a = w.equal(product, zero);
        let b = w.unsigned_lt(x, two);
        let c = w.unsigned_lt(four, x);
        all(w, &[a, b, c]);
    }
}

/// F2 of 003: (x shifted left by 1)·y = 1.
fn f2(width: u8) -> impl FnOnce(&mut Writer) {
    move |w| {
        let (x, y) = (w.variable(width), w.variable(width));
        let shifted = w.shift(10, x, 1);
        let product = w.multiply(shifted, y);
        let one = w.constant(width, 1);
        w.equal(product, one);
    }
}

/// F3 of 003: x and y from 1 to 4 with x·y = 0.
pub fn f3(width: u8) -> impl FnOnce(&mut Writer) {
    move |w| {
        let (x, y) = (w.variable(width), w.variable(width));
        let (zero, four) = (w.constant(width, 0), w.constant(width, 4));
        let a = w.unsigned_lt(zero, x);
        let b = w.unsigned_le(x, four);
        let c = w.unsigned_lt(zero, y);
        let d = w.unsigned_le(y, four);
        let product = w.multiply(x, y);
        let e = w.equal(product, zero);
        all(w, &[a, b, c, d, e]);
    }
}

fn product_is_third(width: u8) -> impl FnOnce(&mut Writer) {
    move |w| {
        let (x, y, z) = (w.variable(width), w.variable(width), w.variable(width));
        let product = w.multiply(x, y);
        w.equal(product, z);
    }
}

/// 003, example 1: t = r and/or s not u, each the sum of two variables.
fn sums(connective: u8) -> impl FnOnce(&mut Writer) {
    move |w| {
        let sum = |w: &mut Writer| {
            let (x, y) = (w.variable(3), w.variable(3));
            w.add(x, y)
        };
        let (t, r, s, u) = (sum(w), sum(w), sum(w), sum(w));
        let equal = w.equal(t, r);
        let same = w.equal(s, u);
        let differ = w.not(same);
        w.formula(connective, &[equal, differ]);
    }
}

/// 003, 5.1: x > 1 and for all y some z with y = x·z.
fn inverse(width: u8) -> impl FnOnce(&mut Writer) {
    move |w| {
        let (x, y, z) = (w.variable(width), w.variable(width), w.variable(width));
        let one = w.constant(width, 1);
        let above = w.unsigned_lt(one, x);
        let product = w.multiply(x, z);
        let equal = w.equal(y, product);
        let some = w.exists(z, equal);
        let every = w.forall(y, some);
        w.and(above, every);
    }
}

fn paper_003(list: &mut List) {
    list.exact("003 fig 1: x iff y", true, |w| {
        let (x, y) = (w.variable(1), w.variable(1));
        w.equal(x, y);
    });
    list.exact("003 fig 2: x + y = 5, width 3", true, |w| {
        let (x, y) = (w.variable(3), w.variable(3));
        let sum = w.add(x, y);
        let five = w.constant(3, 5);
        w.equal(sum, five);
    });
    list.cut("003 F1, width 32, limit 0", Some(false), 0, UNSAT, f1(32));
    list.exact("003 F1, width 5", false, f1(5));
    list.cut("003 F2, width 32, limit 0", Some(false), 0, UNSAT, f2(32));
    list.exact("003 F2, width 6", false, f2(6));
    list.cut("003 F3, width 32, limit 0", Some(false), 0, UNKNOWN, f3(32));
    list.cut("003 F3, width 32, limit 300", Some(false), 300, UNSAT, f3(32));
    list.exact("003 F3, width 5", false, f3(5));
    list.exact("003 F3, width 4", true, f3(4));
    list.cut("003 x·y = z, width 32, limit 0", Some(true), 0, UNKNOWN, product_is_third(32));
    list.exact("003 x·y = z, width 2", true, product_is_third(2));
    list.cut("003 example 1, or, limit 3", Some(true), 3, SAT, sums(42));
    list.cut("003 example 1, and, limit 3", Some(true), 3, UNKNOWN, sums(41));
    list.exact("003 example 1, and", true, sums(41));
    list.cut("003 5.1, width 8, limit 2", Some(true), 2, UNKNOWN, inverse(8));
    list.exact("003 5.1, width 4", true, inverse(4));
    list.exact("003 5.2, unsigned, width 6", true, |w| {
        let (x, y) = (w.variable(6), w.variable(6));
        let thirty = w.constant(6, 30);
        let zero = w.constant(6, 0);
        let small = w.unsigned_le(x, thirty);
        let product = w.multiply(x, y);
        let equal = w.equal(product, zero);
        w.and(small, equal);
    });
    list.exact("003 5.2, signed, width 5", true, |w| {
        let (x, y) = (w.variable(5), w.variable(5));
        let four = w.constant(5, 4);
        let minus_four = w.unary(4, four);
        let zero = w.constant(5, 0);
        let a = w.signed_le(x, four);
        let b = w.signed_le(minus_four, x);
        let product = w.multiply(x, y);
        let c = w.equal(product, zero);
        all(w, &[a, b, c]);
    });
    let between = |width: u8| {
        move |w: &mut Writer| {
            let (x, y) = (w.variable(width), w.variable(width));
            let (two, four) = (w.constant(width, 2), w.constant(width, 4));
            let product = w.multiply(x, y);
            let a = w.unsigned_le(product, two);
            let b = w.unsigned_le(four, product);
            w.and(a, b);
        }
    };
    list.cut("003 5.3, limit 0", Some(false), 0, UNKNOWN, between(8));
    list.exact("003 5.3, width 5", false, between(5));
    list.cut("003 5.3 with m, width 32, limit 0", Some(false), 0, UNSAT, |w| {
        let (x, y, m) = (w.variable(32), w.variable(32), w.variable(32));
        let (two, four) = (w.constant(32, 2), w.constant(32, 4));
        let product = w.multiply(x, y);
        let a = w.unsigned_le(m, two);
        let b = w.unsigned_le(four, m);
        let c = w.equal(m, product);
        let f = all(w, &[a, b, c]);
        w.exists(m, f);
    });
    let forall_z = |width: u8| {
        move |w: &mut Writer| {
            let (x, y, z) = (w.variable(width), w.variable(width), w.variable(width));
            let (two, four) = (w.constant(width, 2), w.constant(width, 4));
            let xy = w.multiply(x, y);
            let zy = w.multiply(z, y);
            let a = w.unsigned_le(xy, two);
            let b = w.unsigned_le(four, zy);
            let every = w.forall(z, b);
            w.and(a, every);
        }
    };
    list.cut("003 5.3, for all z, limit 0", Some(false), 0, UNKNOWN, forall_z(8));
    list.exact("003 5.3, for all z, width 4", false, forall_z(4));
    list.cut("003 5.3 with congruence, width 6, limit 0", Some(false), 0, UNSAT, |w| {
        let width = 6;
        let (x, y, z, m, n) =
            (w.variable(width), w.variable(width), w.variable(width), w.variable(width), w.variable(width));
        let (two, four) = (w.constant(width, 2), w.constant(width, 4));
        let xy = w.multiply(x, y);
        let zy = w.multiply(z, y);
        let m_small = w.unsigned_le(m, two);
        let m_is = w.equal(m, xy);
        let n_large = w.unsigned_le(four, n);
        let n_is = w.equal(n, zy);
        let x_is_z = w.equal(x, z);
        let m_is_n = w.equal(m, n);
        let congruence = w.implies(x_is_z, m_is_n);
        let inner = all(w, &[n_large, n_is, congruence]);
        let some_n = w.exists(n, inner);
        let every_z = w.forall(z, some_n);
        let body = all(w, &[m_small, m_is, every_z]);
        w.exists(m, body);
    });
}

fn paper_000(list: &mut List) {
    for width in 1..=3 {
        list.exact(&format!("000 for all x y some z, width {width}"), true, move |w| {
            let (x, y, z) = (w.variable(width), w.variable(width), w.variable(width));
            let sum = w.add(y, z);
            let product = w.multiply(x, sum);
            let zero = w.constant(width, 0);
            let equal = w.equal(product, zero);
            let f = w.exists(z, equal);
            let f = w.forall(y, f);
            w.forall(x, f);
        });
    }
    for width in [1, 2, 8, 32] {
        list.exact(&format!("000 for all x some y, x + y = 0, width {width}"), true, move |w| {
            let (x, y) = (w.variable(width), w.variable(width));
            let sum = w.add(x, y);
            let zero = w.constant(width, 0);
            let equal = w.equal(sum, zero);
            let f = w.exists(y, equal);
            w.forall(x, f);
        });
        list.exact(&format!("000 for all y, x + y = 0, width {width}"), false, move |w| {
            let (x, y) = (w.variable(width), w.variable(width));
            let sum = w.add(x, y);
            let zero = w.constant(width, 0);
            let equal = w.equal(sum, zero);
            w.forall(y, equal);
        });
    }
}

fn paper_004(list: &mut List) {
    // Every value is reached.
    list.exact("004 x + t reaches all", true, |w| {
        let (t, y, x) = (w.variable(6), w.variable(6), w.variable(6));
        let sum = w.add(x, t);
        let equal = w.equal(sum, y);
        let f = w.exists(x, equal);
        let f = w.forall(y, f);
        w.forall(t, f);
    });
    list.exact("004 x xor t reaches all", true, |w| {
        let (t, y, x) = (w.variable(12), w.variable(12), w.variable(12));
        let sum = w.binary(7, x, t);
        let equal = w.equal(sum, y);
        let f = w.exists(x, equal);
        let f = w.forall(y, f);
        w.forall(t, f);
    });
    for (name, kind) in [("·", 9), ("and", 5), ("or", 6)] {
        list.exact(&format!("004 x {name} t reaches all"), true, move |w| {
            let (y, x, t) = (w.variable(4), w.variable(4), w.variable(4));
            let value = w.binary(kind, x, t);
            let equal = w.equal(value, y);
            let f = w.exists(t, equal);
            let f = w.exists(x, f);
            w.forall(y, f);
        });
    }
    list.exact("004 2·x = 3", false, |w| {
        let x = w.variable(8);
        let (two, three) = (w.constant(8, 2), w.constant(8, 3));
        let product = w.multiply(two, x);
        w.equal(product, three);
    });
    for c in [1u32, 2, 3, 5, 6, 12, 13, 15] {
        list.exact(&format!("004 {c}·x reaches all"), c % 2 == 1, move |w| {
            let (y, x) = (w.variable(4), w.variable(4));
            let c = w.constant(4, c);
            let product = w.multiply(c, x);
            let equal = w.equal(product, y);
            let f = w.exists(x, equal);
            w.forall(y, f);
        });
    }
    // Two terms that reach the same values: for all y, (some u) iff (some v).
    list.exact("004 12·u and v << 2", true, |w| {
        let (y, u, v) = (w.variable(5), w.variable(5), w.variable(5));
        let c = w.constant(5, 12);
        let left = w.multiply(c, u);
        let right = w.shift(10, v, 2);
        let left = w.equal(left, y);
        let right = w.equal(right, y);
        let left = w.exists(u, left);
        let right = w.exists(v, right);
        let f = w.same(left, right);
        w.forall(y, f);
    });
    list.exact("004 6·x and 2·y", true, |w| {
        let (z, x, y) = (w.variable(5), w.variable(5), w.variable(5));
        let (six, two) = (w.constant(5, 6), w.constant(5, 2));
        let left = w.multiply(six, x);
        let right = w.multiply(two, y);
        let left = w.equal(left, z);
        let right = w.equal(right, z);
        let left = w.exists(x, left);
        let right = w.exists(y, right);
        let f = w.same(left, right);
        w.forall(z, f);
    });
    list.exact("004 example 4, width 3", true, |w| {
        let (t, y, u) = (w.variable(3), w.variable(3), w.variable(3));
        let (v0, v1, v2) = (w.variable(3), w.variable(3), w.variable(3));
        let zero = w.constant(3, 0);
        let one = w.constant(1, 1);
        let product = w.multiply(t, u);
        let left = w.equal(product, y);
        let left = w.exists(u, left);
        let mut chosen = zero;
        for (bit, v) in [(2u8, v2), (1, v1), (0, v0)] {
            let shifted = w.shift(10, v, bit);
            let t_bit = w.extract(t, bit, bit);
            let is_one = w.equal(t_bit, one);
            chosen = w.if_then_else(is_one, shifted, chosen);
        }
        let mut right = w.equal(chosen, y);
        for v in [v0, v1, v2] {
            right = w.exists(v, right);
        }
        let f = w.same(left, right);
        let f = w.forall(y, f);
        w.forall(t, f);
    });
    list.exact("004 some x for all y, x + y = 0", false, |w| {
        let (x, y) = (w.variable(8), w.variable(8));
        let sum = w.add(x, y);
        let zero = w.constant(8, 0);
        let equal = w.equal(sum, zero);
        let f = w.forall(y, equal);
        w.exists(x, f);
    });
    list.exact("004 for all v, v = 0", false, |w| {
        let v = w.variable(8);
        let zero = w.constant(8, 0);
        let equal = w.equal(v, zero);
        w.forall(v, equal);
    });
    table_2(list);
}

/// Table 2 of 004: for all t, (Q u. atom) iff (the right column).
fn table_2(list: &mut List) {
    // What the right column says of t.
    #[derive(Clone, Copy)]
    enum Right {
        Always,
        Never,
        Is(u32),
        IsNot(u32),
    }
    use Right::*;
    for k in [1u8, 4] {
        let ones = (1u32 << k) - 1;
        let top = ones >> 1; // 2^(k−1) − 1
        let least = 1u32 << (k - 1); // −2^(k−1)
        let rows: [(&str, Right, Right); 10] = [
            ("u = t", Always, Never),
            ("u != t", Always, Never),
            ("t <u u", IsNot(ones), Never),
            ("t <s u", IsNot(top), Never),
            ("u <u t", IsNot(0), Never),
            ("u <s t", IsNot(least), Never),
            ("t <=u u", Always, Is(0)),
            ("t <=s u", Always, Is(least)),
            ("u <=u t", Always, Is(ones)),
            ("u <=s t", Always, Is(top)),
        ];
        for (row, (name, existential, universal)) in rows.into_iter().enumerate() {
            for (quantifier, right) in [(48u8, existential), (49, universal)] {
                list.exact(&format!("004 table 2, {name}, kind {quantifier}, width {k}"), true, move |w| {
                    let (t, u) = (w.variable(k), w.variable(k));
                    let atom = match row {
                        0 => w.equal(u, t),
                        1 => {
                            let same = w.equal(u, t);
                            w.not(same)
                        }
                        2 => w.unsigned_lt(t, u),
                        3 => w.signed_lt(t, u),
                        4 => w.unsigned_lt(u, t),
                        5 => w.signed_lt(u, t),
                        6 => w.unsigned_le(t, u),
                        7 => w.signed_le(t, u),
                        8 => w.unsigned_le(u, t),
                        _ => w.signed_le(u, t),
                    };
                    let left = w.formula(quantifier, &[u, atom]);
                    let right = match right {
                        Always => w.formula(32, &[]),
                        Never => w.formula(33, &[]),
                        Is(value) => {
                            let c = w.constant(k, value);
                            w.equal(t, c)
                        }
                        IsNot(value) => {
                            let c = w.constant(k, value);
                            let same = w.equal(t, c);
                            w.not(same)
                        }
                    };
                    let f = w.same(left, right);
                    w.forall(t, f);
                });
            }
        }
    }
}

/// Closes a formula under x and y: it holds for all their values.
fn for_all(w: &mut Writer, x: usize, y: usize, f: usize) {
    let f = w.forall(y, f);
    w.forall(x, f);
}

/// 002: the formula of the introduction and the rewrite rules whose operations
/// exist in 01 (with its shifts), as closed sheets.
fn paper_002(list: &mut List) {
    list.exact("002 x < y and y < x + x, width 4", true, |w| {
        let (x, y) = (w.variable(4), w.variable(4));
        let a = w.unsigned_lt(x, y);
        let sum = w.add(x, x);
        let b = w.unsigned_lt(y, sum);
        w.and(a, b);
    });
    let k = 5u8;
    // Rules that equate two terms.
    type TermRule = fn(&mut Writer, usize, usize, u8) -> (usize, usize);
    let terms: [(&str, TermRule); 20] = [
        ("concat-extract-merge", |w, x, _, k| {
            let (high, low) = (w.extract(x, k - 1, 2), w.extract(x, 1, 1));
            (w.concat(high, low), w.extract(x, k - 1, 1))
        }),
        ("extract-extract", |w, x, _, k| {
            let inner = w.extract(x, k - 1, 1);
            (w.extract(inner, 2, 1), w.extract(x, 3, 2))
        }),
        ("extract-whole", |w, x, _, k| (w.extract(x, k - 1, 0), x)),
        ("add-zero", |w, x, _, k| {
            let zero = w.constant(k, 0);
            (w.add(x, zero), x)
        }),
        ("reverse-extract-and", |w, x, y, _| {
            let (a, b) = (w.extract(x, 3, 1), w.extract(y, 3, 1));
            let both = w.binary(5, x, y);
            (w.binary(5, a, b), w.extract(both, 3, 1))
        }),
        ("xor-simplify-2", |w, x, _, k| {
            let not = w.unary(3, x);
            let zero = w.constant(k, 0);
            (w.binary(7, x, not), w.unary(3, zero))
        }),
        ("or-zero", |w, x, _, k| {
            let zero = w.constant(k, 0);
            (w.binary(6, x, zero), x)
        }),
        ("mul-one", |w, x, _, k| {
            let one = w.constant(k, 1);
            (w.multiply(x, one), x)
        }),
        ("mul-zero", |w, x, _, k| {
            let zero = w.constant(k, 0);
            (w.multiply(x, zero), zero)
        }),
        ("zero-extend-eliminate", |w, x, _, k| (w.extend(14, x, k), x)),
        ("sign-extend-eliminate", |w, x, _, k| (w.extend(15, x, k), x)),
        ("neg-sub", |w, x, y, _| {
            let (minus_x, minus_y) = (w.unary(4, x), w.unary(4, y));
            let x_less_y = w.add(x, minus_y);
            (w.unary(4, x_less_y), w.add(y, minus_x))
        }),
        ("neg-idemp", |w, x, _, _| {
            let minus = w.unary(4, x);
            (w.unary(4, minus), x)
        }),
        ("shl-by-const-0", |w, x, _, _| (w.shift(10, x, 0), x)),
        ("lshr-by-const-0", |w, x, _, _| (w.shift(11, x, 0), x)),
        ("bitwise-idemp-2", |w, x, _, _| (w.binary(6, x, x), x)),
        ("or-one", |w, x, _, k| {
            let not = w.unary(3, x);
            let zero = w.constant(k, 0);
            (w.binary(6, x, not), w.unary(3, zero))
        }),
        ("xor-duplicate", |w, x, _, k| {
            let zero = w.constant(k, 0);
            (w.binary(7, x, x), zero)
        }),
        ("xor-not", |w, x, y, _| {
            let (a, b) = (w.unary(3, x), w.unary(3, y));
            (w.binary(7, a, b), w.binary(7, x, y))
        }),
        ("not-idemp", |w, x, _, _| {
            let not = w.unary(3, x);
            (w.unary(3, not), x)
        }),
    ];
    for (name, rule) in terms {
        list.exact(&format!("002 {name}"), true, move |w| {
            let (x, y) = (w.variable(k), w.variable(k));
            let (left, right) = rule(w, x, y, k);
            let f = w.equal(left, right);
            for_all(w, x, y, f);
        });
    }
    // Rules that equate two formulas; gt and ge are the swapped lt and le.
    type FormulaRule = fn(&mut Writer, usize, usize, u8) -> (usize, usize);
    let formulas: [(&str, FormulaRule); 11] = [
        ("not-neq", |w, x, _, _| {
            let not = w.unary(3, x);
            (w.equal(x, not), w.formula(33, &[]))
        }),
        ("ult-zero-1", |w, x, _, k| {
            let zero = w.constant(k, 0);
            let is_zero = w.equal(x, zero);
            (w.unsigned_lt(zero, x), w.not(is_zero))
        }),
        ("ult-zero-2", |w, x, _, k| {
            let zero = w.constant(k, 0);
            (w.unsigned_lt(x, zero), w.formula(33, &[]))
        }),
        ("ult-self", |w, x, _, _| (w.unsigned_lt(x, x), w.formula(33, &[]))),
        ("lt-self", |w, x, _, _| (w.signed_lt(x, x), w.formula(33, &[]))),
        ("ule-self", |w, x, _, _| (w.unsigned_le(x, x), w.formula(32, &[]))),
        ("ule-zero", |w, x, _, k| {
            let zero = w.constant(k, 0);
            (w.unsigned_le(x, zero), w.equal(x, zero))
        }),
        ("zero-ule", |w, x, _, k| {
            let zero = w.constant(k, 0);
            (w.unsigned_le(zero, x), w.formula(32, &[]))
        }),
        ("sle-self", |w, x, _, _| (w.signed_le(x, x), w.formula(32, &[]))),
        ("ule-max, with the greatest number", |w, x, _, k| {
            let zero = w.constant(k, 0);
            let most = w.unary(3, zero);
            (w.unsigned_le(x, most), w.formula(32, &[]))
        }),
        ("ult-one", |w, x, _, k| {
            let (zero, one) = (w.constant(k, 0), w.constant(k, 1));
            (w.unsigned_lt(x, one), w.equal(x, zero))
        }),
    ];
    for (name, rule) in formulas {
        list.exact(&format!("002 {name}"), true, move |w| {
            let (x, y) = (w.variable(k), w.variable(k));
            let (left, right) = rule(w, x, y, k);
            let f = w.same(left, right);
            for_all(w, x, y, f);
        });
    }
}

//! A plain fast solver for benchmarks: the same rules as `oracle`, with a
//! hashed unique table, a direct-mapped memo sized to the slots, and no
//! allocation while it works the entries.

use crate::oracle::{room_refusal, Outcome, SAT, UNKNOWN, UNSAT};
use crate::sheet::{self, Entry, What};

const FALSE: u32 = 0;
const TRUE: u32 = 1;
/// The unknown mark.
const MARK: u32 = u32::MAX;
const NO_LEVEL: u32 = u32::MAX;

/// No room for another node.
struct Full;
type Got = Result<u32, Full>;

// Operations, as memo tags; 0 means an empty memo place.
const AND: u32 = 1;
const OR: u32 = 2;
const XOR: u32 = 3;
const AGREE: u32 = 4;
const LESS: u32 = 5;
const CHOOSE: u32 = 6;
const EXISTS: u32 = 7;
const FORALL: u32 = 8;

#[derive(Clone, Copy)]
struct Node {
    level: u32,
    low: u32,
    high: u32,
}

#[derive(Clone, Copy)]
struct Row {
    bits: [u32; 32],
    width: usize,
}

/// A memo place: tag, three operands, result. All zeros is empty (and plain
/// zeros cost nothing to lend).
type Memo = [u32; 5];

struct Fast {
    nodes: Vec<Node>,
    /// Node numbers by open addressing; 0 is empty.
    unique: Vec<u32>,
    memo: Vec<Memo>,
    /// The number of the last count that saw each node.
    seen: Vec<u32>,
    count_number: u32,
    most: usize,
    limit: u32,
}

fn mix(a: u32, b: u32, c: u32, d: u32) -> usize {
    let mut h = (a as u64) << 32 | b as u64;
    h = h.wrapping_mul(0x9E37_79B9_7F4A_7C15);
    h ^= (c as u64) << 32 | d as u64;
    h ^= h >> 31;
    h = h.wrapping_mul(0xD6E8_FEB8_6659_FD93);
    (h ^ h >> 32) as usize
}

impl Fast {
    fn new(slots: usize, limit: u32) -> Fast {
        let mut nodes = Vec::with_capacity(slots + 2);
        nodes.push(Node { level: NO_LEVEL, low: 0, high: 0 });
        nodes.push(Node { level: NO_LEVEL, low: 1, high: 1 });
        let places = slots.max(2).next_power_of_two();
        Fast {
            nodes,
            unique: vec![0; 2 * places],
            memo: vec![[0; 5]; places],
            seen: vec![0; slots + 2],
            count_number: 0,
            most: slots + 2,
            limit,
        }
    }

    #[inline]
    fn level(&self, f: u32) -> u32 {
        self.nodes[f as usize].level
    }

    /// The part of f at a level: the child if f stands there, else f.
    #[inline]
    fn parts(&self, f: u32, level: u32) -> (u32, u32) {
        let node = self.nodes[f as usize];
        if node.level == level { (node.low, node.high) } else { (f, f) }
    }

    #[inline]
    fn make(&mut self, level: u32, low: u32, high: u32) -> Got {
        if low == high {
            return Ok(low);
        }
        let mask = self.unique.len() - 1;
        let mut place = mix(level, low, high, 0) & mask;
        loop {
            let number = self.unique[place];
            if number == 0 {
                break;
            }
            let node = self.nodes[number as usize];
            if node.level == level && node.low == low && node.high == high {
                return Ok(number);
            }
            place = (place + 1) & mask;
        }
        if self.nodes.len() == self.most {
            return Err(Full);
        }
        let number = self.nodes.len() as u32;
        self.nodes.push(Node { level, low, high });
        self.unique[place] = number;
        Ok(number)
    }

    #[inline]
    fn place(&self, tag: u32, a: u32, b: u32, c: u32) -> usize {
        mix(a, b, c, tag) & (self.memo.len() - 1)
    }

    #[inline]
    fn look(&self, place: usize, tag: u32, a: u32, b: u32, c: u32) -> Option<u32> {
        let m = self.memo[place];
        if m[..4] == [tag, a, b, c] { Some(m[4]) } else { None }
    }

    /// and, or, xor, agree.
    fn pair(&mut self, tag: u32, a: u32, b: u32) -> Got {
        // All four are symmetric.
        let (a, b) = if a <= b { (a, b) } else { (b, a) };
        match tag {
            AND => {
                if a == FALSE {
                    return Ok(FALSE);
                }
                if a == TRUE || a == b {
                    return Ok(b);
                }
            }
            OR => {
                if a == TRUE {
                    return Ok(TRUE);
                }
                if a == FALSE || a == b {
                    return Ok(b);
                }
            }
            XOR => {
                if a == b {
                    return Ok(FALSE);
                }
                if a == FALSE {
                    return Ok(b);
                }
            }
            _ => {
                if a == b {
                    return Ok(TRUE);
                }
                if a == TRUE {
                    return Ok(b);
                }
            }
        }
        if b <= TRUE {
            // Only xor and agree of 0 and 1 are left.
            return Ok(if tag == XOR { TRUE } else { FALSE });
        }
        let place = self.place(tag, a, b, 0);
        if let Some(found) = self.look(place, tag, a, b, 0) {
            return Ok(found);
        }
        let level = self.level(a).min(self.level(b));
        let (a0, a1) = self.parts(a, level);
        let (b0, b1) = self.parts(b, level);
        let low = self.pair(tag, a0, b0)?;
        let high = self.pair(tag, a1, b1)?;
        let result = self.make(level, low, high)?;
        self.memo[place] = [tag, a, b, 0, result];
        Ok(result)
    }

    fn not(&mut self, a: u32) -> Got {
        self.pair(XOR, TRUE, a)
    }

    /// (not a and b) or ((a agrees with b) and r), as one function.
    fn less(&mut self, a: u32, b: u32, r: u32) -> Got {
        if a == b {
            return Ok(r);
        }
        if b == r {
            return Ok(b);
        }
        if a == FALSE {
            return self.pair(OR, b, r);
        }
        if a == TRUE {
            return self.pair(AND, b, r);
        }
        let place = self.place(LESS, a, b, r);
        if let Some(found) = self.look(place, LESS, a, b, r) {
            return Ok(found);
        }
        let level = self.level(a).min(self.level(b)).min(self.level(r));
        let (a0, a1) = self.parts(a, level);
        let (b0, b1) = self.parts(b, level);
        let (r0, r1) = self.parts(r, level);
        let low = self.less(a0, b0, r0)?;
        let high = self.less(a1, b1, r1)?;
        let result = self.make(level, low, high)?;
        self.memo[place] = [LESS, a, b, r, result];
        Ok(result)
    }

    /// t where c, e elsewhere.
    fn choose(&mut self, c: u32, t: u32, e: u32) -> Got {
        if c == TRUE || t == e {
            return Ok(t);
        }
        if c == FALSE {
            return Ok(e);
        }
        if t == TRUE {
            return self.pair(OR, c, e);
        }
        if e == FALSE {
            return self.pair(AND, c, t);
        }
        let place = self.place(CHOOSE, c, t, e);
        if let Some(found) = self.look(place, CHOOSE, c, t, e) {
            return Ok(found);
        }
        let level = self.level(c).min(self.level(t)).min(self.level(e));
        let (c0, c1) = self.parts(c, level);
        let (t0, t1) = self.parts(t, level);
        let (e0, e1) = self.parts(e, level);
        let low = self.choose(c0, t0, e0)?;
        let high = self.choose(c1, t1, e1)?;
        let result = self.make(level, low, high)?;
        self.memo[place] = [CHOOSE, c, t, e, result];
        Ok(result)
    }

    /// Both choices for one level, by or (EXISTS) or and (FORALL).
    fn both(&mut self, tag: u32, f: u32, at: u32) -> Got {
        let node = self.nodes[f as usize];
        if node.level > at {
            return Ok(f);
        }
        if node.level == at {
            return self.pair(if tag == EXISTS { OR } else { AND }, node.low, node.high);
        }
        let place = self.place(tag, f, at, 0);
        if let Some(found) = self.look(place, tag, f, at, 0) {
            return Ok(found);
        }
        let low = self.both(tag, node.low, at)?;
        let high = self.both(tag, node.high, at)?;
        let result = self.make(node.level, low, high)?;
        self.memo[place] = [tag, f, at, 0, result];
        Ok(result)
    }

    /// Nodes of f not yet seen in this count.
    fn count(&mut self, f: u32) -> u32 {
        if f <= TRUE || self.seen[f as usize] == self.count_number {
            return 0;
        }
        self.seen[f as usize] = self.count_number;
        let node = self.nodes[f as usize];
        1 + self.count(node.low) + self.count(node.high)
    }

    /// and, or, xor with marks.
    fn marked(&mut self, tag: u32, a: u32, b: u32) -> Got {
        if a != MARK && b != MARK {
            return self.pair(tag, a, b);
        }
        Ok(match tag {
            AND if a == FALSE || b == FALSE => FALSE,
            OR if a == TRUE || b == TRUE => TRUE,
            _ => MARK,
        })
    }

    fn add(&mut self, a: &Row, b: &Row) -> Result<Row, Full> {
        let width = a.width;
        let mut sum = Row { bits: [MARK; 32], width };
        let mut carry = FALSE;
        let mut counted = 0;
        self.count_number += 1;
        for i in 0..width {
            let (x, y) = (a.bits[i], b.bits[i]);
            if x == MARK || y == MARK {
                break;
            }
            let half = self.pair(XOR, x, y)?;
            let bit = self.pair(XOR, half, carry)?;
            counted += self.count(bit);
            if counted > self.limit {
                break;
            }
            sum.bits[i] = bit;
            if i + 1 < width {
                let generated = self.pair(AND, x, y)?;
                let passed = self.pair(AND, half, carry)?;
                carry = self.pair(OR, generated, passed)?;
            }
        }
        Ok(sum)
    }

    fn at_most(&mut self, a: &Row, b: &Row, signed: bool, must: bool) -> Got {
        let mut r = TRUE;
        for i in 0..a.width {
            let top = signed && i + 1 == a.width;
            let (if_a, if_b) = if must != top { (TRUE, FALSE) } else { (FALSE, TRUE) };
            let x = if a.bits[i] == MARK { if_a } else { a.bits[i] };
            let y = if b.bits[i] == MARK { if_b } else { b.bits[i] };
            // The signed top rule is the other one with a and b swapped.
            r = if top { self.less(y, x, r)? } else { self.less(x, y, r)? };
        }
        Ok(r)
    }

    fn work(&mut self, entries: &[Entry], levels: &[Vec<usize>], rows: &mut [Row], pairs: &mut [(u32, u32)]) -> Result<(), Full> {
        use What::*;
        for (own, entry) in entries.iter().enumerate() {
            let width = entry.width;
            let mut out = Row { bits: [FALSE; 32], width };
            let mut pair = (FALSE, FALSE);
            match entry.what {
                Variable => {
                    for i in 0..width {
                        out.bits[i] = self.make(levels[own][i] as u32, FALSE, TRUE)?;
                    }
                }
                Constant(value) => {
                    for i in 0..width {
                        out.bits[i] = value >> i & 1;
                    }
                }
                BitNot(a) | Negate(a) => {
                    for i in 0..width {
                        let x = rows[a].bits[i];
                        out.bits[i] = if x == MARK { MARK } else { self.not(x)? };
                    }
                    if let Negate(_) = entry.what {
                        let mut one = Row { bits: [FALSE; 32], width };
                        one.bits[0] = TRUE;
                        out = self.add(&out, &one)?;
                    }
                }
                BitAnd(a, b) | BitOr(a, b) | BitXor(a, b) => {
                    let tag = match entry.what {
                        BitAnd(..) => AND,
                        BitOr(..) => OR,
                        _ => XOR,
                    };
                    for i in 0..width {
                        out.bits[i] = self.marked(tag, rows[a].bits[i], rows[b].bits[i])?;
                    }
                }
                Add(a, b) => out = self.add(&rows[a], &rows[b])?,
                Multiply(a, b) => {
                    for j in 0..width {
                        let mut part = Row { bits: [FALSE; 32], width };
                        for k in j..width {
                            part.bits[k] = self.marked(AND, rows[a].bits[k - j], rows[b].bits[j])?;
                        }
                        out = self.add(&out, &part)?;
                    }
                }
                ShiftLeft(a, amount) => {
                    let by = amount % width;
                    out.bits[by..width].copy_from_slice(&rows[a].bits[..width - by]);
                }
                ShiftRight(a, amount) => {
                    let by = amount % width;
                    out.bits[..width - by].copy_from_slice(&rows[a].bits[by..width]);
                }
                Concat(high, low) => {
                    let l = rows[low].width;
                    out.bits[..l].copy_from_slice(&rows[low].bits[..l]);
                    out.bits[l..width].copy_from_slice(&rows[high].bits[..width - l]);
                }
                Extract(a, u, l) => out.bits[..width].copy_from_slice(&rows[a].bits[l..=u]),
                ZeroExtend(a) | SignExtend(a) => {
                    let w = rows[a].width;
                    out.bits[..w].copy_from_slice(&rows[a].bits[..w]);
                    if let SignExtend(_) = entry.what {
                        let top = rows[a].bits[w - 1];
                        out.bits[w..width].fill(top);
                    }
                }
                IfThenElse(c, t, e) => {
                    let (must, may) = pairs[c];
                    for i in 0..width {
                        let (x, y) = (rows[t].bits[i], rows[e].bits[i]);
                        out.bits[i] = if x == y {
                            x // also right for two marks
                        } else if must != may {
                            MARK
                        } else if must == TRUE {
                            x
                        } else if must == FALSE {
                            y
                        } else if x == MARK || y == MARK {
                            MARK
                        } else {
                            self.choose(must, x, y)?
                        };
                    }
                }
                True => pair = (TRUE, TRUE),
                False => {}
                Equal(a, b) => {
                    let mut r = TRUE;
                    let mut known = true;
                    for i in 0..rows[a].width {
                        let (x, y) = (rows[a].bits[i], rows[b].bits[i]);
                        if x == MARK || y == MARK {
                            known = false;
                        } else {
                            let agree = self.pair(AGREE, x, y)?;
                            r = self.pair(AND, r, agree)?;
                        }
                    }
                    pair = (if known { r } else { FALSE }, r);
                }
                UnsignedLe(a, b) | SignedLe(a, b) => {
                    let signed = matches!(entry.what, SignedLe(..));
                    let must = self.at_most(&rows[a], &rows[b], signed, true)?;
                    let may = self.at_most(&rows[a], &rows[b], signed, false)?;
                    pair = (must, may);
                }
                Not(f) => {
                    let must = self.not(pairs[f].1)?;
                    let may = self.not(pairs[f].0)?;
                    pair = (must, may);
                }
                And(f, g) | Or(f, g) => {
                    let tag = if let And(..) = entry.what { AND } else { OR };
                    let must = self.pair(tag, pairs[f].0, pairs[g].0)?;
                    let may = self.pair(tag, pairs[f].1, pairs[g].1)?;
                    pair = (must, may);
                }
                Exists(x, f) | Forall(x, f) => {
                    let tag = if let Exists(..) = entry.what { EXISTS } else { FORALL };
                    let (mut must, mut may) = pairs[f];
                    for &level in levels[x].iter().rev() {
                        must = self.both(tag, must, level as u32)?;
                    }
                    for &level in levels[x].iter().rev() {
                        may = self.both(tag, may, level as u32)?;
                    }
                    pair = (must, may);
                }
            }
            rows[own] = out;
            pairs[own] = pair;
        }
        Ok(())
    }
}

/// The same answers as `oracle::solve`.
pub fn solve(sheet: &[u8], limit: u32, table_len: usize, work_len: usize) -> Outcome {
    let entries = match sheet::check(sheet) {
        Ok(entries) => entries,
        Err(number) => return Outcome::refusal(number),
    };
    if let Some(number) = room_refusal(table_len, work_len) {
        return Outcome::refusal(number);
    }
    let levels = sheet::levels(&entries);
    let mut rows = vec![Row { bits: [FALSE; 32], width: 0 }; entries.len()];
    let mut pairs = vec![(FALSE, FALSE); entries.len()];
    let mut fast = Fast::new(table_len / 3, limit);
    if fast.work(&entries, &levels, &mut rows, &mut pairs).is_err() {
        return Outcome::refusal(11);
    }
    let (must, may) = pairs[entries.len() - 1];
    let nodes: Vec<[u32; 3]> = fast.nodes[2..].iter().map(|n| [n.level, n.low, n.high]).collect();
    Outcome {
        number: 0,
        verdict: if must != FALSE {
            SAT
        } else if may == FALSE {
            UNSAT
        } else {
            UNKNOWN
        },
        must,
        may,
        used: nodes.len() as u32,
        nodes,
    }
}

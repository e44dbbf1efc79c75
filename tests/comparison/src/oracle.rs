//! The slow and clear solver. It works in two separate parts, so that it
//! doesn't resemble a usual diagram package:
//!
//! * a `Store` of functions, hash-consed, where each function has an arbitrary
//!   identity (high parts are even made first). It applies any function of up
//!   to three diagrams, given by the eight rows of its truth table;
//! * the table of document 01, into which a function found in the store is
//!   *entered* afterwards by a plain walk: low part, high part, node.
//!
//! Every function the store makes during a step is a part of that step's own
//! diagram, so store and table hold the same nodes after each step. This is
//! asserted, and it makes the store's size the exact test for refusal 11.

use crate::sheet::{self, Entry, What};
use std::collections::{HashMap, HashSet};
use std::hash::{BuildHasherDefault, Hasher};

pub const UNNAMED_LIMIT: u32 = 1000;
pub const PROGRAM_SLOTS: usize = 2048;
pub const PROGRAM_INPUT: usize = 2563;
pub const TABLE_MOST: usize = 3_145_728;
pub const WORK_LEAST: usize = 8192;
pub const SAT: u32 = 1;
pub const UNSAT: u32 = 2;
pub const UNKNOWN: u32 = 3;

/// What solve gives back, and the nodes it leaves in the table.
#[derive(Clone, Debug, Default, PartialEq, Eq)]
pub struct Outcome {
    pub number: u32,
    pub verdict: u32,
    pub must: u32,
    pub may: u32,
    pub used: u32,
    pub nodes: Vec<[u32; 3]>,
}

impl Outcome {
    pub fn refusal(number: u32) -> Outcome {
        Outcome { number, ..Outcome::default() }
    }
    /// A table of this many slots as the outcome leaves it.
    pub fn table(&self, slots: usize) -> Vec<u32> {
        let mut table = vec![0; 3 * slots];
        apply(self, &mut table, &mut []);
        table
    }
}

/// Brings lent buffers to what solve leaves in them.
pub fn apply(outcome: &Outcome, table: &mut [u32], work: &mut [u32]) {
    if outcome.number == 0 || outcome.number == 11 {
        table.fill(0);
        work.fill(0);
        for (slot, node) in outcome.nodes.iter().enumerate() {
            table[3 * slot..3 * slot + 3].copy_from_slice(node);
        }
    }
}

// ---------------------------------------------------------------- the store

/// A quick hash for small keys of numbers.
#[derive(Default)]
pub struct Quick(u64);
impl Hasher for Quick {
    fn write(&mut self, bytes: &[u8]) {
        for &b in bytes {
            self.write_u64(b as u64);
        }
    }
    fn write_u8(&mut self, n: u8) {
        self.write_u64(n as u64);
    }
    fn write_u32(&mut self, n: u32) {
        self.write_u64(n as u64);
    }
    fn write_u64(&mut self, n: u64) {
        self.0 = (self.0.rotate_left(23) ^ n).wrapping_mul(0x9E37_79B9_7F4A_7C15);
    }
    fn finish(&self) -> u64 {
        self.0 ^ (self.0 >> 29)
    }
}
type Map<K, V> = HashMap<K, V, BuildHasherDefault<Quick>>;
type Set<K> = HashSet<K, BuildHasherDefault<Quick>>;

/// A function's identity in the store.
type Id = u32;
const FALSE: Id = 0;
const TRUE: Id = 1;
const NO_LEVEL: u32 = u32::MAX;

/// The steps need more nodes than there are slots.
struct NoRoom;

/// The eight rows of a function of three bits; row a + 2b + 4c.
fn rows(f: impl Fn(bool, bool, bool) -> bool) -> u8 {
    (0..8u8).filter(|r| f(r & 1 != 0, r & 2 != 0, r & 4 != 0)).map(|r| 1 << r).sum()
}

struct Store {
    /// Level, low, high; the first two are the terminals.
    nodes: Vec<(u32, Id, Id)>,
    found: Map<(u32, Id, Id), Id>,
    applied: Map<(u8, [Id; 3]), Id>,
    quantified: Map<(bool, u32, Id), Id>,
    slots: usize,
}

impl Store {
    fn new(slots: usize) -> Store {
        Store {
            nodes: vec![(NO_LEVEL, 0, 0), (NO_LEVEL, 1, 1)],
            found: Map::default(),
            applied: Map::default(),
            quantified: Map::default(),
            slots,
        }
    }

    /// The number of nodes, terminals not counted.
    fn size(&self) -> usize {
        self.nodes.len() - 2
    }

    fn level(&self, f: Id) -> u32 {
        self.nodes[f as usize].0
    }

    fn node(&mut self, level: u32, low: Id, high: Id) -> Result<Id, NoRoom> {
        if low == high {
            return Ok(low);
        }
        if let Some(&id) = self.found.get(&(level, low, high)) {
            return Ok(id);
        }
        if self.size() == self.slots {
            return Err(NoRoom);
        }
        let id = self.nodes.len() as Id;
        self.nodes.push((level, low, high));
        self.found.insert((level, low, high), id);
        Ok(id)
    }

    /// The function given by the rows over three functions.
    fn apply(&mut self, rows: u8, on: [Id; 3]) -> Result<Id, NoRoom> {
        let (rows, on) = simplest(rows, on);
        if rows == 0 {
            return Ok(FALSE);
        }
        if rows == 0xFF {
            return Ok(TRUE);
        }
        for place in 0..3 {
            if rows == PLAIN[place] {
                return Ok(on[place]);
            }
        }
        if let Some(&id) = self.applied.get(&(rows, on)) {
            return Ok(id);
        }
        let level = on.iter().map(|&f| self.level(f)).min().unwrap();
        let part = |store: &Store, high: bool| {
            on.map(|f| match store.nodes[f as usize] {
                (l, low_part, high_part) if l == level => if high { high_part } else { low_part },
                _ => f,
            })
        };
        let (highs, lows) = (part(self, true), part(self, false));
        let high = self.apply(rows, highs)?;
        let low = self.apply(rows, lows)?;
        let id = self.node(level, low, high)?;
        self.applied.insert((rows, on), id);
        Ok(id)
    }

    /// The or (and) of both choices for one level.
    fn quantify(&mut self, exists: bool, level: u32, f: Id) -> Result<Id, NoRoom> {
        let (own, low, high) = self.nodes[f as usize];
        if own > level {
            return Ok(f);
        }
        if let Some(&id) = self.quantified.get(&(exists, level, f)) {
            return Ok(id);
        }
        let id = if own == level {
            let rows = if exists { rows(|a, b, _| a || b) } else { rows(|a, b, _| a && b) };
            self.apply(rows, [low, high, FALSE])?
        } else {
            let high = self.quantify(exists, level, high)?;
            let low = self.quantify(exists, level, low)?;
            self.node(own, low, high)?
        };
        self.quantified.insert((exists, level, f), id);
        Ok(id)
    }

    /// Puts a diagram's nodes into a set.
    fn gather(&self, f: Id, set: &mut Set<Id>) {
        if f > TRUE && set.insert(f) {
            let (_, low, high) = self.nodes[f as usize];
            self.gather(low, set);
            self.gather(high, set);
        }
    }
}

/// The rows that just give operand 0, 1 or 2.
const PLAIN: [u8; 3] = [0b1010_1010, 0b1100_1100, 0b1111_0000];

/// The same function with terminals, repeated operands and operands without
/// influence taken out (FALSE stands in their place).
fn simplest(mut rows: u8, mut on: [Id; 3]) -> (u8, [Id; 3]) {
    // Rows where the operand at `place` is replaced by what `source` says.
    let replace = |rows: u8, place: usize, source: &dyn Fn(u8) -> bool| -> u8 {
        (0..8u8)
            .filter(|&r| {
                let from = if source(r) { r | 1 << place } else { r & !(1 << place) };
                rows >> from & 1 != 0
            })
            .map(|r| 1 << r)
            .sum()
    };
    for place in 0..3 {
        if on[place] <= TRUE {
            let value = on[place] == TRUE;
            rows = replace(rows, place, &|_| value);
            on[place] = FALSE;
        }
        for before in 0..place {
            if on[before] == on[place] {
                rows = replace(rows, place, &|r| r >> before & 1 != 0);
                on[place] = FALSE;
            }
        }
    }
    for place in 0..3 {
        if replace(rows, place, &|_| false) == replace(rows, place, &|_| true) {
            on[place] = FALSE;
        }
    }
    (rows, on)
}

// --------------------------------------------------------------- the solver

/// A bit of a term: a function, or unknown.
type Bit = Option<Id>;
/// A term's bits, bit 0 first.
type Row = Vec<Bit>;

#[derive(Clone, Copy)]
struct Pair {
    must: Id,
    may: Id,
}

#[derive(Clone)]
enum Meaning {
    Term(Row),
    Formula(Pair),
}

struct Solver {
    store: Store,
    table: Vec<[u32; 3]>,
    /// Table numbers of the functions entered.
    numbers: Map<Id, u32>,
    limit: u32,
}

impl Solver {
    fn number(&self, f: Id) -> u32 {
        if f <= TRUE { f } else { self.numbers[&f] }
    }

    /// Low part first, then high part, then the node, each only if new.
    fn enter(&mut self, f: Id) {
        if f <= TRUE || self.numbers.contains_key(&f) {
            return;
        }
        let (level, low, high) = self.store.nodes[f as usize];
        self.enter(low);
        self.enter(high);
        self.table.push([level, self.number(low), self.number(high)]);
        self.numbers.insert(f, self.table.len() as u32 + 1);
    }

    fn entered(&mut self, f: Id) -> Id {
        self.enter(f);
        assert_eq!(self.table.len(), self.store.size(), "a foreign node");
        f
    }

    /// One step: a function of up to three diagrams.
    fn step(&mut self, rows: u8, on: [Id; 3]) -> Result<Id, NoRoom> {
        let f = self.store.apply(rows, on)?;
        Ok(self.entered(f))
    }

    fn not(&mut self, a: Id) -> Result<Id, NoRoom> {
        self.step(rows(|a, _, _| !a), [a, FALSE, FALSE])
    }
    fn and(&mut self, a: Id, b: Id) -> Result<Id, NoRoom> {
        self.step(rows(|a, b, _| a && b), [a, b, FALSE])
    }
    fn or(&mut self, a: Id, b: Id) -> Result<Id, NoRoom> {
        self.step(rows(|a, b, _| a || b), [a, b, FALSE])
    }
    fn xor(&mut self, a: Id, b: Id) -> Result<Id, NoRoom> {
        self.step(rows(|a, b, _| a != b), [a, b, FALSE])
    }
    fn agree(&mut self, a: Id, b: Id) -> Result<Id, NoRoom> {
        self.step(rows(|a, b, _| a == b), [a, b, FALSE])
    }

    // The bitwise rules with marks.
    fn bit_not(&mut self, a: Bit) -> Result<Bit, NoRoom> {
        match a {
            Some(a) => Ok(Some(self.not(a)?)),
            None => Ok(None),
        }
    }
    fn bit_and(&mut self, a: Bit, b: Bit) -> Result<Bit, NoRoom> {
        match (a, b) {
            (Some(a), Some(b)) => Ok(Some(self.and(a, b)?)),
            (Some(FALSE), None) | (None, Some(FALSE)) => Ok(Some(FALSE)),
            _ => Ok(None),
        }
    }
    fn bit_or(&mut self, a: Bit, b: Bit) -> Result<Bit, NoRoom> {
        match (a, b) {
            (Some(a), Some(b)) => Ok(Some(self.or(a, b)?)),
            (Some(TRUE), None) | (None, Some(TRUE)) => Ok(Some(TRUE)),
            _ => Ok(None),
        }
    }
    fn bit_xor(&mut self, a: Bit, b: Bit) -> Result<Bit, NoRoom> {
        match (a, b) {
            (Some(a), Some(b)) => Ok(Some(self.xor(a, b)?)),
            _ => Ok(None),
        }
    }

    /// Add at the limit.
    fn add(&mut self, a: &Row, b: &Row) -> Result<Row, NoRoom> {
        let width = a.len();
        let mut sum: Row = vec![None; width];
        let mut counted: Set<Id> = Set::default();
        let mut carry = FALSE;
        for i in 0..width {
            let (Some(x), Some(y)) = (a[i], b[i]) else { break };
            let half = self.xor(x, y)?;
            let bit = self.xor(half, carry)?;
            // The set still holds the nodes of the sum bits before.
            self.store.gather(bit, &mut counted);
            if counted.len() as u64 > self.limit as u64 {
                break;
            }
            sum[i] = Some(bit);
            if i + 1 < width {
                let both = self.and(x, y)?;
                let passed = self.and(half, carry)?;
                carry = self.or(both, passed)?;
            }
        }
        Ok(sum)
    }

    fn multiply(&mut self, a: &Row, b: &Row) -> Result<Row, NoRoom> {
        let width = a.len();
        let mut total: Row = vec![Some(FALSE); width];
        for j in 0..width {
            let mut row: Row = vec![Some(FALSE); width];
            for k in j..width {
                row[k] = self.bit_and(a[k - j], b[j])?;
            }
            total = self.add(&total, &row)?;
        }
        Ok(total)
    }

    fn if_then_else(&mut self, c: Pair, t: &Row, e: &Row) -> Result<Row, NoRoom> {
        let mut out = Row::new();
        for i in 0..t.len() {
            let bit = if t[i].is_some() && t[i] == e[i] {
                t[i]
            } else if c.must != c.may {
                None
            } else if c.must == TRUE {
                t[i]
            } else if c.must == FALSE {
                e[i]
            } else if let (Some(x), Some(y)) = (t[i], e[i]) {
                Some(self.step(rows(|c, x, y| if c { x } else { y }), [c.must, x, y])?)
            } else {
                None
            };
            out.push(bit);
        }
        Ok(out)
    }

    fn equal(&mut self, a: &Row, b: &Row) -> Result<Pair, NoRoom> {
        let mut may = TRUE;
        let mut all_known = true;
        for i in 0..a.len() {
            if let (Some(x), Some(y)) = (a[i], b[i]) {
                let agree = self.agree(x, y)?;
                may = self.and(may, agree)?;
            } else {
                all_known = false;
            }
        }
        Ok(Pair { must: if all_known { may } else { FALSE }, may })
    }

    /// One chain of "a at most b". `kindly` is the reading for may: an unknown
    /// bit takes the value that helps; for must, the value that hinders.
    fn at_most(&mut self, a: &Row, b: &Row, signed: bool, kindly: bool) -> Result<Id, NoRoom> {
        let mut r = TRUE;
        for i in 0..a.len() {
            let top = signed && i + 1 == a.len();
            // Below the top a small a and a large b help; at a signed top a
            // large a and a small b do.
            let a_helps = if top { TRUE } else { FALSE };
            let read_a = if kindly { a_helps } else { 1 - a_helps };
            let read_b = 1 - read_a;
            let x = a[i].unwrap_or(read_a);
            let y = b[i].unwrap_or(read_b);
            let rule = if top {
                rows(|a, b, r| (a && !b) || ((a == b) && r))
            } else {
                rows(|a, b, r| (!a && b) || ((a == b) && r))
            };
            r = self.step(rule, [x, y, r])?;
        }
        Ok(r)
    }

    fn compare(&mut self, a: &Row, b: &Row, signed: bool) -> Result<Pair, NoRoom> {
        let must = self.at_most(a, b, signed, false)?;
        let may = self.at_most(a, b, signed, true)?;
        Ok(Pair { must, may })
    }

    fn quantify(&mut self, exists: bool, levels: &[usize], f: Id) -> Result<Id, NoRoom> {
        let mut f = f;
        for &level in levels.iter().rev() {
            f = self.store.quantify(exists, level as u32, f)?;
            self.entered(f);
        }
        Ok(f)
    }

    fn entry(&mut self, entry: &Entry, levels: &[Vec<usize>], own: usize, done: &[Meaning]) -> Result<Meaning, NoRoom> {
        use What::*;
        let row = |n: usize| match &done[n] {
            Meaning::Term(row) => row.clone(),
            Meaning::Formula(_) => unreachable!("sorts were checked"),
        };
        let pair = |n: usize| match &done[n] {
            Meaning::Formula(pair) => *pair,
            Meaning::Term(_) => unreachable!("sorts were checked"),
        };
        let width = entry.width;
        let term = |row: Row| Ok(Meaning::Term(row));
        let formula = |pair: Pair| Ok(Meaning::Formula(pair));
        match entry.what {
            Variable => {
                let mut bits = Row::new();
                for &level in &levels[own] {
                    let f = self.store.node(level as u32, FALSE, TRUE)?;
                    bits.push(Some(self.entered(f)));
                }
                term(bits)
            }
            Constant(value) => term((0..width).map(|i| Some(value >> i & 1)).collect()),
            BitNot(a) => {
                let a = row(a);
                term((0..width).map(|i| self.bit_not(a[i])).collect::<Result<Row, NoRoom>>()?)
            }
            Negate(a) => {
                let a = row(a);
                let not = (0..width).map(|i| self.bit_not(a[i])).collect::<Result<Row, NoRoom>>()?;
                let one: Row = (0..width).map(|i| Some(if i == 0 { TRUE } else { FALSE })).collect();
                term(self.add(&not, &one)?)
            }
            BitAnd(a, b) => {
                let (a, b) = (row(a), row(b));
                term((0..width).map(|i| self.bit_and(a[i], b[i])).collect::<Result<Row, NoRoom>>()?)
            }
            BitOr(a, b) => {
                let (a, b) = (row(a), row(b));
                term((0..width).map(|i| self.bit_or(a[i], b[i])).collect::<Result<Row, NoRoom>>()?)
            }
            BitXor(a, b) => {
                let (a, b) = (row(a), row(b));
                term((0..width).map(|i| self.bit_xor(a[i], b[i])).collect::<Result<Row, NoRoom>>()?)
            }
            Add(a, b) => term(self.add(&row(a), &row(b))?),
            Multiply(a, b) => term(self.multiply(&row(a), &row(b))?),
            ShiftLeft(a, amount) => {
                let by = amount % width;
                let mut bits: Row = vec![Some(FALSE); by];
                bits.extend(&row(a)[..width - by]);
                term(bits)
            }
            ShiftRight(a, amount) => {
                let by = amount % width;
                let mut bits: Row = row(a)[by..].to_vec();
                bits.extend(vec![Some(FALSE); by]);
                term(bits)
            }
            Concat(high, low) => {
                let mut bits = row(low);
                bits.extend(row(high));
                term(bits)
            }
            Extract(a, u, l) => term(row(a)[l..=u].to_vec()),
            ZeroExtend(a) => {
                let mut bits = row(a);
                bits.resize(width, Some(FALSE));
                term(bits)
            }
            SignExtend(a) => {
                let mut bits = row(a);
                let top = *bits.last().unwrap();
                bits.resize(width, top);
                term(bits)
            }
            IfThenElse(c, t, e) => term(self.if_then_else(pair(c), &row(t), &row(e))?),
            True => formula(Pair { must: TRUE, may: TRUE }),
            False => formula(Pair { must: FALSE, may: FALSE }),
            Equal(a, b) => formula(self.equal(&row(a), &row(b))?),
            UnsignedLe(a, b) => formula(self.compare(&row(a), &row(b), false)?),
            SignedLe(a, b) => formula(self.compare(&row(a), &row(b), true)?),
            Not(f) => {
                let f = pair(f);
                let must = self.not(f.may)?;
                let may = self.not(f.must)?;
                formula(Pair { must, may })
            }
            And(f, g) => {
                let (f, g) = (pair(f), pair(g));
                let must = self.and(f.must, g.must)?;
                let may = self.and(f.may, g.may)?;
                formula(Pair { must, may })
            }
            Or(f, g) => {
                let (f, g) = (pair(f), pair(g));
                let must = self.or(f.must, g.must)?;
                let may = self.or(f.may, g.may)?;
                formula(Pair { must, may })
            }
            Exists(x, f) | Forall(x, f) => {
                let exists = matches!(entry.what, Exists(..));
                let f = pair(f);
                let must = self.quantify(exists, &levels[x], f.must)?;
                let may = self.quantify(exists, &levels[x], f.may)?;
                formula(Pair { must, may })
            }
        }
    }
}

/// Refusals 9 and 10.
pub fn room_refusal(table_len: usize, work_len: usize) -> Option<u32> {
    if table_len % 3 != 0 || table_len > TABLE_MOST {
        Some(9)
    } else if work_len < WORK_LEAST {
        Some(10)
    } else {
        None
    }
}

/// Solve a sheet at a limit. The lengths are of the lent table and work buffer.
pub fn solve(sheet: &[u8], limit: u32, table_len: usize, work_len: usize) -> Outcome {
    let entries = match sheet::check(sheet) {
        Ok(entries) => entries,
        Err(number) => return Outcome::refusal(number),
    };
    if let Some(number) = room_refusal(table_len, work_len) {
        return Outcome::refusal(number);
    }
    let levels = sheet::levels(&entries);
    let mut solver = Solver { store: Store::new(table_len / 3), table: vec![], numbers: Map::default(), limit };
    let mut done: Vec<Meaning> = Vec::new();
    for (own, entry) in entries.iter().enumerate() {
        match solver.entry(entry, &levels, own, &done) {
            Ok(meaning) => done.push(meaning),
            Err(NoRoom) => return Outcome::refusal(11),
        }
    }
    let Some(Meaning::Formula(last)) = done.last() else { unreachable!("refusal 8 was checked") };
    let (must, may) = (solver.number(last.must), solver.number(last.may));
    Outcome {
        number: 0,
        verdict: if must != 0 {
            SAT
        } else if may == 0 {
            UNSAT
        } else {
            UNKNOWN
        },
        must,
        may,
        used: solver.table.len() as u32,
        nodes: solver.table,
    }
}

// -------------------------------------------------------- value and witness

/// What value gives back: number, bit, nodes passed.
#[derive(Clone, Copy, Debug, Default, PartialEq, Eq)]
pub struct Passed {
    pub number: u32,
    pub bit: u32,
    pub passed: u32,
}

fn table_refused(table: &[u32]) -> bool {
    table.len() % 3 != 0 || table.len() > TABLE_MOST
}

/// Refusal 12: something is wrong with the used nodes.
fn nodes_refused(table: &[u32], used: u32) -> bool {
    if used as usize > table.len() / 3 {
        return true;
    }
    let level_of = |number: u32| table[3 * (number as usize - 2)];
    (0..used as usize).any(|slot| {
        let own = slot as u32 + 2;
        let (level, low, high) = (table[3 * slot], table[3 * slot + 1], table[3 * slot + 2]);
        let child_refused = |child: u32| child >= own || (child > 1 && level_of(child) <= level);
        level > 127 || child_refused(low) || child_refused(high) || low == high
    })
}

pub fn value(table: &[u32], used: u32, diagram: u32, assignment: &[u8]) -> Passed {
    let refusal = |number| Passed { number, bit: 0, passed: 0 };
    if table_refused(table) {
        return refusal(9);
    }
    if assignment.len() != 128 {
        return refusal(13);
    }
    if assignment.iter().any(|&b| b > 1) {
        return refusal(14);
    }
    if nodes_refused(table, used) {
        return refusal(12);
    }
    if diagram > used + 1 {
        return refusal(16);
    }
    let (mut at, mut passed) = (diagram, 0);
    while at > 1 {
        let slot = at as usize - 2;
        let level = table[3 * slot] as usize;
        at = table[3 * slot + 1 + assignment[level] as usize];
        passed += 1;
    }
    Passed { number: 0, bit: at, passed }
}

/// Writes the least accepted assignment; gives back the number.
pub fn witness(table: &[u32], used: u32, diagram: u32, assignment: &mut [u8]) -> u32 {
    if table_refused(table) {
        return 9;
    }
    if assignment.len() != 128 {
        return 13;
    }
    if nodes_refused(table, used) {
        return 12;
    }
    if diagram > used + 1 {
        return 16;
    }
    if diagram == 0 {
        return 15;
    }
    // A used node always accepts something: the least that didn't would have
    // two children 0, and equal children are refused. So a low part other than
    // 0 can be followed.
    assignment.fill(0);
    let mut at = diagram;
    while at > 1 {
        let slot = at as usize - 2;
        let (level, low, high) = (table[3 * slot], table[3 * slot + 1], table[3 * slot + 2]);
        at = if low != 0 {
            low
        } else {
            assignment[level as usize] = 1;
            high
        };
    }
    0
}

// -------------------------------------------------------------- the program

/// The program's whole output for these input bytes.
pub fn program(input: &[u8]) -> Vec<u8> {
    let sheet = &input[..input.len().min(PROGRAM_INPUT)];
    let outcome = solve(sheet, UNNAMED_LIMIT, 3 * PROGRAM_SLOTS, WORK_LEAST);
    let mut text = format!("answer {}\n", outcome.number);
    if outcome.number == 0 {
        let verdict = ["", "sat", "unsat", "unknown"][outcome.verdict as usize];
        text += &format!("verdict {verdict}\n");
        text += &format!("must {}\n", outcome.must);
        text += &format!("may {}\n", outcome.may);
        text += &format!("slots {}\n", outcome.used);
        if outcome.verdict == SAT {
            let mut assignment = [0u8; 128];
            let table = outcome.table(PROGRAM_SLOTS);
            let number = witness(&table, outcome.used, outcome.must, &mut assignment);
            assert_eq!(number, 0);
            let entries = sheet::check(sheet).unwrap();
            let levels = sheet::levels(&entries);
            for (i, entry) in entries.iter().enumerate() {
                if entry.what == What::Variable {
                    let value: u64 = levels[i]
                        .iter()
                        .enumerate()
                        .map(|(bit, &level)| (assignment[level] as u64) << bit)
                        .sum();
                    text += &format!("entry {i} value {value}\n");
                }
            }
        }
    }
    text.into_bytes()
}

//! Random material from a seed: good sheets, damaged sheets, lent tables and
//! assignments for value and witness.

use crate::oracle::{self, TABLE_MOST, WORK_LEAST};
use crate::sheet::{self, Raw, Writer};

/// Xorshift with a multiplier.
pub struct Random(u64);

impl Random {
    pub fn new(seed: u64) -> Random {
        Random(seed.wrapping_mul(0x9E37_79B9_7F4A_7C15) | 1)
    }
    pub fn next(&mut self) -> u64 {
        self.0 ^= self.0 >> 12;
        self.0 ^= self.0 << 25;
        self.0 ^= self.0 >> 27;
        self.0.wrapping_mul(0x2545_F491_4F6C_DD1D) >> 16
    }
    /// A number below n (n not 0).
    pub fn below(&mut self, n: usize) -> usize {
        (self.next() % n as u64) as usize
    }
    /// True this many times in a hundred.
    pub fn percent(&mut self, n: usize) -> bool {
        self.below(100) < n
    }
    pub fn pick<T: Copy>(&mut self, from: &[T]) -> T {
        from[self.below(from.len())]
    }
}

/// What random sheets should look like.
#[derive(Clone, Copy)]
pub struct Taste {
    /// Most entries, 1 to 256.
    pub entries: usize,
    /// Most variable bits, 1 to 128.
    pub bits: usize,
    /// Widest term that is aimed for, 1 to 32.
    pub width: usize,
    pub quantifiers: bool,
}

impl Taste {
    /// Small enough for `brute`.
    pub fn small() -> Taste {
        Taste { entries: 14, bits: 9, width: 4, quantifiers: true }
    }
    pub fn middle() -> Taste {
        Taste { entries: 40, bits: 24, width: 8, quantifiers: true }
    }
    pub fn large() -> Taste {
        Taste { entries: 256, bits: 128, width: 32, quantifiers: true }
    }
    pub fn any(random: &mut Random) -> Taste {
        Taste {
            entries: random.pick(&[1, 2, 4, 8, 16, 32, 64, 256]),
            bits: random.pick(&[1, 4, 8, 16, 32, 64, 128]),
            width: random.pick(&[1, 2, 3, 4, 8, 16, 32]),
            quantifiers: random.percent(70),
        }
    }
}

/// A random good sheet. Most are tied: what nothing uses yet is brought into
/// the last formula, so that much of the sheet counts.
pub fn good_sheet(random: &mut Random, taste: Taste) -> Vec<u8> {
    let mut grower = Grower { writer: Writer::new(), bits_left: taste.bits, taste };
    let tied = random.percent(65) && taste.entries >= 6;
    let wanted = if tied { 6 + random.below(taste.entries - 5) } else { 1 + random.below(taste.entries) };
    // Most sheets begin with a few variables, so that terms have a meaning;
    // tied ones with variables of one width.
    if tied {
        let count = 2 + random.below(2);
        let width = 1 + random.below(taste.width.min((taste.bits / count).max(1)));
        for _ in 0..count {
            if grower.bits_left >= width {
                grower.bits_left -= width;
                grower.writer.variable(width as u8);
            }
        }
    } else {
        for _ in 0..random.below(5) {
            if grower.writer.len() + 1 < wanted {
                grower.variable(random);
            }
        }
    }
    let grown = if tied { wanted - wanted / 3 } else { wanted };
    while grower.writer.len() + 1 < grown {
        if grower.writer.len() + 6 < grown && random.percent(12) {
            grower.known_above_unknown(random);
        } else {
            grower.grow(random);
        }
    }
    if tied {
        grower.tie(random, wanted);
    } else {
        grower.close(random);
    }
    let sheet = grower.writer.sheet();
    debug_assert!(sheet::check(&sheet).is_ok());
    sheet
}

struct Grower {
    writer: Writer,
    bits_left: usize,
    taste: Taste,
}

impl Grower {
    fn some_width(&self, random: &mut Random) -> usize {
        // Often the width of an earlier term, so that operands can meet.
        if let (true, Some(t)) = (random.percent(50), self.term(random)) {
            return (self.writer.width(t) as usize).min(self.taste.width);
        }
        match random.below(6) {
            0 => 1,
            1 => self.taste.width,
            _ => 1 + random.below(self.taste.width),
        }
    }

    /// A variable if bits are left, else a constant.
    fn variable(&mut self, random: &mut Random) -> usize {
        if self.bits_left == 0 {
            return self.constant(random);
        }
        let width = self.some_width(random).min(self.bits_left);
        self.bits_left -= width;
        self.writer.variable(width as u8)
    }

    fn constant(&mut self, random: &mut Random) -> usize {
        let width = match self.term(random) {
            Some(t) if random.percent(80) => self.writer.width(t) as usize,
            _ => self.some_width(random),
        };
        let most = (1u64 << width) - 1;
        let value = match random.below(5) {
            0 => 0,
            1 => most,
            2 => 1u64 << (width - 1),
            3 => 1,
            _ => random.next() & most,
        };
        self.writer.constant(width as u8, value as u32)
    }

    /// An earlier entry that fits, with a liking for late ones.
    fn earlier(&self, random: &mut Random, fits: impl Fn(&Raw) -> bool) -> Option<usize> {
        let all: Vec<usize> = (0..self.writer.len()).filter(|&n| fits(&self.writer.entries[n])).collect();
        if all.is_empty() {
            return None;
        }
        if random.percent(50) {
            let late = all.len().min(4);
            return Some(all[all.len() - 1 - random.below(late)]);
        }
        Some(random.pick(&all))
    }
    fn term(&self, random: &mut Random) -> Option<usize> {
        self.earlier(random, |e| !sheet::is_formula(e.0))
    }
    fn formula(&self, random: &mut Random) -> Option<usize> {
        self.earlier(random, |e| sheet::is_formula(e.0))
    }
    fn same_width(&self, random: &mut Random, a: usize) -> Option<usize> {
        let width = self.writer.width(a);
        let mut other = None;
        // Mostly another entry, and mostly no constant.
        for _ in 0..4 {
            other = self.earlier(random, |e| !sheet::is_formula(e.0) && e.1 == width);
            let dull = other == Some(a) || other.is_some_and(|n| self.writer.entries[n].0 == 2);
            if !dull || random.percent(12) {
                break;
            }
        }
        other
    }

    /// Known bits above bits that a limit may have cut, in an operation that
    /// must not let them stand: five more entries at most.
    fn known_above_unknown(&mut self, random: &mut Random) {
        let Some(a) = self.earlier(random, |e| !sheet::is_formula(e.0) && e.1 >= 2) else { return self.grow(random) };
        let b = self.same_width(random, a).unwrap();
        let width = self.writer.width(a);
        let arithmetic = random.pick(&[8, 8, 9]);
        let cut = self.writer.binary(arithmetic, a, b);
        let split = 1 + random.below(width as usize - 1) as u8;
        let low = self.writer.extract(cut, split - 1, 0);
        let high = self.writer.extract(b, width - 1, split);
        let mixed = self.writer.concat(high, low);
        match random.below(3) {
            0 => self.writer.binary(arithmetic, mixed, a),
            1 => self.writer.binary(8, a, mixed),
            _ => self.writer.unary(4, mixed),
        };
    }

    /// One more entry of a random kind, or a variable where that kind can't be.
    fn grow(&mut self, random: &mut Random) {
        let kinds = [
            1, 1, 1, 2, 3, 4, 4, 5, 6, 7, 8, 8, 8, 8, 9, 9, 9, 9, 10, 11, 12, 13, 14, 15, 16, 16, 16, 16, 34, 34,
            35, 35, 35, 36, 36, 36, 40, 40, 41, 41, 42, 42, 48, 48, 49, 49,
        ];
        // True and false now and then.
        let kind = if random.percent(2) { random.pick(&[32, 33]) } else { random.pick(&kinds) };
        if self.kind(random, kind).is_none() {
            self.variable(random);
        }
    }

    fn kind(&mut self, random: &mut Random, kind: u8) -> Option<usize> {
        match kind {
            1 => Some(self.variable(random)),
            2 => Some(self.constant(random)),
            3 | 4 => {
                let a = self.term(random)?;
                Some(self.writer.unary(kind, a))
            }
            5..=9 => {
                let a = self.term(random)?;
                let b = self.same_width(random, a)?;
                Some(self.writer.binary(kind, a, b))
            }
            10 | 11 => {
                let a = self.term(random)?;
                let width = self.writer.width(a);
                let amount = match random.below(6) {
                    0 => width,
                    1 => width + 1,
                    2 => random.next() as u8,
                    3 => 0,
                    _ => random.below(width as usize) as u8,
                };
                Some(self.writer.shift(kind, a, amount))
            }
            12 => {
                let a = self.term(random)?;
                let b = self.term(random)?;
                let sum = self.writer.width(a) as usize + self.writer.width(b) as usize;
                if sum > 32 {
                    return None;
                }
                Some(self.writer.concat(a, b))
            }
            13 => {
                let a = self.term(random)?;
                let width = self.writer.width(a) as usize;
                let (p, q) = match random.below(4) {
                    0 => (0, width - 1),
                    1 => (width - 1, width - 1),
                    _ => (random.below(width), random.below(width)),
                };
                Some(self.writer.extract(a, p.max(q) as u8, p.min(q) as u8))
            }
            14 | 15 => {
                let a = self.term(random)?;
                let width = self.writer.width(a) as usize;
                let most = self.taste.width.max(width);
                let wide = match random.below(4) {
                    0 => width,
                    1 => most,
                    _ => width + random.below(most - width + 1),
                };
                Some(self.writer.extend(kind, a, wide as u8))
            }
            16 => {
                let c = self.formula(random)?;
                let t = self.term(random)?;
                let e = self.same_width(random, t)?;
                Some(self.writer.if_then_else(c, t, e))
            }
            32 | 33 => Some(self.writer.formula(kind, &[])),
            34..=36 => {
                let a = self.term(random)?;
                let b = self.same_width(random, a)?;
                Some(self.writer.formula(kind, &[a, b]))
            }
            40 => {
                let f = self.formula(random)?;
                Some(self.writer.not(f))
            }
            41 | 42 => {
                let f = self.formula(random)?;
                let g = self.formula(random)?;
                Some(self.writer.formula(kind, &[f, g]))
            }
            _ => {
                if !self.taste.quantifiers {
                    return None;
                }
                let x = self.earlier(random, |e| e.0 == 1)?;
                let f = self.formula(random)?;
                Some(self.writer.formula(kind, &[x, f]))
            }
        }
    }

    /// Entries that no other entry names, the latest first.
    fn loose(&self) -> Vec<usize> {
        let mut named = vec![false; self.writer.len()];
        for (kind, _, body) in &self.writer.entries {
            for place in 0..operand_places(*kind) {
                named[body[2 * place] as usize + 256 * body[2 * place + 1] as usize] = true;
            }
        }
        (0..self.writer.len()).rev().filter(|&n| !named[n]).collect()
    }

    /// Compares loose terms, joins loose formulas, and ends with a formula at
    /// the latest as entry `wanted`.
    fn tie(&mut self, random: &mut Random, wanted: usize) {
        let mut joined: Option<usize> = None;
        while self.writer.len() + 2 < wanted {
            let loose = self.loose();
            let Some(&next) = loose.iter().find(|&&n| Some(n) != joined) else { break };
            let formula = if sheet::is_formula(self.writer.entries[next].0) {
                next
            } else {
                let other = self.same_width(random, next).unwrap();
                let kind = random.pick(&[34, 34, 35, 36]);
                let operands = if random.percent(50) { [next, other] } else { [other, next] };
                self.writer.formula(kind, &operands)
            };
            joined = Some(match joined {
                None => formula,
                Some(before) => {
                    let kind = random.pick(&[41, 42]);
                    self.writer.formula(kind, &[before, formula])
                }
            });
        }
        match (joined, self.earlier(random, |e| e.0 == 1)) {
            (Some(f), Some(x)) if self.taste.quantifiers && random.percent(40) => {
                let kind = random.pick(&[48, 49]);
                self.writer.formula(kind, &[x, f]);
            }
            (Some(f), _) if random.percent(30) => {
                self.writer.not(f);
            }
            (Some(f), _) if f + 1 == self.writer.len() => {}
            _ => self.close(random),
        }
    }

    /// The last entry, a formula.
    fn close(&mut self, random: &mut Random) {
        for _ in 0..20 {
            let kind = random.pick(&[34, 35, 36, 34, 35, 36, 40, 41, 42, 41, 42, 48, 49]);
            if self.kind(random, kind).is_some() {
                return;
            }
        }
        let kind = random.pick(&[32, 33]);
        self.writer.formula(kind, &[]);
    }
}

/// A good sheet brought to 128 variable bits, and half of the time to 256
/// entries, by more entries in front of the last one (nothing names the last).
pub fn filled(random: &mut Random, sheet: &[u8]) -> Vec<u8> {
    let mut entries = sheet::unpack(sheet).unwrap();
    let bits: usize = entries.iter().filter(|e| e.0 == 1).map(|e| e.1 as usize).sum();
    let mut missing = 128 - bits;
    let put = |entries: &mut Vec<Raw>, entry: Raw| entries.insert(entries.len() - 1, entry);
    while missing > 0 && entries.len() < 256 {
        let width = missing.min(random.pick(&[32, 32, 7, 1]));
        missing -= width;
        put(&mut entries, (1, width as u8, vec![]));
    }
    let to = if random.percent(50) { 256 } else { 0 };
    while entries.len() < to {
        let kind = random.pick(&[2, 2, 32, 33]);
        put(&mut entries, if kind == 2 { (2, 32, vec![255; 4]) } else { (kind, 0, vec![]) });
    }
    sheet::pack(&entries)
}

/// A good sheet with the longest bodies there are: true, a variable, 253
/// times if-then-else, equal.
pub fn longest() -> Vec<u8> {
    let mut w = Writer::new();
    let condition = w.formula(32, &[]);
    let x = w.variable(32);
    let mut last = x;
    while w.len() < 255 {
        last = w.if_then_else(condition, last, x);
    }
    w.equal(last, x);
    w.sheet()
}

// ------------------------------------------------------------ damaged sheets

/// A good sheet with one or more edits near the edges of refusals 1 to 8.
/// Some edits keep it good: both sides of each edge are wanted.
pub fn damage(random: &mut Random, sheet: &[u8]) -> Vec<u8> {
    let mut out = sheet.to_vec();
    let edits = if random.percent(80) { 1 } else { 2 + random.below(3) };
    for _ in 0..edits {
        out = edit(random, &out);
    }
    out
}

fn edit(random: &mut Random, sheet: &[u8]) -> Vec<u8> {
    let kind = random.below(10);
    let mut entries = match sheet::unpack(sheet) {
        Some(entries) if kind >= 2 => entries,
        _ => return edit_bytes(random, sheet),
    };
    let count = entries.len();
    let at = random.below(count);
    match kind {
        // 2: kinds and widths.
        2 => {
            match random.below(4) {
                0 => entries[at].0 = random.pick(&[0, 17, 18, 31, 37, 38, 39, 43, 44, 47, 50, 51, 64, 128, 255]),
                1 => entries[at].1 = random.pick(&[0, 1, 32, 33, 64, 255]),
                2 => entries[at].1 = entries[at].1.wrapping_add(random.pick(&[1, 255])),
                _ => {
                    // Another kind, most often with the same body length.
                    let length = entries[at].2.len();
                    let kinds: Vec<u8> = (0..=255).filter(|&k| sheet::body_length(k) == Some(length)).collect();
                    let kind = random.pick(&kinds);
                    if sheet::is_formula(kind) != sheet::is_formula(entries[at].0) && random.percent(90) {
                        entries[at].1 = if sheet::is_formula(kind) { 0 } else { 1 + random.below(4) as u8 };
                    }
                    entries[at].0 = kind;
                }
            }
        }
        // 4: operands.
        3 | 4 => {
            let with: Vec<usize> = (0..count).filter(|&n| operand_places(entries[n].0) > 0).collect();
            if !with.is_empty() {
                let at = random.pick(&with);
                let place = 2 * random.below(operand_places(entries[at].0));
                let number = match random.below(6) {
                    0 => at,
                    1 => at + 1,
                    2 => at.saturating_sub(1),
                    3 => random.pick(&[255, 256, 0xFFFF, 0x100 + at]),
                    _ => random.below(count.max(at + 1)),
                };
                entries[at].2[place..place + 2].copy_from_slice(&(number as u16).to_le_bytes());
            }
        }
        // 5: widths by one, u and l; only where the sort keeps it a term.
        5 => {
            let terms: Vec<usize> = (0..count).filter(|&n| !sheet::is_formula(entries[n].0)).collect();
            if !terms.is_empty() {
                let at = random.pick(&terms);
                let width = entries[at].1;
                entries[at].1 = match random.below(3) {
                    0 => (width + 1).min(32),
                    1 => (width - 1).max(1),
                    _ => 1 + random.below(32) as u8,
                };
            }
        }
        // 5, 6: constants and extracts at their edges.
        6 => {
            let edge: Vec<usize> = (0..count).filter(|&n| entries[n].0 == 2 || entries[n].0 == 13).collect();
            if edge.is_empty() {
                // Put one in front of the last entry (nothing names the last).
                if count < 256 {
                    let width = random.pick(&[1u8, 2, 3, 31, 32]);
                    let value = (1u64 << width) - random.below(2) as u64;
                    entries.insert(count - 1, (2, width, (value as u32).to_le_bytes().to_vec()));
                }
            } else {
                let at = random.pick(&edge);
                let width = entries[at].1;
                if entries[at].0 == 2 {
                    let value = ((1u64 << width) + random.pick(&[0, 1, u64::MAX, 256])) as u32;
                    entries[at].2 = value.to_le_bytes().to_vec();
                } else {
                    let operand = entries[at].2[0] as usize + 256 * entries[at].2[1] as usize;
                    let operand_width = entries.get(operand).map_or(1, |e| e.1);
                    let (u, l) = match random.below(7) {
                        0 => (operand_width, operand_width.saturating_sub(width - 1)),
                        1 => (operand_width.wrapping_sub(1), operand_width.wrapping_sub(width)),
                        2 => (entries[at].2[3], entries[at].2[2]),
                        3 => (255, 255 - (width - 1)),
                        4 => (entries[at].2[2].wrapping_add(1), entries[at].2[3].wrapping_add(1)),
                        5 => (entries[at].2[2].wrapping_add(1), entries[at].2[3]),
                        // u − l + 1 would wrap around to the width.
                        _ => (width - 1, 0u8.wrapping_add(random.pick(&[0, 1, 255]))),
                    };
                    entries[at].2[2] = u;
                    entries[at].2[3] = l;
                }
            }
        }
        // 7: variables put in front of the last entry, up to 127 to 130 bits.
        7 => {
            let bits: usize = entries.iter().filter(|e| e.0 == 1).map(|e| e.1 as usize).sum();
            let mut missing = random.pick(&[127usize, 128, 128, 129, 129, 130, 160]).saturating_sub(bits);
            while missing > 0 && entries.len() < 256 {
                let width = missing.min(random.pick(&[32, 32, 7, 1]));
                missing -= width;
                let last = entries.len() - 1;
                entries.insert(last, (1, width as u8, vec![]));
            }
        }
        // 8: another last entry.
        8 => match random.below(3) {
            0 if count > 1 => {
                entries.pop();
            }
            1 if count < 256 => entries.push((1, 1 + random.below(4) as u8, vec![])),
            _ => {
                // Cut after some entry, term or formula.
                entries.truncate(at + 1);
            }
        },
        // Any body byte.
        _ => {
            let with: Vec<usize> = (0..count).filter(|&n| !entries[n].2.is_empty()).collect();
            if !with.is_empty() {
                let at = random.pick(&with);
                let place = random.below(entries[at].2.len());
                entries[at].2[place] = match random.below(3) {
                    0 => random.next() as u8,
                    1 => entries[at].2[place].wrapping_add(1),
                    _ => entries[at].2[place].wrapping_sub(1),
                };
            }
        }
    }
    sheet::pack(&entries)
}

/// How many operand numbers a body begins with.
fn operand_places(kind: u8) -> usize {
    match kind {
        3 | 4 | 10 | 11 | 13 | 14 | 15 | 40 => 1,
        5..=9 | 12 | 34..=36 | 41 | 42 | 48 | 49 => 2,
        16 => 3,
        _ => 0,
    }
}

/// Edits of the bytes themselves: refusals 1 and 3, or anything.
fn edit_bytes(random: &mut Random, sheet: &[u8]) -> Vec<u8> {
    let mut out = sheet.to_vec();
    let count = if out.len() >= 2 { out[0] as usize + 256 * out[1] as usize } else { 0 };
    let contents_end = 2 + 4 * count;
    match random.below(9) {
        0 => out.truncate(random.below(4)),
        1 => {
            let to = random.pick(&[contents_end, contents_end - 1, contents_end + 1]);
            out.truncate(to);
        }
        2 if out.len() >= 2 => {
            let to = random.pick(&[0u16, 1, 255, 256, 257, 512, 0xFFFF, count as u16 + 1, (count as u16).wrapping_sub(1)]);
            out[..2].copy_from_slice(&to.to_le_bytes());
        }
        3 => {
            out.pop();
        }
        4 => out.push(random.next() as u8),
        5 | 6 if count > 0 && out.len() >= contents_end => {
            let at = 4 + 4 * random.below(count);
            let place = out[at] as u16 + 256 * out[at + 1] as u16;
            let to = place.wrapping_add(random.pick(&[1, 0xFFFF, 4, 256, 0]));
            out[at..at + 2].copy_from_slice(&to.to_le_bytes());
        }
        7 => {
            let to = random.below(out.len() + 1);
            out.truncate(to);
        }
        _ if !out.is_empty() => {
            let at = random.below(out.len());
            out[at] = random.next() as u8;
        }
        _ => {}
    }
    out
}

/// Lengths of table and work buffer, around the edges of 9 and 10.
pub fn room(random: &mut Random) -> (usize, usize) {
    let table = match random.below(10) {
        // The longest ones rarely: they take long to fill and to compare.
        0 if random.percent(4) => random.pick(&[TABLE_MOST - 1, TABLE_MOST, TABLE_MOST + 1, TABLE_MOST + 3]),
        0 => random.pick(&[1, 2, 4, 6143, 6145]),
        1 => 0,
        2 => 3 * random.below(8),
        3 => 3 * random.below(64),
        4 => 3 * random.below(512),
        _ => 3 * random.pick(&[2048, 2048, 2048, 2048, 2048, 2048, 2048, 16384]),
    };
    // Above 32,768 the library uses its scratch differently.
    let work = match random.below(8) {
        0 => random.pick(&[0, 1, WORK_LEAST - 1]),
        1 => WORK_LEAST + 1,
        2 | 3 => random.pick(&[10_000, 32_767, 32_768, 32_769, 40_000, 100_000]),
        _ => WORK_LEAST,
    };
    (table, work)
}

/// A limit, often a small one.
pub fn limit(random: &mut Random) -> u32 {
    match random.below(8) {
        0 => 0,
        1 => 1,
        2 | 3 => random.below(20) as u32,
        4 => random.below(200) as u32,
        5 => 1000,
        6 => random.pick(&[u32::MAX, u32::MAX, 999, 1001, 2047, 2048, 2049, 16_384, 16_385]),
        _ => random.below(3000) as u32,
    }
}

// --------------------------------------------------------------- lent tables

/// A table lent to value or witness.
#[derive(Clone, Debug)]
pub struct Lent {
    pub table: Vec<u32>,
    pub used: u32,
}

/// A sound table that needn't be reduced: equal triples occur. Levels stay
/// below `levels`.
pub fn sound_table(random: &mut Random, most_nodes: usize, levels: u32) -> Lent {
    let mut nodes: Vec<[u32; 3]> = Vec::new();
    for _ in 0..random.below(most_nodes + 1) {
        let level = match random.below(8) {
            0 => 0,
            1 => levels - 1,
            _ => random.below(levels as usize) as u32,
        };
        let fits = |n: u32| n < 2 || nodes[n as usize - 2][0] > level;
        let children: Vec<u32> = (0..nodes.len() as u32 + 2).filter(|&n| fits(n)).collect();
        let low = random.pick(&children);
        let high = random.pick(&children);
        if low != high {
            nodes.push([level, low, high]);
        } else if let Some(&again) = nodes.last() {
            // Now and then the same triple twice.
            if random.percent(20) {
                nodes.push(again);
            }
        }
    }
    let used = nodes.len() as u32;
    let mut table: Vec<u32> = nodes.concat();
    for _ in 0..random.below(4) {
        // Past the used nodes anything may stand.
        table.extend([random.pick(&[0, 128, 5]), random.next() as u32, random.next() as u32]);
    }
    Lent { table, used }
}

/// A table for value or witness: from a solver, sound, nearly sound, or rubbish.
pub fn lent_table(random: &mut Random) -> Lent {
    let mut lent = match random.below(8) {
        0 | 1 => {
            let taste = Taste::middle();
            let sheet = good_sheet(random, taste);
            let outcome = oracle::solve(&sheet, limit(random), 3 * 512, WORK_LEAST);
            let slots = outcome.used as usize + random.below(3);
            Lent { table: outcome.table(slots), used: outcome.used }
        }
        2 => {
            let slots = random.below(12);
            let table = (0..3 * slots)
                .map(|_| match random.below(3) {
                    0 => random.next() as u32,
                    _ => random.below(slots + 3) as u32,
                })
                .collect();
            Lent { table, used: random.below(slots + 2) as u32 }
        }
        _ => sound_table(random, 24, 128),
    };
    if random.percent(60) {
        return lent;
    }
    // Nearly sound: one thing is made wrong, or nearly so.
    let slots = lent.table.len() / 3;
    if slots == 0 || random.percent(15) {
        lent.used = random.pick(&[slots as u32, slots as u32 + 1, u32::MAX, u32::MAX - 1, 0, lent.used + 1]);
        return lent;
    }
    if random.percent(8) {
        for _ in 0..1 + random.below(2) {
            lent.table.pop();
        }
        return lent;
    }
    let slot = random.below(slots);
    let own = slot as u32 + 2;
    let child = 3 * slot + 1 + random.below(2);
    match random.below(8) {
        0 => lent.table[3 * slot] = random.pick(&[127, 128, 129, u32::MAX]),
        1 => lent.table[child] = own,
        2 => lent.table[child] = own - 1,
        3 => lent.table[child] = random.pick(&[own + 1, u32::MAX, lent.used + 1, lent.used + 2]),
        4 => lent.table[3 * slot + 1] = lent.table[3 * slot + 2],
        5 => {
            // A child's level equal to, or one off, its parent's.
            let number = lent.table[child] as usize;
            if number >= 2 && number - 2 < slots {
                let level = lent.table[3 * (number - 2)];
                lent.table[3 * slot] = level.wrapping_add(random.pick(&[0, 1, u32::MAX]));
            }
        }
        6 => lent.table[3 * slot] = lent.table[3 * slot].wrapping_add(1),
        _ => lent.table[child] = random.pick(&[0, 1]),
    }
    lent
}

/// A diagram number for a lent table: inside, at the edge, or outside.
pub fn diagram(random: &mut Random, lent: &Lent) -> u32 {
    match random.below(8) {
        0 => 0,
        1 => 1,
        2 => lent.used.wrapping_add(2),
        3 => lent.used.wrapping_add(1),
        4 if random.percent(30) => u32::MAX,
        _ => random.below(lent.used.min(4096) as usize + 2) as u32,
    }
}

/// An assignment buffer: mostly good, sometimes of a wrong length or with a
/// byte that is neither 0 nor 1.
pub fn assignment(random: &mut Random) -> Vec<u8> {
    let length = match random.below(12) {
        0 => random.pick(&[0, 1, 127, 129, 256]),
        _ => 128,
    };
    let mut bytes: Vec<u8> = (0..length).map(|_| random.below(2) as u8).collect();
    if length > 0 && random.percent(12) {
        let at = random.pick(&[0, length - 1, random.0 as usize % length]);
        bytes[at] = random.pick(&[2, 3, 128, 255]);
    }
    bytes
}

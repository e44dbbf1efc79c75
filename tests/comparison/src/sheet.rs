//! The sheet: decoding, the refusals 1 to 8 in document 01's order, the
//! levels of the variable bits, and a small writer for making sheets.

/// One decoded entry: its width (0 for a formula) and its meaning.
#[derive(Clone, Debug, PartialEq, Eq)]
pub struct Entry {
    pub width: usize,
    pub what: What,
}

/// The meaning of an entry. Operands are entry numbers.
#[derive(Clone, Copy, Debug, PartialEq, Eq)]
pub enum What {
    Variable,
    Constant(u32),
    BitNot(usize),
    Negate(usize),
    BitAnd(usize, usize),
    BitOr(usize, usize),
    BitXor(usize, usize),
    Add(usize, usize),
    Multiply(usize, usize),
    /// Operand and amount, the amount not yet reduced.
    ShiftLeft(usize, usize),
    ShiftRight(usize, usize),
    /// High operand, low operand.
    Concat(usize, usize),
    /// Operand, u, l.
    Extract(usize, usize, usize),
    ZeroExtend(usize),
    SignExtend(usize),
    IfThenElse(usize, usize, usize),
    True,
    False,
    Equal(usize, usize),
    UnsignedLe(usize, usize),
    SignedLe(usize, usize),
    Not(usize),
    And(usize, usize),
    Or(usize, usize),
    /// Variable entry, formula.
    Exists(usize, usize),
    Forall(usize, usize),
}

impl What {
    /// All entries named by this one, a bound variable included.
    pub fn operands(&self) -> Vec<usize> {
        use What::*;
        match *self {
            Variable | Constant(_) | True | False => vec![],
            BitNot(a) | Negate(a) | ShiftLeft(a, _) | ShiftRight(a, _) | Extract(a, _, _)
            | ZeroExtend(a) | SignExtend(a) | Not(a) => vec![a],
            BitAnd(a, b) | BitOr(a, b) | BitXor(a, b) | Add(a, b) | Multiply(a, b)
            | Concat(a, b) | Equal(a, b) | UnsignedLe(a, b) | SignedLe(a, b) | And(a, b)
            | Or(a, b) | Exists(a, b) | Forall(a, b) => vec![a, b],
            IfThenElse(c, t, e) => vec![c, t, e],
        }
    }
}

/// The fixed body length of a kind; nothing for a kind not in the table.
pub fn body_length(kind: u8) -> Option<usize> {
    match kind {
        1 | 32 | 33 => Some(0),
        3 | 4 | 14 | 15 | 40 => Some(2),
        10 | 11 => Some(3),
        2 | 5..=9 | 12 | 13 | 34..=36 | 41 | 42 | 48 | 49 => Some(4),
        16 => Some(6),
        _ => None,
    }
}

/// Formulas are the kinds from 32 on.
pub fn is_formula(kind: u8) -> bool {
    kind >= 32
}

/// A contents record.
#[derive(Clone, Copy)]
struct Record {
    kind: u8,
    width: u8,
    place: usize,
}

fn two(bytes: &[u8], at: usize) -> usize {
    bytes[at] as usize + 256 * bytes[at + 1] as usize
}

/// The entries of a good sheet, or the number of the first refusal, 1 to 8.
pub fn check(sheet: &[u8]) -> Result<Vec<Entry>, u32> {
    // 1: the contents are there.
    if sheet.len() < 2 {
        return Err(1);
    }
    let count = two(sheet, 0);
    if count < 1 || count > 256 {
        return Err(1);
    }
    let first_place = 2 + 4 * count;
    if sheet.len() < first_place {
        return Err(1);
    }
    let records: Vec<Record> = (0..count)
        .map(|i| Record {
            kind: sheet[2 + 4 * i],
            width: sheet[3 + 4 * i],
            place: two(sheet, 4 + 4 * i),
        })
        .collect();

    // 2: every kind is in the table, every width fits its sort.
    for record in &records {
        let width_allowed = if is_formula(record.kind) {
            record.width == 0
        } else {
            (1..=32).contains(&record.width)
        };
        if body_length(record.kind).is_none() || !width_allowed {
            return Err(2);
        }
    }

    // 3: bodies back to back, from the contents' end to the sheet's end.
    let mut next = first_place;
    for record in &records {
        if record.place != next {
            return Err(3);
        }
        next += body_length(record.kind).unwrap();
    }
    if next != sheet.len() {
        return Err(3);
    }

    // 4, 5, 6: entry by entry.
    let mut entries: Vec<Entry> = Vec::new();
    for own in 0..count {
        let what = read_entry(sheet, &records, own)?;
        entries.push(Entry { width: records[own].width as usize, what });
    }

    // 7: at most 128 variable bits.
    let bits: usize = entries.iter().filter(|e| e.what == What::Variable).map(|e| e.width).sum();
    if bits > 128 {
        return Err(7);
    }
    // 8: the last entry is a formula.
    if !is_formula(records[count - 1].kind) {
        return Err(8);
    }
    Ok(entries)
}

/// One entry, with refusals 4, then 5, then 6.
fn read_entry(sheet: &[u8], records: &[Record], own: usize) -> Result<What, u32> {
    use What::*;
    let kind = records[own].kind;
    let width = records[own].width as usize;
    let start = records[own].place;
    let body = &sheet[start..start + body_length(kind).unwrap()];

    // An operand of the wanted sort below its own entry, else 4.
    let operand = |at: usize, formula: bool| -> Result<usize, u32> {
        let number = two(body, at);
        if number < own && is_formula(records[number].kind) == formula {
            Ok(number)
        } else {
            Err(4)
        }
    };
    let term = |at| operand(at, false);
    let formula = |at| operand(at, true);
    let width_of = |number: usize| records[number].width as usize;
    // The width rule, else 5.
    let fit = |holds: bool| -> Result<(), u32> { if holds { Ok(()) } else { Err(5) } };

    let what = match kind {
        1 => Variable,
        2 => {
            let value = u32::from_le_bytes([body[0], body[1], body[2], body[3]]);
            if value as u64 >= 1u64 << width {
                return Err(6);
            }
            Constant(value)
        }
        3 | 4 => {
            let a = term(0)?;
            fit(width_of(a) == width)?;
            if kind == 3 { BitNot(a) } else { Negate(a) }
        }
        5..=9 => {
            let (a, b) = (term(0)?, term(2)?);
            fit(width_of(a) == width && width_of(b) == width)?;
            match kind {
                5 => BitAnd(a, b),
                6 => BitOr(a, b),
                7 => BitXor(a, b),
                8 => Add(a, b),
                _ => Multiply(a, b),
            }
        }
        10 | 11 => {
            let a = term(0)?;
            fit(width_of(a) == width)?;
            let amount = body[2] as usize;
            if kind == 10 { ShiftLeft(a, amount) } else { ShiftRight(a, amount) }
        }
        12 => {
            let (a, b) = (term(0)?, term(2)?);
            fit(width_of(a) + width_of(b) == width)?;
            Concat(a, b)
        }
        13 => {
            let a = term(0)?;
            let (u, l) = (body[2] as usize, body[3] as usize);
            fit(u >= l && width == u - l + 1)?;
            if u >= width_of(a) {
                return Err(6);
            }
            Extract(a, u, l)
        }
        14 | 15 => {
            let a = term(0)?;
            fit(width_of(a) <= width)?;
            if kind == 14 { ZeroExtend(a) } else { SignExtend(a) }
        }
        16 => {
            let (c, t, e) = (formula(0)?, term(2)?, term(4)?);
            fit(width_of(t) == width && width_of(e) == width)?;
            IfThenElse(c, t, e)
        }
        32 => True,
        33 => False,
        34..=36 => {
            let (a, b) = (term(0)?, term(2)?);
            fit(width_of(a) == width_of(b))?;
            match kind {
                34 => Equal(a, b),
                35 => UnsignedLe(a, b),
                _ => SignedLe(a, b),
            }
        }
        40 => Not(formula(0)?),
        41 | 42 => {
            let (a, b) = (formula(0)?, formula(2)?);
            if kind == 41 { And(a, b) } else { Or(a, b) }
        }
        _ => {
            let (x, f) = (term(0)?, formula(2)?);
            if records[x].kind != 1 {
                return Err(4);
            }
            if kind == 48 { Exists(x, f) } else { Forall(x, f) }
        }
    };
    Ok(what)
}

/// For each entry, the levels of its bits (empty unless it is a variable).
pub fn levels(entries: &[Entry]) -> Vec<Vec<usize>> {
    let mut out = vec![Vec::new(); entries.len()];
    let mut next = 0;
    for bit in 0..32 {
        for (i, entry) in entries.iter().enumerate() {
            if entry.what == What::Variable && bit < entry.width {
                out[i].push(next);
                next += 1;
            }
        }
    }
    out
}

/// An entry before packing: kind, width, body.
pub type Raw = (u8, u8, Vec<u8>);

/// The sheet with these entries, places as they should be.
pub fn pack(entries: &[Raw]) -> Vec<u8> {
    let mut sheet = (entries.len() as u16).to_le_bytes().to_vec();
    let mut place = 2 + 4 * entries.len();
    for (kind, width, body) in entries {
        sheet.push(*kind);
        sheet.push(*width);
        sheet.extend((place as u16).to_le_bytes());
        place += body.len();
    }
    for (_, _, body) in entries {
        sheet.extend(body);
    }
    sheet
}

/// The entries of a sheet that passes refusals 1 to 3.
pub fn unpack(sheet: &[u8]) -> Option<Vec<Raw>> {
    match check(sheet) {
        Err(1..=3) => None,
        _ => Some(
            (0..two(sheet, 0))
                .map(|i| {
                    let (kind, width) = (sheet[2 + 4 * i], sheet[3 + 4 * i]);
                    let place = two(sheet, 4 + 4 * i);
                    (kind, width, sheet[place..place + body_length(kind).unwrap()].to_vec())
                })
                .collect(),
        ),
    }
}

/// Writes a sheet entry by entry; each method returns the new entry's number.
/// It follows the width rules but checks nothing.
#[derive(Clone, Default)]
pub struct Writer {
    pub entries: Vec<Raw>,
}

impl Writer {
    pub fn new() -> Writer {
        Writer::default()
    }
    pub fn sheet(&self) -> Vec<u8> {
        pack(&self.entries)
    }
    pub fn len(&self) -> usize {
        self.entries.len()
    }
    pub fn is_empty(&self) -> bool {
        self.entries.is_empty()
    }
    pub fn width(&self, entry: usize) -> u8 {
        self.entries[entry].1
    }
    pub fn push(&mut self, kind: u8, width: u8, body: Vec<u8>) -> usize {
        self.entries.push((kind, width, body));
        self.entries.len() - 1
    }
    fn numbers(operands: &[usize]) -> Vec<u8> {
        operands.iter().flat_map(|&n| (n as u16).to_le_bytes()).collect()
    }
    /// A formula of the given kind over operands.
    pub fn formula(&mut self, kind: u8, operands: &[usize]) -> usize {
        self.push(kind, 0, Self::numbers(operands))
    }
    pub fn variable(&mut self, width: u8) -> usize {
        self.push(1, width, vec![])
    }
    pub fn constant(&mut self, width: u8, value: u32) -> usize {
        self.push(2, width, value.to_le_bytes().to_vec())
    }
    /// Kinds 3 and 4.
    pub fn unary(&mut self, kind: u8, a: usize) -> usize {
        let width = self.width(a);
        self.push(kind, width, Self::numbers(&[a]))
    }
    /// Kinds 5 to 9.
    pub fn binary(&mut self, kind: u8, a: usize, b: usize) -> usize {
        let width = self.width(a);
        self.push(kind, width, Self::numbers(&[a, b]))
    }
    pub fn add(&mut self, a: usize, b: usize) -> usize {
        self.binary(8, a, b)
    }
    pub fn multiply(&mut self, a: usize, b: usize) -> usize {
        self.binary(9, a, b)
    }
    /// Kinds 10 and 11.
    pub fn shift(&mut self, kind: u8, a: usize, amount: u8) -> usize {
        let width = self.width(a);
        let mut body = Self::numbers(&[a]);
        body.push(amount);
        self.push(kind, width, body)
    }
    pub fn concat(&mut self, high: usize, low: usize) -> usize {
        let width = self.width(high) + self.width(low);
        self.push(12, width, Self::numbers(&[high, low]))
    }
    pub fn extract(&mut self, a: usize, u: u8, l: u8) -> usize {
        let mut body = Self::numbers(&[a]);
        body.push(u);
        body.push(l);
        self.push(13, u - l + 1, body)
    }
    /// Kinds 14 and 15.
    pub fn extend(&mut self, kind: u8, a: usize, width: u8) -> usize {
        self.push(kind, width, Self::numbers(&[a]))
    }
    pub fn if_then_else(&mut self, c: usize, t: usize, e: usize) -> usize {
        let width = self.width(t);
        self.push(16, width, Self::numbers(&[c, t, e]))
    }
    pub fn equal(&mut self, a: usize, b: usize) -> usize {
        self.formula(34, &[a, b])
    }
    pub fn unsigned_le(&mut self, a: usize, b: usize) -> usize {
        self.formula(35, &[a, b])
    }
    pub fn signed_le(&mut self, a: usize, b: usize) -> usize {
        self.formula(36, &[a, b])
    }
    pub fn not(&mut self, f: usize) -> usize {
        self.formula(40, &[f])
    }
    pub fn and(&mut self, f: usize, g: usize) -> usize {
        self.formula(41, &[f, g])
    }
    pub fn or(&mut self, f: usize, g: usize) -> usize {
        self.formula(42, &[f, g])
    }
    pub fn exists(&mut self, x: usize, f: usize) -> usize {
        self.formula(48, &[x, f])
    }
    pub fn forall(&mut self, x: usize, f: usize) -> usize {
        self.formula(49, &[x, f])
    }
    /// a below b: the negation of b at most a.
    pub fn unsigned_lt(&mut self, a: usize, b: usize) -> usize {
        let le = self.unsigned_le(b, a);
        self.not(le)
    }
    pub fn signed_lt(&mut self, a: usize, b: usize) -> usize {
        let le = self.signed_le(b, a);
        self.not(le)
    }
    pub fn implies(&mut self, f: usize, g: usize) -> usize {
        let not_f = self.not(f);
        self.or(not_f, g)
    }
    /// Both formulas have the same truth value.
    pub fn same(&mut self, f: usize, g: usize) -> usize {
        let forth = self.implies(f, g);
        let back = self.implies(g, f);
        self.and(forth, back)
    }
}

//! Value and witness over lent tables, sound and damaged.

use crate::compare::Compare;
use comparison::generate;

pub fn run(c: &mut Compare, tables: usize) {
    for _ in 0..tables {
        let lent = generate::lent_table(&mut c.random);
        let diagram = generate::diagram(&mut c.random, &lent);
        let bytes = generate::assignment(&mut c.random);
        let passed = c.value(&lent.table, lent.used, diagram, &bytes);
        let mut good = passed.passed <= 128 && passed.bit <= 1;
        good &= passed.number == 0 || (passed.bit, passed.passed) == (0, 0);
        let mut written = bytes.clone();
        if c.witness(&lent.table, lent.used, diagram, &mut written) == 0 {
            good &= c.value(&lent.table, lent.used, diagram, &written).bit == 1;
        } else {
            good &= written == bytes;
        }
        c.check(|| format!("lent table {lent:?}, diagram {diagram}"), good);
    }
}

/// The least assignment, against all those of eight levels.
pub fn least(c: &mut Compare, tables: usize) {
    for _ in 0..tables {
        let lent = generate::sound_table(&mut c.random, 14, 8);
        for diagram in 1..lent.used + 2 {
            let mut bytes = [3; 128];
            let number = c.witness(&lent.table, lent.used, diagram, &mut bytes);
            let least = (0..256u32)
                .map(|n| std::array::from_fn(|level| if level < 8 { (n >> (7 - level) & 1) as u8 } else { 0 }))
                .find(|a: &[u8; 128]| c.value(&lent.table, lent.used, diagram, a).bit == 1);
            c.check(|| format!("least witness {lent:?} {diagram}"), number == 0 && Some(bytes) == least);
        }
    }
}

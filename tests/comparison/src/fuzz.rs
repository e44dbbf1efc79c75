//! Random bytes and random buffers, meant to be run under valgrind.
//!
//! Each buffer is an allocation of its exact length, so that one word too far
//! is seen. What solve is lent has never been written: it never needs the
//! first contents, and afterwards every word is there, or none was looked at.

use crate::tally::{hex, Tally};
use comparison::generate::{self, Random, Taste};
use comparison::linked::{self, Solved};
use comparison::oracle::{self, Outcome, UNNAMED_LIMIT, WORK_LEAST};
use comparison::fast;

pub fn run(seed: u64, count: usize) -> ! {
    let mut tally = Tally::new();
    let mut random = Random::new(seed);
    for _ in 0..count {
        match random.below(4) {
            0 => value(&mut tally, &mut random),
            1 => witness(&mut tally, &mut random),
            _ => solve(&mut tally, &mut random),
        }
    }
    tally.part("random bytes and buffers");
    tally.close()
}

/// Random bytes, or a small sheet with some bytes changed.
fn bytes(random: &mut Random) -> Box<[u8]> {
    let taste = Taste { entries: random.pick(&[2, 6, 20]), bits: 12, width: random.pick(&[3, 32]), quantifiers: true };
    let mut bytes: Vec<u8> = match random.below(8) {
        0 => (0..random.below(80)).map(|_| random.next() as u8).collect(),
        1 => {
            // Plausible contents, then anything.
            let count = 1 + random.below(6);
            let mut bytes = vec![count as u8, 0];
            for _ in 0..count {
                let kind = random.pick(&[1, 2, 3, 8, 9, 12, 13, 16, 32, 34, 36, 40, 41, 48, 49]);
                let width = if kind < 32 { 1 + random.below(4) as u8 } else { 0 };
                bytes.extend([kind, width, random.below(64) as u8, 0]);
            }
            bytes.extend((0..random.below(20)).map(|_| random.below(8) as u8));
            bytes
        }
        _ => generate::good_sheet(random, taste),
    };
    match random.below(4) {
        0 => bytes = generate::damage(random, &bytes),
        1 if !bytes.is_empty() => {
            for _ in 0..1 + random.below(3) {
                let at = random.below(bytes.len());
                bytes[at] = random.next() as u8;
            }
        }
        _ => {}
    }
    bytes.into_boxed_slice()
}

fn solve(tally: &mut Tally, random: &mut Random) {
    let sheet = bytes(random);
    let limit = if random.percent(20) { None } else { Some(generate::limit(random)) };
    let table_len = match random.below(6) {
        0 => random.below(10),
        1 => 0,
        _ => 3 * random.below(200),
    };
    let work_len = random.pick(&[0, 1, WORK_LEAST - 1, WORK_LEAST, WORK_LEAST, WORK_LEAST + 1, 32_768, 32_769]);
    let mut table = Box::<[u32]>::new_uninit_slice(table_len);
    let mut work = Box::<[u32]>::new_uninit_slice(work_len);
    // Safety: both are good for their lengths and used by this call alone.
    let solved = unsafe {
        linked::solve_at(&sheet, limit, table.as_mut_ptr().cast(), table_len, work.as_mut_ptr().cast(), work_len)
    };
    let right = fast::solve(&sheet, limit.unwrap_or(UNNAMED_LIMIT), table_len, work_len);
    let mut good = solved == numbers(&right);
    if good && (right.number == 0 || right.number == 11) {
        // Safety: document 01 has solve write every word then; valgrind tells if it didn't.
        let (table, work) = unsafe { (table.assume_init(), work.assume_init()) };
        let (mut right_table, mut right_work) = (vec![7; table_len], vec![7; work_len]);
        oracle::apply(&right, &mut right_table, &mut right_work);
        good = *table == right_table && *work == right_work;
    }
    tally.check(|| format!("fuzz, limit {limit:?}, table {table_len}, work {work_len}: {solved:?}, {}", hex(&sheet)), good);
}

fn numbers(outcome: &Outcome) -> Solved {
    let &Outcome { number, verdict, must, may, used, .. } = outcome;
    Solved { number, verdict, must, may, used }
}

/// A table of nodes or of any words, a number of used slots and a diagram.
fn lent(random: &mut Random) -> (Box<[u32]>, u32, u32) {
    let lent = generate::lent_table(random);
    let diagram = generate::diagram(random, &lent);
    if random.percent(80) {
        return (lent.table.into_boxed_slice(), lent.used, diagram);
    }
    let table = (0..random.below(30)).map(|_| random.next() as u32).collect();
    (table, random.next() as u32, random.next() as u32)
}

fn value(tally: &mut Tally, random: &mut Random) {
    let (table, used, diagram) = lent(random);
    let assignment = generate::assignment(random).into_boxed_slice();
    let passed = linked::value(&table, used, diagram, &assignment);
    let right = oracle::value(&table, used, diagram, &assignment);
    tally.check(|| format!("fuzz, value {passed:?} instead of {right:?}: {table:?}, {used}, {diagram}"), passed == right);
}

fn witness(tally: &mut Tally, random: &mut Random) {
    let (table, used, diagram) = lent(random);
    let mut assignment = generate::assignment(random).into_boxed_slice();
    let mut right_assignment = assignment.clone();
    let number = linked::witness(&table, used, diagram, &mut assignment);
    let right = oracle::witness(&table, used, diagram, &mut right_assignment);
    let good = number == right && assignment == right_assignment;
    tally.check(|| format!("fuzz, witness {number} instead of {right}: {table:?}, {used}, {diagram}"), good);
}

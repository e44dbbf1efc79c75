//! Both sides of each refusal's edge, by hand.

use super::cases::sheet_a;
use super::written;
use crate::compare::Compare;
use comparison::linked::{self, Solved};
use comparison::oracle::{self, TABLE_MOST, WORK_LEAST};
use comparison::sheet;
use crate::tally::hex;

pub fn run(c: &mut Compare) {
    sheets(c);
    buffers(c);
    afterwards(c);
    lent(c);
}

/// 1 to 8.
fn sheets(c: &mut Compare) {
    let mut expect = |name: &str, sheet: Vec<u8>, number: u32| {
        let got = c.run(&sheet, 1000, 2048).number;
        c.check(|| format!("{name}: {got} instead of {number}, {}", hex(&sheet)), got == number);
    };
    // 1.
    expect("empty", vec![], 1);
    expect("one byte", vec![1], 1);
    expect("N 0", vec![0, 0], 1);
    expect("N 1 without contents", vec![1, 0], 1);
    expect("N 1 with short contents", vec![1, 0, 32, 0, 6], 1);
    expect("true", vec![1, 0, 32, 0, 6, 0], 0);
    let many = |n: usize| sheet::pack(&vec![(32u8, 0u8, vec![]); n]);
    expect("N 256", many(256), 0);
    expect("N 257", many(257), 1);
    // 2 before 3, 3 before 4.
    expect("kind 0", vec![1, 0, 0, 0, 9, 9], 2);
    expect("formula of width 1", vec![1, 0, 32, 1, 9, 9], 2);
    for width in [0u8, 33] {
        expect("term width", sheet::pack(&[(1, width, vec![]), (32, 0, vec![])]), 2);
    }
    for width in [1u8, 32] {
        expect("term width", sheet::pack(&[(1, width, vec![]), (32, 0, vec![])]), 0);
    }
    expect("place", vec![1, 0, 32, 0, 7, 0], 3);
    expect("one byte too many", vec![1, 0, 32, 0, 6, 0, 0], 3);
    expect("later kind before earlier place", vec![2, 0, 32, 0, 7, 0, 99, 0, 10, 0], 2);
    // 4, 5, 6 entry by entry.
    let early_6 = |rest: (u8, u8, Vec<u8>)| sheet::pack(&[(2, 1, vec![2, 0, 0, 0]), rest, (32, 0, vec![])]);
    expect("6 before a later 4", early_6((3, 1, vec![9, 0])), 6);
    expect("6 before a later 5", early_6((3, 2, vec![0, 0])), 6);
    let early_5 = |last: Vec<u8>| sheet::pack(&[(1, 1, vec![]), (3, 2, vec![0, 0]), (34, 0, last)]);
    expect("5 before a later 4", early_5(vec![0, 0, 7, 0]), 5);
    expect("4 before 5 in one entry", sheet::pack(&[(1, 1, vec![]), (5, 2, vec![0, 0, 1, 0]), (32, 0, vec![])]), 4);
    expect("a formula as a term", sheet::pack(&[(32, 0, vec![]), (34, 0, vec![0, 0, 0, 0])]), 4);
    expect("a term as a formula", sheet::pack(&[(1, 1, vec![]), (40, 0, vec![0, 0])]), 4);
    let bound = |kind: u8, body: Vec<u8>| sheet::pack(&[(kind, 1, body), (32, 0, vec![]), (48, 0, vec![0, 0, 1, 0])]);
    expect("a bound variable", bound(1, vec![]), 0);
    expect("a bound constant", bound(2, vec![0; 4]), 4);
    expect("a bound formula", sheet::pack(&[(32, 0, vec![]), (48, 0, vec![0, 0, 0, 0])]), 4);
    // Extract from width 5.
    let extract = |width: u8, u: u8, l: u8| sheet::pack(&[(1, 5, vec![]), (13, width, vec![0, 0, u, l]), (32, 0, vec![])]);
    expect("extract 4 4", extract(1, 4, 4), 0);
    expect("extract 5 5", extract(1, 5, 5), 6);
    expect("extract 4 0", extract(5, 4, 0), 0);
    expect("extract 5 0", extract(6, 5, 0), 6);
    expect("extract 5 0 with a wrong width", extract(5, 5, 0), 5);
    expect("extract with u below l", extract(1, 2, 3), 5);
    expect("extract that would wrap", extract(1, 0, 0), 0);
    expect("extract that would wrap", extract(1, 255, 255), 6);
    expect("extract that would wrap", extract(2, 0, 255), 5);
    expect("extract that would wrap", extract(32, 31, 0), 6);
    // Constants.
    for (width, most) in [(1u8, 1u32), (31, 0x7FFF_FFFF)] {
        for (value, number) in [(most, 0), (most + 1, 6)] {
            expect("constant", sheet::pack(&[(2, width, value.to_le_bytes().to_vec()), (32, 0, vec![])]), number);
        }
    }
    expect("constant of width 32", sheet::pack(&[(2, 32, vec![255; 4]), (32, 0, vec![])]), 0);
    // Concat, extend, if-then-else, comparison widths.
    let two = |kind: u8, own: u8, a: u8, b: u8| {
        sheet::pack(&[(1, a, vec![]), (1, b, vec![]), (kind, own, vec![0, 0, 1, 0]), (32, 0, vec![])])
    };
    expect("concat 32", two(12, 32, 16, 16), 0);
    expect("concat 33 in 32", two(12, 32, 16, 17), 5);
    expect("add", two(8, 3, 3, 3), 0);
    expect("add", two(8, 3, 3, 4), 5);
    expect("equal", two(34, 0, 3, 4), 5);
    let extend = |own: u8| sheet::pack(&[(1, 3, vec![]), (15, own, vec![0, 0]), (32, 0, vec![])]);
    expect("extend to the same width", extend(3), 0);
    expect("extend to less", extend(2), 5);
    // 7 before 8.
    let five = |last: (u8, u8, Vec<u8>), bits: u8| {
        let mut e = vec![(1u8, 32u8, vec![]); 3];
        e.push((1, bits, vec![]));
        e.push(last);
        sheet::pack(&e)
    };
    expect("8", five((2, 1, vec![0; 4]), 32), 8);
    expect("7 before 8", five((1, 1, vec![]), 32), 7);
    expect("127 and 1", five((1, 1, vec![]), 31), 8);
}

/// 8 to 11, and their order.
fn buffers(c: &mut Compare) {
    let a = sheet_a();
    let bad_last = sheet::pack(&[(1, 1, vec![])]);
    for (name, sheet, table, work, number) in [
        ("8 before 9", &bad_last, 1, 0, 8),
        ("9 before 10", &a, 1, 0, 9),
        ("10 before 11", &a, 0, WORK_LEAST - 1, 10),
        ("no work buffer", &a, 15, 0, 10),
        ("no slots", &a, 0, WORK_LEAST, 11),
        ("a slot and a word", &a, 16, WORK_LEAST, 9),
        ("a slot and two words", &a, 17, WORK_LEAST, 9),
        ("the largest table", &a, TABLE_MOST, WORK_LEAST, 0),
        ("the largest table and a word", &a, TABLE_MOST + 1, WORK_LEAST, 9),
        ("a larger table", &a, TABLE_MOST + 3, WORK_LEAST, 9),
    ] {
        let got = c.solve(sheet, 1000, table, work).number;
        c.check(|| format!("{name}: {got} instead of {number}"), got == number);
    }
    // A sheet that enters no node needs no slot.
    let truth = written(|w| {
        w.formula(32, &[]);
    });
    let got = c.run(&truth, 1000, 0).number;
    c.check(|| format!("true without slots: {got}"), got == 0);
}

/// The buffers' words after an answer, after 11 and after another refusal, without the oracle's help.
fn afterwards(c: &mut Compare) {
    let a = sheet_a();
    let answered = Solved { number: 0, verdict: 1, must: 6, may: 6, used: 5 };
    let refused = |number| Solved { number, verdict: 0, must: 0, may: 0, used: 0 };
    let nodes = vec![0, 0, 1, 1, 0, 1, 1, 1, 0, 0, 3, 4, 0, 4, 3];
    let longer: Vec<u32> = nodes.iter().copied().chain([0, 0, 0]).collect();
    for (right, right_table, right_work) in [
        (answered, nodes, 0),
        (answered, longer, 0),
        (refused(11), vec![0; 12], 0),
        (refused(9), vec![7; 4], 7),
    ] {
        let (mut table, mut work) = (vec![7; right_table.len()], vec![7; WORK_LEAST]);
        let solved = linked::solve(&a, Some(3), &mut table, &mut work);
        let good = solved == right && table == right_table && work.iter().all(|&n| n == right_work);
        c.check(|| format!("buffers after {right:?}: {solved:?}, {table:?}"), good);
    }
    // Levels: x of width 2 before y of width 1 is x0, y0, x1.
    let s = written(|w| {
        w.variable(2);
        w.variable(1);
        w.formula(32, &[]);
    });
    let outcome = c.run(&s, 0, 3);
    c.check(|| "levels x0, y0, x1".into(), outcome.nodes == vec![[0, 0, 1], [2, 0, 1], [1, 0, 1]]);
}

/// 9 and 12 to 16: sheet A's table, and one thing wrong or nearly so.
fn lent(c: &mut Compare) {
    let good = oracle::solve(&sheet_a(), 1000, 15, WORK_LEAST).table(5);
    let zeros = vec![0u8; 128];
    let word = |at: usize, to: u32| {
        let mut table = good.clone();
        table[at] = to;
        table
    };
    let byte = |at: usize, to: u8| {
        let mut bytes = zeros.clone();
        bytes[at] = to;
        bytes
    };
    let more = |words: usize| -> Vec<u32> { good.iter().copied().chain(vec![9; words]).collect() };
    // Table, used, diagram, assignment; the numbers of value and of witness.
    for (name, table, used, diagram, bytes, value, witness) in [
        ("good", good.clone(), 5, 6, zeros.clone(), 0, 0),
        ("no slots", vec![], 0, 1, zeros.clone(), 0, 0),
        ("no slots, diagram 2", vec![], 0, 2, zeros.clone(), 16, 16),
        ("no slots, one used", vec![], 1, 1, zeros.clone(), 12, 12),
        ("a word more", more(1), 5, 6, zeros.clone(), 9, 9),
        ("two words more", more(2), 5, 6, zeros.clone(), 9, 9),
        ("rubbish past the used", more(3), 5, 6, zeros.clone(), 0, 0),
        ("the largest table", more(TABLE_MOST - 15), 5, 6, zeros.clone(), 0, 0),
        ("a larger table", more(TABLE_MOST - 12), 5, 6, zeros.clone(), 9, 9),
        ("127 bytes", good.clone(), 5, 6, vec![0; 127], 13, 13),
        ("129 bytes", good.clone(), 5, 6, vec![0; 129], 13, 13),
        ("no bytes", good.clone(), 5, 6, vec![], 13, 13),
        ("9 before 13", more(1), 5, 6, vec![], 9, 9),
        ("13 before 12", good.clone(), 6, 6, vec![], 13, 13),
        ("byte 0 is 2", good.clone(), 5, 6, byte(0, 2), 14, 0),
        ("byte 127 is 2", good.clone(), 5, 6, byte(127, 2), 14, 0),
        ("byte 127 is 255", good.clone(), 5, 6, byte(127, 255), 14, 0),
        ("byte 127 is 1", good.clone(), 5, 6, byte(127, 1), 0, 0),
        ("14 before 12", good.clone(), 6, 6, byte(0, 2), 14, 12),
        ("used above the slots", good.clone(), 6, 6, zeros.clone(), 12, 12),
        ("used 4,294,967,295", good.clone(), u32::MAX, 6, zeros.clone(), 12, 12),
        ("level 127", word(0, 127), 5, 6, zeros.clone(), 0, 0),
        ("level 128", word(0, 128), 5, 6, zeros.clone(), 12, 12),
        ("a child of the node's own number", word(13, 6), 5, 5, zeros.clone(), 12, 12),
        ("a child one below, of the same level", word(13, 5), 5, 5, zeros.clone(), 12, 12),
        ("a child of the same level", word(10, 2), 5, 6, zeros.clone(), 12, 12),
        ("a child of a higher level", word(10, 1), 5, 6, zeros.clone(), 0, 0),
        ("equal children", word(10, 4), 5, 6, zeros.clone(), 12, 12),
        ("the last node wrong", word(12, 1), 5, 2, zeros.clone(), 12, 12),
        ("the last node wrong and unused", word(12, 1), 4, 5, zeros.clone(), 0, 0),
        ("12 before 16", good.clone(), 6, 99, zeros.clone(), 12, 12),
        ("diagram used + 1", good.clone(), 4, 5, zeros.clone(), 0, 0),
        ("diagram used + 2", good.clone(), 4, 6, zeros.clone(), 16, 16),
        ("diagram 4,294,967,295", good.clone(), 4, u32::MAX, zeros.clone(), 16, 16),
        ("diagram 0", good.clone(), 5, 0, zeros.clone(), 0, 15),
        ("diagram 1", good.clone(), 5, 1, zeros.clone(), 0, 0),
    ] {
        let got = c.value(&table, used, diagram, &bytes).number;
        c.check(|| format!("value, {name}: {got} instead of {value}"), got == value);
        let got = c.witness(&table, used, diagram, &mut bytes.clone());
        c.check(|| format!("witness, {name}: {got} instead of {witness}"), got == witness);
    }
}

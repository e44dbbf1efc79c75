//! The sheets that are timed: those of `bench/sheets`, and families written here.

use comparison::sheet::Writer;

pub struct Named {
    pub name: String,
    pub sheet: Vec<u8>,
}

fn named(name: String, w: &Writer) -> Named {
    Named { name, sheet: w.sheet() }
}

/// All of them, by name.
pub fn all() -> Vec<Named> {
    let folder = concat!(env!("CARGO_MANIFEST_DIR"), "/sheets");
    let mut sheets: Vec<Named> = std::fs::read_dir(folder)
        .unwrap()
        .map(|entry| entry.unwrap().path())
        .filter(|path| path.extension().is_some_and(|e| e == "sheet"))
        .map(|path| Named {
            name: path.file_stem().unwrap().to_string_lossy().into_owned(),
            sheet: std::fs::read(&path).unwrap(),
        })
        .collect();
    for controllers in 2..=8 {
        sheets.push(mesh(controllers, 4, Score::Rank));
    }
    for controllers in 2..=4 {
        sheets.push(mesh(controllers, 4, Score::Sum));
        sheets.push(mesh(controllers, 3, Score::Product));
    }
    sheets.push(mesh_quantified(3, 4));
    sheets.push(adder_chain(8, 12));
    sheets.push(comparator_chain(16, 8));
    sheets.push(false_at_the_end(10, 5));
    sheets.sort_by(|a, b| a.name.cmp(&b.name));
    sheets
}

#[derive(Clone, Copy)]
enum Score {
    Rank,
    Sum,
    Product,
}

/// Each controller has a rank and an uptime, and leads when no other's score is higher; a tie goes to the lower address.
/// Is there a state in which the first two lead?
fn mesh(controllers: usize, width: u8, score: Score) -> Named {
    let mut w = Writer::new();
    let scores: Vec<usize> = (0..controllers)
        .map(|_| {
            let rank = w.variable(width);
            match score {
                Score::Rank => rank,
                Score::Sum | Score::Product => {
                    let uptime = w.variable(width);
                    let (a, b) = (w.extend(14, rank, 2 * width), w.extend(14, uptime, 2 * width));
                    if let Score::Sum = score { w.add(a, b) } else { w.multiply(a, b) }
                }
            }
        })
        .collect();
    let leads = |w: &mut Writer, own: usize| {
        let mut all = None;
        for other in 0..controllers {
            if other == own {
                continue;
            }
            let beats =
                if own < other { w.unsigned_le(scores[other], scores[own]) } else { w.unsigned_lt(scores[other], scores[own]) };
            all = Some(match all {
                None => beats,
                Some(before) => w.and(before, beats),
            });
        }
        all.unwrap()
    };
    let (first, second) = (leads(&mut w, 0), leads(&mut w, 1));
    w.and(first, second);
    let what = match score {
        Score::Rank => "rank",
        Score::Sum => "sum",
        Score::Product => "product",
    };
    named(format!("own_mesh_{what}_{controllers}"), &w)
}

/// For every rank of the first controller there are ranks of the others with which it leads.
fn mesh_quantified(controllers: usize, width: u8) -> Named {
    let mut w = Writer::new();
    let ranks: Vec<usize> = (0..controllers).map(|_| w.variable(width)).collect();
    let mut f = w.unsigned_le(ranks[1], ranks[0]);
    for &other in &ranks[2..] {
        let le = w.unsigned_le(other, ranks[0]);
        f = w.and(f, le);
    }
    for &other in &ranks[1..] {
        f = w.exists(other, f);
    }
    w.forall(ranks[0], f);
    named(format!("own_mesh_forall_{controllers}"), &w)
}

/// The sum of all variables, added from the left and from the right, is the same.
pub fn adder_chain(variables: usize, width: u8) -> Named {
    let mut w = Writer::new();
    let x: Vec<usize> = (0..variables).map(|_| w.variable(width)).collect();
    let (mut left, mut right) = (x[0], x[variables - 1]);
    for i in 1..variables {
        left = w.add(left, x[i]);
        right = w.add(x[variables - 1 - i], right);
    }
    let equal = w.equal(left, right);
    w.not(equal);
    named(format!("own_adder_chain_{variables}x{width}"), &w)
}

/// A chain of ≤ from each variable to the next that ends below its start.
pub fn comparator_chain(variables: usize, width: u8) -> Named {
    let mut w = Writer::new();
    let x: Vec<usize> = (0..variables).map(|_| w.variable(width)).collect();
    let mut f = w.unsigned_lt(x[variables - 1], x[0]);
    for i in 1..variables {
        let le = w.unsigned_le(x[i - 1], x[i]);
        f = w.and(f, le);
    }
    named(format!("own_comparator_chain_{variables}x{width}"), &w)
}

/// All variables differ in pairs, and then one pair is equal: many pairs, and hardly a new node until the end.
fn false_at_the_end(variables: usize, width: u8) -> Named {
    let mut w = Writer::new();
    let x: Vec<usize> = (0..variables).map(|_| w.variable(width)).collect();
    let mut f = w.formula(32, &[]);
    for i in 0..variables - 1 {
        let le = w.unsigned_lt(x[i], x[i + 1]);
        f = w.and(f, le);
    }
    for i in 0..variables {
        for j in 0..i {
            let le = w.unsigned_le(x[j], x[i]);
            f = w.and(f, le);
        }
    }
    let back = w.unsigned_le(x[variables - 1], x[0]);
    w.and(f, back);
    named(format!("own_false_at_the_end_{variables}x{width}"), &w)
}

//! Compares the proved library, and the program, with the independent
//! implementation, with the truth, and with z3. The last line is
//! 'N passed, M failed'.
//!
//!     comparison [SEED] [--no-program]   everything; --no-program leaves the program out
//!     comparison fuzz SEED COUNT         random bytes and buffers, for valgrind
//!     comparison program < sheet         the listing, as the oracle has it
//!     comparison smt < sheet             SMT-LIB text
//!     comparison bench FILE LIMIT SLOTS  times the three solvers

mod compare;
mod features;
mod fuzz;
mod parts;
mod tally;

use compare::Compare;
use comparison::oracle::{self, WORK_LEAST};
use comparison::{fast, linked, sheet, smt};
use parts::{cases, damaged, edges, program, published, room, sheets, tables, truth, z3};
use std::io::{Read, Write};
use std::time::Instant;

const SEED: u64 = 1;

fn main() {
    let arguments: Vec<String> = std::env::args().skip(1).collect();
    let words: Vec<&str> = arguments.iter().map(String::as_str).collect();
    match words[..] {
        ["fuzz", seed, count] => fuzz::run(number(seed), number(count) as usize),
        ["program"] => std::io::stdout().write_all(&oracle::program(&input())).unwrap(),
        ["smt"] => match sheet::check(&input()) {
            Ok(entries) => print!("{}", smt::text(&entries)),
            Err(number) => println!("; refusal {number}"),
        },
        ["bench", file, limit, slots] => bench(file, number(limit) as u32, number(slots) as usize),
        [] => everything(SEED, true),
        ["--no-program"] => everything(SEED, false),
        [seed] => everything(number(seed), true),
        [seed, "--no-program"] => everything(number(seed), false),
        _ => usage(),
    }
}

fn everything(seed: u64, with_program: bool) {
    println!("seed {seed}");
    let mut c = Compare::new(seed);
    cases::run(&mut c);
    c.tally.part("listing and cases 1 to 12");
    edges::run(&mut c);
    c.tally.part("edges of the refusals");
    published::run(&mut c);
    c.tally.part("published examples");
    tables::run(&mut c, 20_000);
    c.tally.part("lent tables");
    tables::least(&mut c, 200);
    c.tally.part("least witness");
    room::exact_counts(&mut c, 80);
    c.tally.part("counts at the edge of a limit");
    room::every_limit(&mut c, 200);
    c.tally.part("every limit");
    sheets::run(&mut c, 10_000);
    c.tally.part("random sheets");
    damaged::run(&mut c, 20_000);
    c.tally.part("damaged sheets");
    room::large(&mut c);
    c.tally.part("large diagrams");
    truth::small(&mut c, 2000);
    c.tally.part("truth of small sheets");
    truth::large(&mut c, 1000);
    c.tally.part("truth of large sheets");
    c.met_often(30);
    c.tally.part("how often each number was met");
    z3::run(&mut c, 240);
    c.tally.part("z3");
    if with_program {
        program::run(&mut c, 200);
        c.tally.part("program");
    }
    c.tally.close()
}

fn usage() -> ! {
    eprintln!("usage: comparison [SEED] [--no-program] | fuzz SEED COUNT | program | smt | bench FILE LIMIT SLOTS");
    std::process::exit(2)
}

fn number(word: &str) -> u64 {
    word.parse().unwrap_or_else(|_| usage())
}

fn input() -> Vec<u8> {
    let mut bytes = Vec::new();
    std::io::stdin().read_to_end(&mut bytes).unwrap();
    bytes
}

fn bench(file: &str, limit: u32, slots: usize) {
    let sheet = std::fs::read(file).unwrap();
    let (mut table, mut work) = (vec![7; 3 * slots], vec![7; WORK_LEAST.max(8 * slots)]);
    let begun = Instant::now();
    let solved = linked::solve(&sheet, Some(limit), &mut table, &mut work);
    let library_time = begun.elapsed();
    let begun = Instant::now();
    let a = fast::solve(&sheet, limit, 3 * slots, WORK_LEAST);
    let fast_time = begun.elapsed();
    let begun = Instant::now();
    let b = oracle::solve(&sheet, limit, 3 * slots, WORK_LEAST);
    let oracle_time = begun.elapsed();
    let agree = a == b && (a.number, a.verdict, a.used) == (solved.number, solved.verdict, solved.used);
    println!(
        "{solved:?}: library {library_time:.3?}, fast {fast_time:.3?}, oracle {oracle_time:.3?}, {}",
        if agree { "agree" } else { "DISAGREE" }
    );
}

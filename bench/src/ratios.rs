//! Proved against plain, sheet by sheet, at three sizes of table and two limits.

use crate::{sheets, timed, verdict};

/// Ratios so far: their logarithms' sum, how many, and the worst with its run.
#[derive(Default)]
struct Ratios {
    logs: f64,
    count: usize,
    worst: (f64, String),
}

impl Ratios {
    fn enter(&mut self, ratio: f64, run: &str) {
        self.logs += ratio.ln();
        self.count += 1;
        if ratio > self.worst.0 {
            self.worst = (ratio, run.into());
        }
    }
    fn print(&self, what: &str) {
        let mean = (self.logs / self.count as f64).exp();
        println!("\n{what}: geometric mean {mean:.2}, worst {:.2} ({}), {} runs\n", self.worst.0, self.worst.1, self.count);
    }
}

pub fn table() {
    println!("Time in µs, the least of several runs; ratio = proved / plain.\n");
    let mut all = Ratios::default();
    for slots in [2048usize, 16_384, 1_048_576] {
        let mut here = Ratios::default();
        println!("| slots | limit | sheet | answer | used | proved | plain | ratio |\n|---|---|---|---|---|---|---|---|");
        for limit in [1000, slots as u32] {
            for named in sheets::all() {
                let t = timed(&named.sheet, limit, slots);
                let ratio = t.proved / t.plain;
                println!(
                    "| {slots} | {limit} | {} | {} | {} | {:.1} | {:.1} | {ratio:.2} |",
                    named.name,
                    verdict(t.answer),
                    t.answer.4,
                    1e6 * t.proved,
                    1e6 * t.plain
                );
                let run = format!("{}, limit {limit}, {slots} slots", named.name);
                here.enter(ratio, &run);
                all.enter(ratio, &run);
            }
        }
        here.print(&format!("{slots} slots"));
    }
    all.print("all sizes");
}

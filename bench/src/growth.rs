//! How the time grows with slots, bits and entries.

use crate::sheets::{adder_chain, comparator_chain};
use crate::{timed, verdict};

fn line(what: String, sheet: &[u8], limit: u32, slots: usize) {
    let t = timed(sheet, limit, slots);
    println!("| {what} | {} | {} | {:.1} | {:.1} |", verdict(t.answer), t.answer.4, 1e6 * t.proved, 1e6 * t.plain);
}

fn head(what: &str) {
    println!("\n| {what} | answer | used | proved µs | plain µs |\n|---|---|---|---|---|");
}

pub fn tables() {
    let chain = comparator_chain(8, 8).sheet;
    head("slots (8 variables of 8 bits in a chain of ≤, limit 1,000)");
    for slots in [256, 1024, 4096, 16_384, 65_536, 262_144, 1_048_576] {
        line(slots.to_string(), &chain, 1000, slots);
    }
    head("variable bits (4 variables in a chain of ≤, 65,536 slots, limit 65,536)");
    for width in [1, 2, 4, 8, 16, 32] {
        line((4 * width as usize).to_string(), &comparator_chain(4, width).sheet, 65_536, 65_536);
    }
    head("entries (variables of 4 bits added up from both ends, 65,536 slots, limit 65,536)");
    for variables in [2, 3, 4, 6, 8, 12, 16] {
        let sheet = adder_chain(variables, 4).sheet;
        line((3 * variables).to_string(), &sheet, 65_536, 65_536);
    }
}

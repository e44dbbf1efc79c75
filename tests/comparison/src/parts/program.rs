//! The program: what it prints for a sheet on standard input, byte for byte.

use super::cases::{many_bits, shifts, sheet_a};
use super::written;
use crate::compare::Compare;
use crate::tally::hex;
use comparison::examples::f3;
use comparison::generate::{self, Taste};
use comparison::oracle;
use std::io::Write;
use std::process::{Command, Stdio};

const PROGRAM: &str = concat!(env!("CARGO_MANIFEST_DIR"), "/../../target/bin/prove");

/// What it prints; nothing when it fails or complains.
fn printed(input: &[u8]) -> Option<Vec<u8>> {
    let mut child = Command::new(PROGRAM)
        .stdin(Stdio::piped())
        .stdout(Stdio::piped())
        .stderr(Stdio::piped())
        .spawn()
        .ok()?;
    // It needn't read all of a long input.
    let _ = child.stdin.take().unwrap().write_all(input);
    let output = child.wait_with_output().ok()?;
    (output.status.success() && output.stderr.is_empty()).then_some(output.stdout)
}

pub fn run(c: &mut Compare, sheets: usize) {
    if !std::path::Path::new(PROGRAM).is_file() {
        return c.check(|| format!("{PROGRAM} is missing: `./build` builds it"), false);
    }
    let a = sheet_a();
    let mut inputs = vec![a.clone(), written(f3(4)), written(f3(5)), many_bits(0), many_bits(1)];
    inputs.extend(shifts());
    // Nothing, too little, and more than it reads.
    inputs.extend([vec![], a[..1].to_vec(), a[..33].to_vec()]);
    for length in [35, 2562, 2563, 2564, 70_000] {
        let mut long = a.clone();
        long.resize(length, 0);
        inputs.push(long);
    }
    // The longest good sheet, then a byte more and another.
    let mut longest = generate::longest();
    for _ in 0..3 {
        inputs.push(longest.clone());
        longest.push(0);
    }
    for number in 0..sheets {
        let taste = Taste::any(&mut c.random);
        let good = generate::good_sheet(&mut c.random, taste);
        inputs.push(if number % 4 == 0 { generate::damage(&mut c.random, &good) } else { good });
    }
    let mut numbers = [0usize; 12];
    let mut satisfied = 0;
    for input in &inputs {
        let right = oracle::program(input);
        let text = String::from_utf8_lossy(&right).into_owned();
        let number: usize = text.lines().next().unwrap()["answer ".len()..].parse().unwrap();
        numbers[number] += 1;
        satisfied += text.contains("verdict sat") as usize;
        let got = printed(input);
        c.check(
            || {
                let got = got.as_ref().map(|bytes| String::from_utf8_lossy(bytes).into_owned());
                format!("program: {got:?} instead of {text:?}, input {}", hex(input))
            },
            got.as_ref() == Some(&right),
        );
    }
    println!("          {} inputs, answers 0 to 11: {numbers:?}, {satisfied} sat", inputs.len());
}

//! Other solvers on the same formulas, each as a process; ours too.

use crate::{sheets, verdict, work_for};
use comparison::{linked, sheet, smt};
use std::io::Read;
use std::process::{Command, Stdio};
use std::time::Instant;

const SLOTS: usize = 1_048_576;

/// `bench solve < sheet`: the library at 1,048,576 slots and limit 1,000, then, where that is unknown, at the limit of the slots.
pub fn own_process() {
    let mut sheet = Vec::new();
    std::io::stdin().read_to_end(&mut sheet).unwrap();
    let (mut table, mut work) = (vec![0; 3 * SLOTS], vec![0; work_for(SLOTS)]);
    for limit in [1000, SLOTS as u32] {
        let r = linked::solve(&sheet, Some(limit), &mut table, &mut work);
        let said = verdict((r.number, r.verdict, r.must, r.may, r.used));
        if said != "unknown" || limit as usize == SLOTS {
            println!("{said}");
            return;
        }
    }
}

/// The formula as text: the file beside the sheet where there is one (boolector reads no other), else our own writer's.
fn text_of(named: &sheets::Named) -> String {
    let beside = format!("{}/sheets/{}.smt2", env!("CARGO_MANIFEST_DIR"), named.name);
    std::fs::read_to_string(beside).unwrap_or_else(|_| smt::text(&sheet::check(&named.sheet).unwrap()))
}

/// The first line that a process prints, and its time in seconds; it gets 5 seconds.
fn process(command: &[&str], input: &std::path::Path) -> (String, f64) {
    let begun = Instant::now();
    let out = Command::new("timeout")
        .arg("5")
        .args(command)
        .stdin(std::fs::File::open(input).unwrap())
        .stderr(Stdio::null())
        .output()
        .map(|o| String::from_utf8_lossy(&o.stdout).lines().next().unwrap_or("-").to_string())
        .unwrap_or_else(|_| "missing".into());
    (out, begun.elapsed().as_secs_f64())
}

pub fn table() {
    let folder = std::env::temp_dir();
    let own = std::env::current_exe().unwrap();
    println!("\nms a process, 5 s at most; ours at {SLOTS} slots.\n");
    println!("| sheet | ours | | z3 | | cvc5 | | boolector | |\n|---|---|---|---|---|---|---|---|---|");
    for named in sheets::all() {
        let (bytes, text) = (folder.join("bench.sheet"), folder.join("bench.smt2"));
        std::fs::write(&bytes, &named.sheet).unwrap();
        std::fs::write(&text, text_of(&named)).unwrap();
        let mut line = format!("| {} |", named.name);
        let commands: [(&[&str], &std::path::Path); 4] = [
            (&[own.to_str().unwrap(), "solve"], &bytes),
            (&["z3", "-in"], &text),
            (&["cvc5", "--lang=smt2", "-"], &text),
            (&["boolector", "--smt2"], &text),
        ];
        for (command, input) in commands {
            let (said, time) = process(command, input);
            let said = if ["sat", "unsat", "unknown", "no room", "missing"].contains(&said.as_str()) { said } else { "-".into() };
            line += &format!(" {said} | {:.0} |", 1e3 * time);
        }
        println!("{line}");
    }
}

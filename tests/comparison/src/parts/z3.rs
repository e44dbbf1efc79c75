//! The library's sat and unsat against z3's, from SMT-LIB text.

use super::contradicts;
use crate::compare::Compare;
use crate::tally::hex;
use comparison::examples::{all_examples, Example};
use comparison::generate::{self, Taste};
use comparison::oracle::UNKNOWN;
use comparison::{sheet, smt};
use std::io::Write;
use std::process::{Command, Stdio};

/// z3's word for a sheet: nothing when it gives up; an error when it doesn't take the text.
type Word = Result<Option<bool>, String>;

/// z3's words for good sheets, from one run of it. Its limit counts its steps, not time, so its words are always the
/// same; the time is only there to end it at all.
fn ask(sheets: &[Vec<u8>]) -> Result<Vec<Word>, String> {
    let mut child = Command::new("z3")
        .args(["-in", "rlimit=1000000", "-T:300"])
        .stdin(Stdio::piped())
        .stdout(Stdio::piped())
        .spawn()
        .map_err(|e| format!("z3 can't be run ({e}); it is needed"))?;
    let mut stdin = child.stdin.take().unwrap();
    let texts: Vec<String> = sheets.iter().map(|s| smt::text(&sheet::check(s).unwrap())).collect();
    let writer = std::thread::spawn(move || {
        texts.iter().try_for_each(|text| stdin.write_all(format!("{text}(echo \"next\")\n(reset)\n").as_bytes()))
    });
    let output = child.wait_with_output().map_err(|e| e.to_string())?;
    writer.join().unwrap().map_err(|e| format!("z3 doesn't read: {e}"))?;
    let said = String::from_utf8_lossy(&output.stdout).into_owned();
    let words: Vec<Word> = said.split_terminator("next\n").map(word).collect();
    if words.len() == sheets.len() { Ok(words) } else { Err(format!("z3 said {} words", words.len())) }
}

fn word(said: &str) -> Word {
    match said.trim() {
        "sat" => Ok(Some(true)),
        "unsat" => Ok(Some(false)),
        "unknown" => Ok(None),
        other => Err(format!("z3 says {other}")),
    }
}

pub fn run(c: &mut Compare, sheets: usize) {
    let examples = all_examples();
    let random: Vec<Vec<u8>> = (0..sheets).map(|number| random_sheet(c, number)).collect();
    let all: Vec<Vec<u8>> = examples.iter().map(|e| e.sheet.clone()).chain(random.clone()).collect();
    match ask(&all) {
        Ok(words) => {
            published(c, &examples, &words[..examples.len()]);
            compared(c, &random, &words[examples.len()..]);
        }
        Err(why) => c.check(|| why, false),
    }
}

fn random_sheet(c: &mut Compare, number: usize) -> Vec<u8> {
    let taste = match number % 3 {
        0 => Taste::small(),
        1 => Taste { entries: 30, bits: 20, width: 6, quantifiers: true },
        _ => Taste { entries: 60, bits: 60, width: 32, quantifiers: number % 2 == 0 },
    };
    generate::good_sheet(&mut c.random, taste)
}

/// z3, the paper and the library don't contradict each other; where z3 gives up, the paper's word stands.
fn published(c: &mut Compare, examples: &[Example], words: &[Word]) {
    let mut answered = 0;
    for (example, word) in examples.iter().zip(words) {
        let outcome = c.run(&example.sheet, example.limit, example.slots);
        let good = match word {
            Ok(Some(_)) => *word == Ok(example.truth) && !contradicts(&outcome, example.truth),
            Ok(None) => true,
            Err(_) => false,
        };
        answered += matches!(word, Ok(Some(_))) as usize;
        c.check(|| format!("z3 {word:?}, {}: verdict {}", example.name, outcome.verdict), good);
    }
    let all = examples.len();
    println!("          z3 answered {answered} of {all} examples");
    c.check(|| format!("z3 answered only {answered} of {all} examples"), answered * 10 >= all * 9);
}

fn compared(c: &mut Compare, sheets: &[Vec<u8>], words: &[Word]) {
    let (mut answered, mut decided) = (0, 0);
    for (sheet, word) in sheets.iter().zip(words) {
        let truth = word.clone().unwrap_or(None);
        c.check(|| format!("{word:?}, sheet {}", hex(sheet)), word.is_ok());
        answered += truth.is_some() as usize;
        for limit in [0, 5, 100, 16_384] {
            let outcome = c.run(sheet, limit, 16_384);
            decided += (truth.is_some() && outcome.number == 0 && outcome.verdict != UNKNOWN) as usize;
            c.check(|| format!("z3 {truth:?}, limit {limit}: {}", hex(sheet)), !contradicts(&outcome, truth));
        }
    }
    let all = sheets.len();
    println!("          z3 answered {answered} of {all} random sheets; {decided} sat or unsat held against it");
    c.check(|| format!("z3 answered only {answered} of {all} sheets"), answered * 10 >= all * 9);
}

//! What has passed and what has failed.

use std::time::Instant;

pub struct Tally {
    pub passed: usize,
    pub failed: usize,
    begun: Instant,
}

impl Tally {
    pub fn new() -> Tally {
        Tally { passed: 0, failed: 0, begun: Instant::now() }
    }

    /// One check; what failed is told, the first twenty times.
    pub fn check(&mut self, name: impl FnOnce() -> String, holds: bool) {
        if holds {
            self.passed += 1;
            return;
        }
        self.failed += 1;
        if self.failed <= 20 {
            println!("FAILED: {}", name());
        }
    }

    /// The end of a part, on one line.
    pub fn part(&self, name: &str) {
        let time = self.begun.elapsed().as_secs_f64();
        println!("{time:6.1} s  {name}: {} passed, {} failed so far", self.passed, self.failed);
    }

    /// The closing line; a failure becomes the exit status.
    pub fn close(&self) -> ! {
        println!("{} passed, {} failed", self.passed, self.failed);
        std::process::exit((self.failed > 0) as i32)
    }
}

pub fn hex(bytes: &[u8]) -> String {
    bytes.iter().map(|b| format!("{b:02x}")).collect()
}

//! Counts what passed and what failed.

use std::process::ExitCode;

/// So many failures are printed.
const PRINTED: u64 = 10;

#[derive(Default)]
pub struct Tally {
    passed: u64,
    failed: u64,
}

impl Tally {
    /// One assertion.
    pub fn check(&mut self, holds: bool, what: impl FnOnce() -> String) {
        if holds {
            self.passed += 1;
            return;
        }
        self.failed += 1;
        if self.failed <= PRINTED {
            println!("FAILED: {}", what());
        }
    }

    /// Prints the last line. A tally of nothing is a failure.
    pub fn summary(mut self) -> ExitCode {
        let counted = self.passed + self.failed > 0;
        self.failed += u64::from(!counted);
        if self.failed > PRINTED {
            println!("{} more failed", self.failed - PRINTED);
        }
        println!("{} passed, {} failed", self.passed, self.failed);
        ExitCode::from(u8::from(self.failed > 0))
    }
}

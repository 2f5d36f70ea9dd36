//! Counts vectors, random cases and comparisons, and tells the comparisons that fail.

use std::process::ExitCode;

#[derive(Default)]
pub struct Tally {
    vectors: usize,
    random: usize,
    compared: u64,
    failed: u64,
    section: u64,
}

impl Tally {
    /// One comparison. Of many that fail only the first ten are told.
    pub fn hold(&mut self, holds: bool, what: impl FnOnce() -> String) {
        self.compared += 1;
        if !holds {
            self.failed += 1;
            if self.failed <= 10 {
                println!("DIFFERS: {}", what());
            }
        }
    }

    /// One check word or telegram that SUBSET-057 prints.
    pub fn printed(&mut self) {
        self.vectors += 1;
    }

    /// Cases that were drawn at random.
    pub fn drawn(&mut self, cases: usize) {
        self.random += cases;
    }

    /// Ends a group of comparisons with a line that says how many there were.
    pub fn told(&mut self, what: &str) {
        println!("{:>9}  {what}", self.compared - self.section);
        self.section = self.compared;
    }

    /// Takes over what another tally has counted.
    pub fn add(&mut self, other: Tally) {
        self.vectors += other.vectors;
        self.random += other.random;
        self.compared += other.compared;
        self.failed += other.failed;
    }

    pub fn finish(self) -> ExitCode {
        let Tally {
            vectors,
            random,
            compared,
            failed,
            ..
        } = self;
        println!("compare: {vectors} vectors, {random} random cases, {compared} comparisons, {failed} differ");
        if failed == 0 && compared > 0 {
            ExitCode::SUCCESS
        } else {
            ExitCode::FAILURE
        }
    }
}

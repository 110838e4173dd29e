//! A check, and what it is given.

use std::path::PathBuf;

use crate::harness::random::Random;
use crate::harness::report::Checked;

/// What a check is given: how much to do, and where its random numbers come from.
pub struct Run {
    pub long: bool,
    pub random: Random,
    /// document 01's program, if it is to be run
    pub program: Option<PathBuf>,
}

impl Run {
    /// How many random cases this run asks for.
    pub fn cases(&self, short: u64, long: u64) -> u64 {
        if self.long {
            long
        } else {
            short
        }
    }
}

pub struct Check {
    pub name: &'static str,
    pub run: fn(&mut Run) -> Checked,
}

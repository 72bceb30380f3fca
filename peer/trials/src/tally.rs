//! How often each call was answered by each refusal.

use std::collections::BTreeMap;
use std::fmt;

/// The answers that documents 01 and 02 give each call: a pair that was never met is to be seen as well.
const ANSWERS: [(&str, &[u32]); 4] = [
    ("open", &[0, 1, 7]),
    ("import", &[0, 1, 2, 3, 4, 5, 6, 7, 8, 9, 10, 11, 12, 13, 16]),
    ("withdraw", &[0, 1, 2, 15]),
    ("snapshot", &[0, 1, 2, 7, 14]),
];

#[derive(Default)]
pub struct Tally(BTreeMap<(&'static str, u32), u64>);

impl Tally {
    pub fn count(&mut self, call: &'static str, refusal: u32) {
        *self.0.entry((call, refusal)).or_insert(0) += 1;
    }

    pub fn calls(&self) -> u64 {
        self.0.values().sum()
    }

    fn times(&self, call: &'static str, refusal: u32) -> u64 {
        self.0.get(&(call, refusal)).copied().unwrap_or(0)
    }
}

impl fmt::Display for Tally {
    fn fmt(&self, out: &mut fmt::Formatter) -> fmt::Result {
        writeln!(out, "{} calls", self.calls())?;
        writeln!(out, "call      refusal    times")?;
        for (call, refusals) in ANSWERS {
            for &refusal in refusals {
                writeln!(out, "{call:<9} {refusal:>7} {:>8}", self.times(call, refusal))?;
            }
        }
        Ok(())
    }
}

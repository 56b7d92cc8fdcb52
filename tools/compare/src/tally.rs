//! Counts by area, and of the differences that docs/DIFFERENCES.md lists.

use std::collections::BTreeMap;
use std::fmt;

#[derive(Default)]
pub struct Tally {
    agreed: BTreeMap<&'static str, u64>,
    known: BTreeMap<&'static str, u64>,
}

impl Tally {
    pub fn agreed(&mut self, area: &'static str) {
        *self.agreed.entry(area).or_default() += 1;
    }

    pub fn known(&mut self, difference: &'static str) {
        *self.known.entry(difference).or_default() += 1;
    }
}

impl fmt::Display for Tally {
    fn fmt(&self, f: &mut fmt::Formatter<'_>) -> fmt::Result {
        writeln!(f, "the same:")?;
        for (area, n) in &self.agreed {
            writeln!(f, "  {n:>9}  {area}")?;
        }
        writeln!(f, "differences that are listed:")?;
        for (difference, n) in &self.known {
            writeln!(f, "  {n:>9}  {difference}")?;
        }
        Ok(())
    }
}

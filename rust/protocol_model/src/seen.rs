//! How often things were seen, by name, and how often they must be.

use std::collections::BTreeMap;
use std::fmt::{self, Write};

/// What is counted, each with how often it must be seen in a million.
pub type Least = [(&'static str, u64)];

/// How often each thing was seen.
#[derive(Clone, Debug, Default)]
pub struct Seen(BTreeMap<&'static str, u64>);

impl Seen {
    pub fn see(&mut self, what: &'static str) {
        *self.0.entry(what).or_default() += 1;
    }

    pub fn times(&self, what: &str) -> u64 {
        self.0.get(what).copied().unwrap_or_default()
    }

    /// What was seen too seldom for so many million, and what has no bound.
    pub fn gaps(&self, least: &Least, millions: u64) -> Vec<String> {
        let few = least.iter().filter(|(what, least)| self.times(what) < least * millions);
        let seldom = few.map(|(what, least)| format!("{what}: {} times, not {}", self.times(what), least * millions));
        let unbound = self.0.keys().filter(|what| least.iter().all(|(name, _)| name != *what));
        seldom.chain(unbound.map(|what| format!("{what}: not listed"))).collect()
    }

    /// What was not seen at all.
    pub fn missing(&self, least: &Least) -> Vec<&'static str> {
        least.iter().map(|(what, _)| *what).filter(|what| self.times(what) == 0).collect()
    }

    /// Writes each of them, a line each.
    ///
    /// # Errors
    /// What writing gives.
    pub fn list(&self, least: &Least, to: &mut impl Write) -> fmt::Result {
        least.iter().try_for_each(|(what, _)| writeln!(to, "{:>9}  {what}", self.times(what)))
    }
}

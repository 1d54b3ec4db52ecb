//! Counts of names against an explicit list, for the streams of a bench
//! program.

use crate::hall::{Layout, TWO_SENSORS};
use std::collections::{BTreeMap, BTreeSet};

/// The name of what is listed for each layout.
pub fn of_layout(layout: &Layout, name: impl AsRef<str>) -> String {
    let two = *layout == TWO_SENSORS;
    format!(
        "{}{}",
        if two { "two sensors: " } else { "" },
        name.as_ref()
    )
}

pub struct Counts {
    /// The word before the lines about the list.
    program: &'static str,
    list: BTreeSet<String>,
    counts: BTreeMap<String, u64>,
}

impl Counts {
    pub fn new(program: &'static str, list: impl IntoIterator<Item = String>) -> Counts {
        Counts {
            program,
            list: list.into_iter().collect(),
            counts: BTreeMap::new(),
        }
    }

    pub fn count(&mut self, name: impl AsRef<str>) {
        let name = name.as_ref();
        assert!(self.list.contains(name), "{name} is not listed");
        *self.counts.entry(name.to_string()).or_default() += 1;
    }

    /// The names of the list that were never counted.
    pub fn at_zero(&self) -> Vec<String> {
        let never = |name: &&String| !self.counts.contains_key(*name);
        self.list.iter().filter(never).cloned().collect()
    }

    /// One line for each count, and the names at zero.
    pub fn lines(&self) -> Vec<String> {
        let counts = self.counts.iter();
        let mut lines: Vec<String> = counts
            .map(|(name, count)| format!("{name}: {count}"))
            .collect();
        let program = self.program;
        lines.push(format!("{program}, listed: {} names", self.list.len()));
        let zero = self.at_zero();
        let told = if zero.is_empty() {
            "none".to_string()
        } else {
            zero.join("; ")
        };
        lines.push(format!("{program}, at zero: {told}"));
        lines
    }
}

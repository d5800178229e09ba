//! A cone's keys in std's hash map, its reports, and the lines that the program prints of all cones.

use crate::item::Item;
use std::collections::HashMap;
use std::io::{self, Write};

#[derive(Default)]
pub struct Counted {
    counts: HashMap<u64, u64>,
    events: u64,
    reports: Vec<(u64, u64)>,
}

impl Counted {
    /// Takes a key with its weight, and reports it at the event that makes it reach the threshold.
    pub fn take(&mut self, threshold: u64, Item { key, weight }: Item) {
        self.events += 1;
        let count = self.counts.entry(key).or_insert(0);
        let before = *count;
        *count += u64::from(weight);
        if before < threshold && threshold <= *count {
            self.reports.push((key, self.events));
        }
    }
}

/// Prints the lines of all cones, which are `open` or `closed`.
pub fn print(out: &mut impl Write, cones: &[Counted], state: &str) -> io::Result<()> {
    for (number, cone) in cones.iter().enumerate() {
        writeln!(out, "cone {number} events {} reports {} {state}", cone.events, cone.reports.len())?;
        for (key, at) in &cone.reports {
            writeln!(out, "{key} {at}")?;
        }
    }
    let events: u64 = cones.iter().map(|cone| cone.events).sum();
    let reports: usize = cones.iter().map(|cone| cone.reports.len()).sum();
    writeln!(out, "total events {events} reports {reports}")?;
    out.flush()
}

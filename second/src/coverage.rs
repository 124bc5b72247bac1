//! Which numbers each entry has given in a run, against those that it can give.

use crate::numbers::*;
use std::collections::BTreeMap;
use std::fmt;

/// Every number that documents 01 and 02 and the C face let an entry give.
const CAN_GIVE: &[(&str, &[u32])] = &[
    ("open", &[WORLD, ROOM, DONE]),
    ("reading", &[FAULT, BACKWARD, END, DONE]),
    ("deliver", &[TAKEN, HELD, MALFORMED, CARRIER, LEVER, STEP, CONFLICT, LATE, FULL, FAULT]),
    ("replay", &[WORLD, ROOM, LOG, STEP, DONE]),
    ("digest", &[FAULT, DONE]),
    ("shown", &[FAULT, CARRIER, DONE]),
    ("rope_step", &[ROOM, ROPE, DONE]),
    ("read_record", &[MALFORMED, CARRIER, LEVER, STEP, ROOM, DONE]),
    ("write_record", &[CARRIER, LEVER, STEP, ROOM, DONE]),
    ("log_sound", &[0, 1]),
    ("step_records", &[ROOM, DONE]),
    ("merge", &[WORLD, ROOM, LOG, CONFLICT, FULL, DONE]),
    ("load_step", &[ROOM, LOAD, DONE]),
];

#[derive(Default)]
pub struct Coverage(BTreeMap<(&'static str, u32), u64>);

impl Coverage {
    pub fn count(&mut self, entry: &'static str, number: u32) {
        *self.0.entry((entry, number)).or_default() += 1;
    }

    pub fn add(&mut self, other: &Coverage) {
        for (&key, times) in &other.0 {
            *self.0.entry(key).or_default() += times;
        }
    }

    pub fn calls(&self) -> u64 {
        self.0.values().sum()
    }

    /// The pairs that can occur and did not.
    pub fn missing(&self) -> Vec<(&'static str, u32)> {
        possible().filter(|pair| !self.0.contains_key(pair)).collect()
    }

    /// Those numbers of one entry that can occur and did not.
    pub fn missing_of(&self, entry: &str) -> Vec<u32> {
        let missing = self.missing().into_iter().filter(|(of, _)| *of == entry);
        missing.map(|(_, number)| number).collect()
    }

    /// The pairs that can't occur and did.
    pub fn impossible(&self) -> Vec<(&'static str, u32)> {
        self.0.keys().copied().filter(|pair| !possible().any(|other| other == *pair)).collect()
    }
}

fn possible() -> impl Iterator<Item = (&'static str, u32)> {
    CAN_GIVE.iter().flat_map(|(entry, numbers)| numbers.iter().map(move |n| (*entry, *n)))
}

impl fmt::Display for Coverage {
    fn fmt(&self, f: &mut fmt::Formatter) -> fmt::Result {
        for &(entry, numbers) in CAN_GIVE {
            write!(f, "{entry:>12}")?;
            for number in numbers {
                write!(f, "  {number}: {}", self.0.get(&(entry, *number)).unwrap_or(&0))?;
            }
            writeln!(f)?;
        }
        Ok(())
    }
}

//! The smallest run that still shows a difference: acts are dropped while one stays.

use crate::act::Act;
use crate::pair::{Difference, Pair};
use crate::station::Station;

/// The first difference of a run from its start, if there is one.
pub fn first_difference(other: &dyn Station, acts: &[Act]) -> Option<Difference> {
    let mut pair = Pair::new(other);
    acts.iter().find_map(|act| pair.act(act).err())
}

/// Drops parts of half the length, then a quarter, down to single acts, until none can go.
pub fn shrink(other: &dyn Station, mut acts: Vec<Act>) -> Vec<Act> {
    let mut part = acts.len().div_ceil(2);
    while part > 0 {
        let shorter = drop_parts(other, &acts, part);
        if shorter.len() == acts.len() {
            part /= 2;
        }
        acts = shorter;
    }
    acts
}

/// One pass over the run, from its end, that drops each part which isn't needed.
fn drop_parts(other: &dyn Station, acts: &[Act], part: usize) -> Vec<Act> {
    let mut left = acts.to_vec();
    for start in (0..acts.len()).step_by(part).rev() {
        let mut shorter = left.clone();
        shorter.drain(start..left.len().min(start + part));
        if first_difference(other, &shorter).is_some() {
            left = shorter;
        }
    }
    left
}

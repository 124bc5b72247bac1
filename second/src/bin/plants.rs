//! `plants [WORD]`: holds each planted copy of the model, or each with WORD in its name, against
//! the model, and has to find the bug.

use second::plants::PLANTS;
use second::shrink::{first_difference, shrink};
use second::wander::run;
use second::Station;

/// The seeds that are tried; the tests try as many.
const SEEDS: u64 = 3000;

fn main() {
    let word = std::env::args().nth(1).unwrap_or_default();
    let plants = PLANTS.iter().filter(|(name, ..)| name.contains(&word));
    let found: Vec<bool> =
        plants.map(|(name, breaks, plant)| found(name, breaks, *plant)).collect();
    let missed = found.iter().filter(|&&found| !found).count();
    println!("{} plants, {missed} missed", found.len());
    std::process::exit(i32::from(missed > 0 || found.is_empty()));
}

fn found(name: &str, breaks: &str, planted: &dyn Station) -> bool {
    println!("{name}\n  {breaks}");
    let runs = (0..SEEDS).map(|seed| (seed, run(planted, seed)));
    let Some((seed, run)) = runs.into_iter().find(|(_, run)| run.difference.is_some()) else {
        println!("  MISSED in {SEEDS} seeds");
        return false;
    };
    let acts = shrink(planted, run.acts);
    println!("  seed {seed}, smallest run of {}: {:?}", acts.len(), last(&acts));
    println!("  {}", first_difference(planted, &acts).unwrap_or_default());
    true
}

fn last<T>(list: &[T]) -> &T {
    list.last().expect("a run that differs has an act")
}

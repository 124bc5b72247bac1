//! Long random runs with fixed seeds, compared after every call; every number must occur.

use second::coverage::Coverage;
use second::shrink::{first_difference, shrink};
use second::wander::run;
use second::{others, Station};

/// The seeds of the runs; the planted bugs are looked for in the same.
const SEEDS: u64 = 3000;

fn compare(other: &dyn Station, seed: u64, coverage: &mut Coverage) {
    let run = run(other, seed);
    coverage.add(&run.coverage);
    if run.difference.is_some() {
        let acts = shrink(other, run.acts);
        let difference = first_difference(other, &acts).unwrap_or_default();
        panic!("seed {seed}, {}: {acts:#?}\n{difference}", other.name());
    }
}

#[test]
fn runs_are_equal_and_every_number_occurs() {
    for other in others() {
        let mut coverage = Coverage::default();
        for seed in 0..SEEDS {
            compare(other, seed, &mut coverage);
        }
        println!("{}, {} calls\n{coverage}", other.name(), coverage.calls());
        assert_eq!(coverage.missing(), []);
        assert_eq!(coverage.impossible(), []);
    }
}

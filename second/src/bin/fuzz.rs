//! `fuzz SEED COUNT`: makes the runs of COUNT seeds from SEED on and compares every call.
//!
//! On a difference it prints the seed and the smallest run that shows it, and ends with status 1.
//! Where a station touches a page beyond a slice, it prints the seed and ends with status 3.

use second::coverage::Coverage;
use second::shrink::{first_difference, shrink};
use second::wander::{run, Run};
use second::{others, Station};
use std::io::Write;
use std::sync::atomic::{AtomicU64, Ordering};

fn main() {
    let numbers: Vec<u64> = std::env::args().skip(1).flat_map(|word| word.parse()).collect();
    let [seed, count] = numbers[..] else {
        eprintln!("usage: fuzz SEED COUNT");
        std::process::exit(2);
    };
    let mut coverage = Coverage::default();
    unsafe { signal(SIGSEGV, touched) };
    for seed in seed..seed + count {
        SEED.store(seed, Ordering::Relaxed);
        for other in others() {
            let run = run(other, seed);
            coverage.add(&run.coverage);
            if run.difference.is_some() {
                report(other, seed, run);
                std::process::exit(1);
            }
        }
        if seed % 1000 == 999 {
            eprintln!("seed {seed}: {} calls, no difference", coverage.calls());
        }
    }
    print!("{coverage}");
    println!("{} calls in the runs of {count} seeds from {seed}, no difference", coverage.calls());
}

fn report(other: &dyn Station, seed: u64, run: Run) {
    let acts = shrink(other, run.acts);
    println!("seed {seed}, {}:", other.name());
    for act in &acts {
        println!("  {act:?}");
    }
    println!("{}", first_difference(other, &acts).unwrap_or_default());
}

/// The seed of the run that is being made.
static SEED: AtomicU64 = AtomicU64::new(0);

const SIGSEGV: i32 = 11;

extern "C" {
    fn signal(number: i32, handler: extern "C" fn(i32)) -> usize;
    fn write(file: i32, bytes: *const u8, len: usize) -> isize;
    fn _exit(status: i32) -> !;
}

/// Allocates nothing, as a signal can come at any time.
extern "C" fn touched(_: i32) {
    let mut line = [0; 80];
    let mut rest = &mut line[..];
    let seed = SEED.load(Ordering::Relaxed);
    let _ = writeln!(rest, "seed {seed}: a page beyond a slice was touched");
    let len = 80 - rest.len();
    unsafe {
        write(2, line.as_ptr(), len);
        _exit(3)
    }
}
